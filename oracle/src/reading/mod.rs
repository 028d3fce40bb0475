//! Document 01, 'Records and frames', 'Lawful reading of a header' and 'Parameters of a command', by
//! themselves: each rule (F, H and C of docs/RULES.md) a function, in exact numbers. Whoever works on it should not
//! follow the Rust, which `oracle/test` compares it with. It answers where the Rust cannot, and
//! tells the generator where a field would lie.

pub mod command;
pub mod header;
pub mod listing;
pub mod nodes;
pub mod pti;
pub mod values;
pub mod xml;

use crate::answer::{push_frame, written};
use crate::definition;
use crate::reading::pti::By;
use crate::refusal::Refusal;
use crate::request::Request;
use crate::rows::within_table;
use crate::totals::{Reader, Run};

/// The answer to a request on frames, to `header`, `command`, `commandby` or `totals`, or on a value; `None` to another.
pub fn answer(request: &Request) -> Option<String> {
    let answer = match request {
        Request::Header { cap, region, speed, text, mpdu } => {
            header_answer(*cap, *region, *speed, text, mpdu)
        }
        Request::Command { cap, text, payload } => {
            command_answer("command", command::Offsets::Answered, *cap, text, payload)
        }
        Request::Commandby { offsets, cap, text, payload } => {
            command_answer("commandby", *offsets, *cap, text, payload)
        }
        Request::Recordby { by, body } => record_answer("recordby", *by, body),
        Request::Record { body } => record_answer("frame", By::SOURCE, body),
        Request::Framesby { by, cap, payload } => frames_answer("framesby", *by, *cap, payload),
        Request::Frames { cap, payload } => frames_answer("frames", By::SOURCE, *cap, payload),
        Request::Totals { start, by, region, text, payloads } => {
            let run = Run { start: *start, by: *by, region: *region, text, payloads };
            Ok(run.answer(Reader::Reading).line)
        }
        Request::Headervalue { cap, row, region, speed, text, mpdu } => definition::read(text)
            .and_then(|definition| values::header_values(&definition, mpdu, *region, *speed))
            .and_then(|values| written("headervalue", &values, *row, *cap)),
        Request::Commandvalue { offsets, cap, row, text, payload } => definition::read(text)
            .and_then(|definition| values::command_values(&definition, payload, *offsets))
            .and_then(|values| written("commandvalue", &values, *row, *cap)),
        _ => return None,
    };
    Some(answer.unwrap_or_else(|refusal| refusal.to_string()))
}

fn header_answer(
    cap: u64,
    region: u64,
    speed: u64,
    text: &[u8],
    mpdu: &[u8],
) -> Result<String, Refusal> {
    let header = header::decode_header(&definition::read(text)?, mpdu, region, speed)?;
    within_table(&header.rows, cap)?;
    Ok(header.to_string())
}

fn record_answer(word: &str, by: By, body: &[u8]) -> Result<String, Refusal> {
    let mut answer = word.to_string();
    push_frame(&pti::parse_record(by, body)?, word, &mut answer);
    Ok(answer)
}

fn frames_answer(word: &str, by: By, cap: u64, payload: &[u8]) -> Result<String, Refusal> {
    let frames = pti::parse_payload(by, payload, cap)?;
    let mut answer = format!("{word} {}", frames.len());
    for frame in frames {
        push_frame(&frame, word, &mut answer);
    }
    Ok(answer)
}

fn command_answer(
    word: &str,
    offsets: command::Offsets,
    cap: u64,
    text: &[u8],
    payload: &[u8],
) -> Result<String, Refusal> {
    let command = command::decode_params(&definition::read(text)?, payload, offsets)?;
    within_table(&command.rows, cap)?;
    Ok(format!("{word} {command}"))
}
