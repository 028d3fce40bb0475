//! The answer to each request: what the Rust says, and the refusals of docs/RULES.md around it.

use std::fmt::Write;

use zniff_core::decoder::frame_definition::decode::oracle::{check_crc, read_bits};
use zniff_core::pti::{self, Direction, PtiFrame};

use crate::definition::command::CommandDefinition;
use crate::definition::frame::FrameDefinition;
use crate::definition::{self, Definition};
use crate::limits::{self, within};
use crate::reading::command::Offsets;
use crate::reading::pti::{By, Frame, Origin, Target, region_bits};
use crate::refusal::Refusal;
use crate::request::{Request, push_hex};
use crate::rows::{self, LACKING, within_table};
use crate::totals::{Reader, Run};
use crate::{reading, source};

/// An answer, without its 0x0A.
pub struct Answer {
    pub line: String,
    /// The Rust has none, since a number on its way passes 64 bits: this is the second reading's.
    pub is_past_the_rust: bool,
}

impl From<Result<String, Refusal>> for Answer {
    fn from(answer: Result<String, Refusal>) -> Answer {
        let line = answer.unwrap_or_else(|refusal| refusal.to_string());
        Answer { line, is_past_the_rust: false }
    }
}

/// The line that answers a line.
pub fn answer(line: &[u8]) -> String {
    full_answer(line).line
}

/// The answer to a line.
pub fn full_answer(line: &[u8]) -> Answer {
    let Some(request) = Request::read(line) else {
        return Ok("bad request".to_string()).into();
    };
    let answer = match &request {
        Request::Rate { channel, region } => Ok(rate(*channel, *region)),
        Request::Count { payload } => count(payload),
        Request::Body { k, payload } => Ok(body(*k, payload)),
        Request::Record { body } => record("frame", By::SOURCE, body),
        Request::Frames { cap, payload } => frames("frames", By::SOURCE, *cap, payload),
        Request::Frametable { cap, payload } => frames("frametable", By::SOURCE, *cap, payload),
        Request::Recordby { by, body } => record("recordby", *by, body),
        Request::Framesby { by, cap, payload } => frames("framesby", *by, *cap, payload),
        Request::Frametableby { by, cap, payload } => frames("frametableby", *by, *cap, payload),
        Request::Frametext { text } => verdict::<FrameDefinition>(text),
        Request::Commandtext { text } => verdict::<CommandDefinition>(text),
        Request::Header { cap, region, speed, text, mpdu } => {
            return header(*cap, *region, *speed, text, mpdu)
                .unwrap_or_else(|refusal| Err(refusal).into());
        }
        Request::Command { cap, text, payload } => {
            command("command", Offsets::Answered, *cap, text, payload)
        }
        Request::Commandby { offsets, cap, text, payload } => {
            command("commandby", *offsets, *cap, text, payload)
        }
        Request::Bits { place, width, bytes } => Ok(bits(*place, *width, bytes)),
        Request::Checksum { speed, mpdu } => Ok(checksum(*speed, mpdu)),
        Request::Tidy { cap, text } => tidy(*cap, text),
        Request::Headernodes { cap, row, region, speed, text, mpdu } => {
            headernodes(*cap, *row, *region, *speed, text, mpdu)
        }
        Request::Commandnodes { offsets, cap, row, text, payload } => {
            commandnodes(*offsets, *cap, *row, text, payload)
        }
        Request::Listing { region, speed, text, mpdu, listing } => {
            judge(*region, *speed, text, mpdu, listing)
        }
        Request::Headervalue { cap, row, region, speed, text, mpdu } => {
            return headervalue(*cap, *row, *region, *speed, text, mpdu)
                .unwrap_or_else(|refusal| Err(refusal).into());
        }
        Request::Commandvalue { offsets, cap, row, text, payload } => {
            commandvalue(*offsets, *cap, *row, text, payload)
        }
        Request::Totals { start, by, region, text, payloads } => {
            let run = Run { start: *start, by: *by, region: *region, text, payloads };
            return run.answer(Reader::Source);
        }
        Request::Xml { cap, text } => xml(*cap, text),
        Request::Unxml { cap, xml } => unxml(*cap, xml),
    };
    answer.into()
}

/// F13: 0 for what the lists do not have, and so for what the Rust's `u8` cannot hold.
fn rate(channel: u64, region: u64) -> String {
    let rate = match (u8::try_from(channel), u8::try_from(region)) {
        (Ok(channel), Ok(region)) => pti::speed_for(channel, region),
        _ => 0,
    };
    format!("rate {rate}")
}

fn count(payload: &[u8]) -> Result<String, Refusal> {
    within(limits::PAYLOAD, payload)?;
    Ok(format!("count {}", pti::split_records(payload).len()))
}

/// An empty part where there is no such body or the payload is too long.
fn body(k: u64, payload: &[u8]) -> String {
    let bodies = match within(limits::PAYLOAD, payload) {
        Ok(()) => pti::split_records(payload),
        Err(_) => Vec::new(),
    };
    let body = usize::try_from(k).ok().and_then(|k| bodies.get(k).copied());
    let mut answer = "body ".to_string();
    push_hex(body.unwrap_or_default(), &mut answer);
    answer
}

/// The Rust's answer for firmware 2 and the beams of document 01, the second reading's for others.
fn record(word: &str, by: By, body: &[u8]) -> Result<String, Refusal> {
    region_bits(by.firmware)?;
    let frame = if by == By::SOURCE {
        within(limits::BODY, body)?;
        let frame = pti::parse_record(body).ok_or(Refusal { number: 9, carried: 0 })?;
        by_source(&frame, mpdu_start(body, &frame), None)
    } else {
        reading::pti::parse_record(by, body)?
    };
    let mut answer = word.to_string();
    push_frame(&frame, word, &mut answer);
    Ok(answer)
}

/// The Rust's answer for firmware 2 and the beams of document 01, the second reading's for others.
fn frames(word: &str, by: By, cap: u64, payload: &[u8]) -> Result<String, Refusal> {
    region_bits(by.firmware)?;
    let frames = if by == By::SOURCE {
        source_frames(cap, payload)?
    } else {
        reading::pti::parse_payload(by, payload, cap)?
    };
    let mut answer = format!("{word} {}", frames.len());
    for frame in frames {
        push_frame(&frame, word, &mut answer);
    }
    Ok(answer)
}

pub fn source_frames(cap: u64, payload: &[u8]) -> Result<Vec<Frame>, Refusal> {
    within(limits::PAYLOAD, payload)?;
    let frames = pti::parse_payload(payload);
    if frames.len() as u64 > cap {
        return Err(Refusal { number: 8, carried: frames.len() });
    }
    let places = places_in_payload(payload, &frames).into_iter();
    Ok(frames.iter().zip(places).map(|(frame, (start, o))| by_source(frame, start, Some(o))).collect())
}

/// The source's frame, its MPDU at that place, its record there.
fn by_source(frame: &PtiFrame, start: usize, origin: Option<Origin>) -> Frame {
    let PtiFrame { region, channel, speed, rssi, .. } = *frame;
    Frame {
        is_sent: matches!(frame.direction, Direction::Tx),
        region,
        channel,
        rate: speed,
        rssi,
        beams: frame.beam_count.map(usize::from),
        start,
        length: frame.mpdu.len(),
        origin,
        target: Target::default(),
    }
}

/// Where each frame's MPDU starts in the payload, and where its record stands: which of the Rust's own
/// records it is, and the address of its body. The Rust copies the bytes and forgets the place, so the
/// records are gone through once more; they must give the very frames.
fn places_in_payload(payload: &[u8], frames: &[PtiFrame]) -> Vec<(usize, Origin)> {
    let mut expected = frames.iter();
    let mut places = Vec::with_capacity(frames.len());
    for (record, body) in pti::split_records(payload).into_iter().enumerate() {
        if let Some(frame) = pti::parse_record(body) {
            assert_eq!(Some(&frame), expected.next(), "parse_payload and parse_record differ");
            let at = body.as_ptr().addr() - payload.as_ptr().addr();
            assert_eq!(0x5B, payload[at - 3], "no bracket opens the record");
            places.push((at + mpdu_start(body, &frame), Origin { record, place: at - 3 }));
        }
    }
    assert_eq!(None, expected.next(), "parse_payload and parse_record differ");
    places
}

/// Where a frame's MPDU starts in its record's body; its bytes must stand there.
fn mpdu_start(body: &[u8], frame: &PtiFrame) -> usize {
    let start = pti::oracle::mpdu_start(body);
    assert_eq!(body[start..start + frame.mpdu.len()], frame.mpdu, "the MPDU is not at {start}");
    start
}

/// Writes ` DIR REGION CHANNEL RATE RSSI BEAMS START LENGTH`, and for a word that names a firmware
/// ` RECORD PLACE`, if the frame stands in a payload, and ` NODE HASH POWER`.
pub fn push_frame(frame: &Frame, word: &str, answer: &mut String) {
    let Frame { region, channel, rate, rssi, start, length, .. } = frame;
    let direction = u8::from(frame.is_sent);
    let beams = frame.beams.map_or("-".to_string(), |count| count.to_string());
    write!(answer, " {direction} {region} {channel} {rate} {rssi} {beams} {start} {length}")
        .expect("a string takes all");
    if let Some(Origin { record, place }) = frame.origin.filter(|_| word.ends_with("by")) {
        write!(answer, " {record} {place}").expect("a string takes all");
    }
    if word.ends_with("by") {
        let Target { node, hash, power } = frame.target;
        for number in [node, hash, power] {
            let number = number.map_or("-".to_string(), |number| number.to_string());
            write!(answer, " {number}").expect("a string takes all");
        }
    }
}

/// The check of a definition text, which the Rust does not have.
fn verdict<D: Definition>(text: &[u8]) -> Result<String, Refusal> {
    definition::read::<D>(text).map(|_| "accepted".to_string())
}

/// The Rust's answer, or that of the second reading where the Rust has none.
fn header(cap: u64, region: u64, speed: u64, text: &[u8], mpdu: &[u8]) -> Result<Answer, Refusal> {
    let definition: FrameDefinition = definition::read(text)?;
    within(limits::MPDU, mpdu)?;
    let (decoded, is_past_the_rust) =
        match source::header::decode_header(&definition, mpdu, region, speed) {
            Some(decoded) => (decoded, false),
            None => (reading::header::decode_header(&definition, mpdu, region, speed), true),
        };
    let answer = decoded.and_then(|header| {
        within_table(&header.rows, cap)?;
        Ok(header.to_string())
    });
    Ok(Answer { is_past_the_rust, ..answer.into() })
}

/// By the offsets of document 01 the Rust's answer, with what each row lacks by the second reading; by
/// position the second reading's.
fn command(
    word: &str,
    offsets: Offsets,
    cap: u64,
    text: &[u8],
    payload: &[u8],
) -> Result<String, Refusal> {
    let definition: CommandDefinition = definition::read(text)?;
    within(limits::COMMAND, payload)?;
    let read = reading::command::decode_params(&definition, payload, offsets)?;
    let command = match offsets {
        Offsets::Answered => {
            with_lacking(source::command::decode_params(&definition, payload)?, &read)
        }
        Offsets::Position => read,
    };
    within_table(&command.rows, cap)?;
    Ok(format!("{word} {command}"))
}

/// The rows, with what each lacks by those of another reading.
fn with_lacking(mut command: rows::Command, read: &rows::Command) -> rows::Command {
    for (row, read) in command.rows.iter_mut().zip(&read.rows) {
        row[LACKING] = read[LACKING];
    }
    command
}

/// The Rust sums place and width in 64 bits. Where that would wrap no bits stand, so the reader
/// declines.
fn bits(place: u64, width: u64, bytes: &[u8]) -> String {
    let value = match place.checked_add(width) {
        Some(_) => read_bits(bytes, place as usize, width as usize),
        None => None,
    };
    value.map_or("bits -".to_string(), |value| format!("bits {value}"))
}

/// `decode_header` takes a checksum of two bytes at a speed over 1, else of one.
fn checksum(speed: u64, mpdu: &[u8]) -> String {
    let right = check_crc(mpdu, if speed > 1 { 2 } else { 1 });
    format!("checksum {}", u8::from(right))
}

/// U2, U3: a command text with S for the letter of each U line, if the buffer has room for it.
fn tidy(cap: u64, text: &[u8]) -> Result<String, Refusal> {
    definition::read::<CommandDefinition>(text)?;
    let mut tidied = Vec::with_capacity(text.len());
    for line in text.split_inclusive(|&byte| byte == b'\n') {
        match line.strip_prefix(b"U\t") {
            Some(fields) => tidied.extend([b"S\t", fields].concat()),
            None => tidied.extend(line),
        }
    }
    in_buffer("tidy", &tidied, cap)
}

/// BM4: the nodes of a header's row, by the second reading: the Rust lists none.
fn headernodes(
    cap: u64,
    row: u64,
    region: u64,
    speed: u64,
    text: &[u8],
    mpdu: &[u8],
) -> Result<String, Refusal> {
    let definition: FrameDefinition = definition::read(text)?;
    let mask = reading::nodes::header_mask(&definition, mpdu, region, speed, row)?;
    reading::nodes::listed("headernodes", mask, cap)
}

/// BM6: the nodes of a command's row, by the second reading.
fn commandnodes(
    offsets: Offsets,
    cap: u64,
    row: u64,
    text: &[u8],
    payload: &[u8],
) -> Result<String, Refusal> {
    let definition: CommandDefinition = definition::read(text)?;
    let mask = reading::nodes::command_mask(&definition, payload, offsets, row)?;
    reading::nodes::listed("commandnodes", mask, cap)
}

/// LS4: a listing, judged by the second reading: the Rust judges none.
fn judge(region: u64, speed: u64, text: &[u8], mpdu: &[u8], listing: &[u8]) -> Result<String, Refusal> {
    let definition: FrameDefinition = definition::read(text)?;
    let differing = reading::listing::judge(&definition, mpdu, region, speed, listing)?;
    Ok(differing.map_or("yes".to_string(), |line| format!("differs {line}")))
}

/// VT9: a row of a header by the Rust's own string, or by the second reading where the Rust has none.
fn headervalue(
    cap: u64,
    row: u64,
    region: u64,
    speed: u64,
    text: &[u8],
    mpdu: &[u8],
) -> Result<Answer, Refusal> {
    let definition: FrameDefinition = definition::read(text)?;
    within(limits::MPDU, mpdu)?;
    let (values, is_past_the_rust) =
        match source::header::display_values(&definition, mpdu, region, speed) {
            Some(values) => (values?, false),
            None => (reading::values::header_values(&definition, mpdu, region, speed)?, true),
        };
    let answer = written("headervalue", &values, row, cap);
    Ok(Answer { is_past_the_rust, ..answer.into() })
}

/// VT11: a row of a command by the Rust's own string, or by the second reading where offsets count by position.
fn commandvalue(
    offsets: Offsets,
    cap: u64,
    row: u64,
    text: &[u8],
    payload: &[u8],
) -> Result<String, Refusal> {
    let definition: CommandDefinition = definition::read(text)?;
    within(limits::COMMAND, payload)?;
    let values = match offsets {
        Offsets::Answered => source::command::displays(&definition, payload)?,
        Offsets::Position => reading::values::command_values(&definition, payload, offsets)?,
    };
    written("commandvalue", &values, row, cap)
}

/// VT9, VT11: the value of a row, if there is such a one and the buffer has room for it.
pub fn written(word: &str, values: &[String], row: u64, cap: u64) -> Result<String, Refusal> {
    let value = usize::try_from(row).ok().and_then(|row| values.get(row));
    let value = value.ok_or(Refusal { number: 11, carried: row as usize })?;
    in_buffer(word, value.as_bytes(), cap)
}

/// X2: a text as XML, by the second reading: the Rust writes none. Its schema must read the same text out of it.
fn xml(cap: u64, text: &[u8]) -> Result<String, Refusal> {
    let xml = reading::xml::xml_of(text)?;
    let read = source::xml::text_of(xml.as_bytes());
    assert_eq!(read.as_deref(), Some(text), "the Rust reads otherwise: {xml}");
    in_buffer("xml", xml.as_bytes(), cap)
}

/// X1: the text that an XML says, by the second reading. Where the Rust's schema takes an XML that says an accepted text,
/// it must read that text; it takes no list of elements with others between them, and some XML that is outside of ours.
fn unxml(cap: u64, xml: &[u8]) -> Result<String, Refusal> {
    let text = reading::xml::text_of(xml).map_err(|place| Refusal { number: 14, carried: place })?;
    definition::read::<FrameDefinition>(&text)?;
    if let Some(read) = source::xml::text_of(xml) {
        assert_eq!(read, text, "the Rust reads otherwise: {}", xml.escape_ascii());
    }
    in_buffer("unxml", &text, cap)
}

/// Bytes, if a buffer has room for them.
fn in_buffer(word: &str, bytes: &[u8], cap: u64) -> Result<String, Refusal> {
    if bytes.len() as u64 > cap {
        return Err(Refusal { number: 12, carried: bytes.len() });
    }
    let mut answer = format!("{word} ");
    push_hex(bytes, &mut answer);
    Ok(answer)
}
