//! A row of a header or of a command as people read it, against zniff-rs, which reads the header and makes a string of the row, and
//! makes a string of each row of a command as it reads it.

use std::hint::black_box;

use zniff_core::decoder::command_class;
use zniff_core::decoder::command_class::decode::{Decoded, DecodedParam as Parameter};
use zniff_core::decoder::command_class::schema::ZwClasses;
use zniff_core::decoder::frame_definition::decode::{self, DecodedParam};
use zniff_core::decoder::frame_definition::schema;

use crate::clock::{self, Side};
use crate::commands::{self, Command};
use crate::frames::{self, Frame};
use crate::ours;

/// Room for every value.
const ROOM: usize = 4_096;
/// What the call by an accepted text may cost of what zniff-rs does.
const ACCEPTED: f64 = 1.0;

pub fn run() {
    let definition = frames::definition();
    let loaded = frames::loaded(&definition);
    let unit = clock::unit();
    println!("\n{unit:5} of a value           rows   row       Rust  accepted / Rust  what is read");
    for frame in frames::frames() {
        let (_, rows) = frames::answer(&definition, &frame);
        for row in [0, rows / 2, rows.saturating_sub(1)] {
            if rows == 0 {
                continue;
            }
            let read = said(&loaded, &frame, row);
            let mut buffer = [0; ROOM];
            let length = ask(&frame, row, &mut buffer, 1);
            assert_eq!(read.as_bytes(), &buffer[..length as usize], "row {row} of '{}'", frame.name);
            let [rust, ours] =
                clock::time_more([rust_value(&loaded, &frame, row), value(&frame, row)]);
            println!(
                "{:24} {rows:4}  {row:4}  {:9.0}  {:8.0}  {:4.2}  {read}",
                frame.name,
                rust.median(),
                ours.median(),
                ours.ratio_to(&rust)
            );
        }
    }
    println!("(allowed: {ACCEPTED} for the accepted call)");
    run_commands();
}

fn run_commands() {
    let unit = clock::unit();
    println!("\n{unit:5} of a command's value rows   row       Rust  accepted / Rust");
    for command in commands::commands() {
        let rows = command.rows();
        let loaded = command.named();
        let mut asked = vec![0, rows / 2, rows - 1];
        asked.dedup();
        for row in asked {
            let read = said_row(&loaded, &command, row);
            let mut buffer = [0; ROOM];
            let length = ours::command_value(&command.text, &command.payload, row, &mut buffer, 1);
            assert_eq!(read.as_bytes(), &buffer[..length as usize], "row {row} of '{}'", command.name);
            let [rust, ours] =
                clock::time_more([rust_row(&loaded, &command, row), command_row(&command, row)]);
            println!(
                "{:24} {rows:4}  {row:4}  {:9.0}  {:8.0}  {:4.2}",
                command.name,
                rust.median(),
                ours.median(),
                ours.ratio_to(&rust)
            );
        }
    }
    println!("(allowed: {ACCEPTED} for the accepted call)");
}

fn command_row<'a>(command: &'a Command, row: usize) -> Side<'a> {
    let mut buffer = [0; ROOM];
    Box::new(move |times| {
        let (text, payload) = (black_box(&command.text), &command.payload);
        _ = black_box(ours::command_value(text, payload, row, &mut buffer, times));
    })
}

fn rust_row<'a>(loaded: &'a ZwClasses, command: &'a Command, row: usize) -> Side<'a> {
    clock::side(move || drop(black_box(said_row(loaded, command, row))))
}

/// The Rust's command, and its string for a row.
fn said_row(loaded: &ZwClasses, command: &Command, row: usize) -> String {
    let decoded = command_class::decode::decode(loaded, black_box(&command.payload[..]));
    let Decoded::Command(decoded) = decoded else {
        panic!("a command that has rows");
    };
    let mut left = row;
    nth_param(&decoded.params, &mut left).expect("a row of the command").display.clone()
}

/// A row by its number, rows being depth first.
fn nth_param<'a>(params: &'a [Parameter], left: &mut usize) -> Option<&'a Parameter> {
    for param in params {
        if *left == 0 {
            return Some(param);
        }
        *left -= 1;
        if let Some(found) = nth_param(&param.children, left) {
            return Some(found);
        }
    }
    None
}

fn ask(frame: &Frame, row: usize, buffer: &mut [u8], times: u32) -> u64 {
    let (region, speed) = (u64::from(frames::REGION), u64::from(frame.speed));
    ours::header_value(black_box(frames::TEXT), &frame.mpdu, region, speed, row, buffer, times)
}

fn value<'a>(frame: &'a Frame, row: usize) -> Side<'a> {
    let mut buffer = [0; ROOM];
    Box::new(move |times| _ = black_box(ask(frame, row, &mut buffer, times)))
}

fn rust_value<'a>(
    loaded: &'a schema::FrameDefinition,
    frame: &'a Frame,
    row: usize,
) -> Side<'a> {
    clock::side(move || drop(black_box(said(loaded, frame, row))))
}

/// The Rust's header, and its string for a row.
fn said(loaded: &schema::FrameDefinition, frame: &Frame, row: usize) -> String {
    let mpdu = black_box(&frame.mpdu[..]);
    let header = decode::decode_header(loaded, mpdu, frames::REGION, frame.speed);
    let header = header.expect("a header that has rows");
    let mut left = row;
    nth(&header.params, &mut left).expect("a row of the header").display_value()
}

/// A row by its number, rows being depth first.
fn nth<'a>(params: &'a [DecodedParam], left: &mut usize) -> Option<&'a DecodedParam> {
    for param in params {
        if *left == 0 {
            return Some(param);
        }
        *left -= 1;
        if let Some(found) = nth(&param.children, left) {
            return Some(found);
        }
    }
    None
}
