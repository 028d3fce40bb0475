//! The parameter walk against that of zniff-rs with definitions loaded once.

use std::hint::black_box;

use zniff_core::decoder::command_class;

use crate::clock::{self, Side};
use crate::commands::{self, Command};
use crate::ours::{self, DecodeParams};
use crate::stack;

/// The numbers of a command's table: 7,000 rows.
const TABLE: usize = 70_000;
/// What the accepted call may cost of what zniff-rs does, and on long commands.
const ACCEPTED: f64 = 1.0;
const LONG: f64 = 0.5;
/// The stack that a call may take.
const STACK: usize = 16 << 10;

const CALLS: [DecodeParams; 2] = [ours::bench_decode_params_accepted, ours::bench_decode_params];

pub fn run() {
    let commands = commands::commands();
    check(&commands);
    compare(&commands);
    grow();
    measure_stack(&commands);
}

/// Stops unless our calls have as many rows of every command as the oracle's reading of document 01.
fn check(commands: &[Command]) {
    for command in commands {
        for call in CALLS {
            let (text, payload) = (&command.text, &command.payload);
            let rows = ours::decode_params(call, text, payload, &mut vec![0; TABLE], 1);
            assert_eq!(command.rows() as u64, rows, "other rows of '{}'", command.name);
        }
    }
    println!("\nOur calls have as many rows of every command as the oracle's reading.");
}

fn compare(commands: &[Command]) {
    let unit = clock::unit();
    print!("\n{unit:5} of a command        text  bytes  rows       Rust");
    println!("   accepted / Rust     public / Rust");
    for command in commands {
        let loaded = command.loaded();
        let [rust, accepted, public] = clock::time_more([
            rust(&loaded, command),
            ours(command, CALLS[0]),
            ours(command, CALLS[1]),
        ]);
        let (name, text, length) = (command.name, command.text.len(), command.payload.len());
        print!("{name:24} {text:5}  {length:5}  {:4}  {:9.0}", command.rows(), rust.median());
        for ours in [accepted, public] {
            print!("  {:9.0}  {:5.2}", ours.median(), ours.ratio_to(&rust));
        }
        println!();
    }
    println!("(allowed: {ACCEPTED} for the accepted call, {LONG} on 2,000 bytes)");
}

/// How the accepted call grows with the payload and its rows.
fn grow() {
    let commands = [250, 500, 1_000, 2_000].map(commands::list);
    let costs = clock::time_more(commands.each_ref().map(|command| ours(command, CALLS[0])));
    println!("\nrows of a group: bytes  rows  {} of a call  of that a row", clock::unit());
    for (command, cost) in commands.iter().zip(&costs) {
        let (length, rows, cost) = (command.payload.len(), command.rows(), cost.median());
        println!("{length:22}  {rows:4}  {cost:15.0}  {:13.1}", cost / rows as f64);
    }
}

fn measure_stack(commands: &[Command]) {
    let taken = commands.iter().map(|command| {
        let (text, payload, mut table) = (&command.text, &command.payload, vec![0u64; TABLE]);
        let (rows, room) = (table.as_mut_ptr() as usize, table.len());
        let (text, length) = (text.as_ptr() as usize, text.len());
        let arguments = [text, length, payload.as_ptr() as usize, payload.len(), rows, room, 1];
        // SAFETY: as in `ours::decode_params`.
        unsafe { stack::taken(CALLS[1] as *const (), &arguments) }
    });
    let most = taken.max().expect("some command");
    println!("\nstack of decode_params: {most} bytes at most (allowed: {STACK})");
}

fn ours(command: &Command, call: DecodeParams) -> Side<'_> {
    let mut table = vec![0; TABLE];
    Box::new(move |times| {
        let (text, payload) = (black_box(&command.text), &command.payload);
        black_box(ours::decode_params(call, text, payload, &mut table, times));
    })
}

fn rust<'a>(loaded: &'a command_class::schema::ZwClasses, command: &'a Command) -> Side<'a> {
    clock::side(move || {
        let payload = black_box(&command.payload[..]);
        drop(black_box(command_class::decode::decode(loaded, payload)));
    })
}
