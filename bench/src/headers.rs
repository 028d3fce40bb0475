//! The header walk against that of zniff-rs with definitions loaded once.

use std::hint::black_box;

use oracle::definition::frame::FrameDefinition;
use zniff_core::decoder::frame_definition;

use crate::clock::{self, Side};
use crate::frames::{self, Frame, Loaded};
use crate::ours::{self, Asked, BenchWalked, Decode};
use crate::stack;

/// The numbers of a header's table: 200 rows.
const TABLE: usize = 1_400;
/// The numbers of the walk's scratch rows.
const SCRATCH: usize = 768;
/// The numbers of a loaded line.
const LINE: usize = 13;
/// What the accepted call and the walk over loaded lines may cost of what zniff-rs does.
const ACCEPTED: f64 = 1.0;
const WALK: f64 = 0.2;
/// The stack that a call for a header may take.
const STACK: usize = 48 << 10;

pub fn run() {
    let definition = frames::definition();
    check(&definition);
    compare(&definition);
    share(&definition);
    grow();
    measure_stack();
}

/// Stops unless our calls, and the walk over loaded lines, have as many rows of every frame as the
/// oracle's reading of document 01.
fn check(definition: &FrameDefinition) {
    for frame in frames::frames() {
        let (tried, rows) = frames::answer(definition, &frame);
        let asked = asked(frames::TEXT, &frame);
        for call in [ours::bench_decode_accepted as Decode, ours::bench_decode_header as Decode] {
            let answer = asked.decode(call, &mut [0; TABLE], 1);
            let right = if rows == 0 { 1_007 } else { rows as u64 };
            assert_eq!(right, answer, "another answer for '{}'", frame.name);
        }
        if rows != 0 {
            let lines = frames::lines(frames::TEXT, definition, &frame);
            let walked = walk_lines(asked, &lines, tried, &mut [0; SCRATCH], 1);
            assert_eq!(rows as u64, walked.rows, "another walk of '{}'", frame.name);
        }
    }
    println!("\nOur calls and our walk have as many rows of every frame as the oracle's reading.");
}

fn compare(definition: &FrameDefinition) {
    let loaded = frames::loaded(definition);
    let unit = clock::unit();
    print!("\n{unit:5} of a header         bytes  tried  rows       Rust");
    println!("   accepted / Rust     public / Rust       walk / Rust");
    for frame in frames::frames() {
        let (tried, rows) = frames::answer(definition, &frame);
        let [rust, accepted, public, walk] = clock::time_more([
            rust_header(&loaded, &frame),
            header(frames::TEXT, &frame, ours::bench_decode_accepted),
            header(frames::TEXT, &frame, ours::bench_decode_header),
            walk(definition, &frame, tried),
        ]);
        let (name, length) = (frame.name, frame.mpdu.len());
        print!("{name:24} {length:6}  {tried:5}  {rows:4}  {:9.0}", rust.median());
        for ours in [accepted, public, walk] {
            print!("  {:9.0}  {:5.2}", ours.median(), ours.ratio_to(&rust));
        }
        println!();
    }
    println!("(allowed: {ACCEPTED} for the accepted call, {WALK} for the walk)");
}

/// Where our time goes: finding the base and the candidates that are tried, loading and walking the
/// base header.
fn share(definition: &FrameDefinition) {
    print!("\n{:5} of a header        accepted    finding", clock::unit());
    println!("  loading and walking the base  walking the base");
    for frame in frames::frames() {
        let (tried, _) = frames::answer(definition, &frame);
        let asked = asked(frames::TEXT, &frame);
        let [accepted, finding, reading, walking] = clock::time_more([
            header(frames::TEXT, &frame, ours::bench_decode_accepted),
            Box::new(move |times| _ = black_box(asked.find(tried, times))),
            Box::new(move |times| _ = black_box(asked.read_base(times))),
            walk(definition, &frame, 0),
        ]);
        let [accepted, finding] = [accepted, finding].map(|cost| cost.median());
        let [reading, walking] = [reading, walking].map(|cost| cost.median());
        println!(
            "{:24} {accepted:10.0}  {finding:9.0}  {reading:28.0}  {walking:16.0}",
            frame.name
        );
    }
}

/// How the accepted call grows with candidates that the base's fields rule out, and with lines that
/// have nothing to do with the frame. A text has at most 64 H and 16 D.
fn grow() {
    let frame = &frames::frames()[2];
    say_growth("candidates", [0, 11, 22, 34], frames::with_candidates, frame);
    say_growth("sets", [0, 3, 6, 10], frames::with_sets, frame);
}

fn say_growth(of: &str, more: [usize; 4], text: fn(usize) -> Vec<u8>, frame: &Frame) {
    let texts = more.map(text);
    let call = ours::bench_decode_accepted;
    let costs = clock::time_more(texts.each_ref().map(|text| header(text, frame, call)));
    let (unit, first) = (clock::unit(), costs[0].median());
    println!("\nmore {of:10}  text bytes  {unit} of a call  of that by each byte more");
    for ((more, text), cost) in more.iter().zip(&texts).zip(&costs) {
        let bytes = (text.len() - texts[0].len()).max(1) as f64;
        let (length, cost) = (text.len(), cost.median());
        println!("{more:15}  {length:10}  {cost:15.0}  {:25.2}", (cost - first) / bytes);
    }
}

fn measure_stack() {
    let call = ours::bench_decode_header as *const ();
    let taken = frames::frames().into_iter().map(|frame| {
        let (text, mpdu, mut table) = (frames::TEXT, &frame.mpdu, [0u64; TABLE]);
        let (region, speed) = (usize::from(frames::REGION), usize::from(frame.speed));
        let (rows, room) = (table.as_mut_ptr() as usize, table.len());
        let (text, length) = (text.as_ptr() as usize, text.len());
        let mpdu = (mpdu.as_ptr() as usize, mpdu.len());
        let arguments = [text, length, mpdu.0, mpdu.1, region, speed, rows, room, 1];
        // SAFETY: as in `Asked::decode`.
        unsafe { stack::taken(call, &arguments) }
    });
    let most = taken.max().expect("some frame");
    println!("\nstack of decode_header: {most} bytes at most (allowed: {STACK})");
}

pub fn asked<'a>(text: &'a [u8], frame: &'a Frame) -> Asked<'a> {
    let (region, speed) = (u64::from(frames::REGION), u64::from(frame.speed));
    Asked { text, mpdu: &frame.mpdu, region, speed }
}

pub fn header<'a>(text: &'a [u8], frame: &'a Frame, call: Decode) -> Side<'a> {
    let mut table = [0; TABLE];
    Box::new(move |times| {
        black_box(asked(black_box(text), frame).decode(call, &mut table, times));
    })
}

/// The walk over loaded lines alone.
fn walk<'a>(definition: &FrameDefinition, frame: &'a Frame, tried: usize) -> Side<'a> {
    let lines = frames::lines(frames::TEXT, definition, frame);
    let mut scratch = [0; SCRATCH];
    Box::new(move |times| {
        let asked = asked(black_box(frames::TEXT), frame);
        black_box(walk_lines(asked, &lines, tried, &mut scratch, times));
    })
}

/// Walks the lines of the base header, and behind them those of each candidate tried, so many times
/// each. Answers the last walk.
fn walk_lines(
    asked: Asked,
    lines: &Loaded,
    tried: usize,
    scratch: &mut [u64],
    times: u32,
) -> BenchWalked {
    let start = BenchWalked { bit: 0, rows: 0 };
    let base = asked.walk(&lines.base, 0, &start, scratch, times);
    let first = lines.base.len() / LINE;
    let own = lines.candidates[..tried].iter();
    own.map(|fields| asked.walk(fields, first, &base, scratch, times)).last().unwrap_or(base)
}

fn rust_header<'a>(
    loaded: &'a frame_definition::schema::FrameDefinition,
    frame: &'a Frame,
) -> Side<'a> {
    clock::side(move || {
        let (mpdu, region, speed) = (black_box(&frame.mpdu[..]), frames::REGION, frame.speed);
        let header = frame_definition::decode::decode_header(loaded, mpdu, region, speed);
        drop(black_box(header));
    })
}
