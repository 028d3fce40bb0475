//! The checks of definition texts against a plain C loop over the same bytes.

use std::hint::black_box;

use oracle::limits;

use crate::clock::{self, Side};
use crate::ours::{self, Check};
use crate::{stack, texts};

/// The lengths of texts, by which their time is seen to grow.
const LENGTHS: [usize; 3] = [1_000, 8_000, limits::TEXT];
/// How many times the C loop's time a check may take.
const TIMES: f64 = 8.0;
/// The stack that a check may take.
const STACK: usize = 8 << 10;

#[repr(C)]
struct Counts {
    tabs: usize,
    line_ends: usize,
}

unsafe extern "C" {
    /// `floor.c`.
    fn count(text: *const u8, length: usize) -> Counts;
}

/// Texts of one length that are timed one after the other, and their check.
#[derive(Clone)]
struct Case {
    name: &'static str,
    check: Check,
    texts: Vec<Vec<u8>>,
}

impl Case {
    /// The bytes of all texts.
    fn bytes(&self) -> usize {
        self.texts.iter().map(Vec::len).sum()
    }
}

pub fn run() {
    let frames = LENGTHS.map(|length| frame("frame text", several(length, texts::frame)));
    let commands = LENGTHS.map(|length| command("command text", several(length, texts::command)));
    let extremes = [
        frame("shortest P lines", vec![texts::shortest_params()]),
        frame("longest P lines", vec![texts::longest_params()]),
        frame("longest paths", vec![texts::longest_paths()]),
        frame("mixed P lines", vec![texts::mixed_params()]),
        command("shortest S lines", vec![texts::shortest_bits()]),
        command("mixed lines", vec![texts::mixed_items()]),
    ];
    let all = [&frames[..], &commands, &extremes].concat();
    all.iter().for_each(judge);
    println!("\nAll texts are accepted, and damaged copies are refused with the damaged line.");
    compare(&all);
    grow(&frames);
    grow(&commands);
    measure_stack(&all);
}

fn frame(name: &'static str, texts: Vec<Vec<u8>>) -> Case {
    Case { name, check: ours::tap_check_frame_text, texts }
}

fn command(name: &'static str, texts: Vec<Vec<u8>>) -> Case {
    Case { name, check: ours::tap_check_command_text, texts }
}

/// As many texts of that length as the longest text has room for. A single short text, checked
/// again and again, would be timed too well: the processor learns all its branches.
fn several(length: usize, text: impl Fn(usize, u64) -> Vec<u8>) -> Vec<Vec<u8>> {
    (0..limits::TEXT / length).map(|stream| text(length, stream as u64)).collect()
}

/// Stops unless each text is accepted and a copy with a zero byte in it refused, whose line is
/// then none of the forms.
fn judge(case: &Case) {
    for text in &case.texts {
        assert_eq!((0, 0), ours::verdict(case.check, text), "a {} is not accepted", case.name);
        for at in [0, text.len() / 2, text.len() - 1] {
            let mut damaged = text.clone();
            damaged[at] = 0;
            let line = 1 + counts(&text[..at]).line_ends as u64;
            assert_eq!((1, line), ours::verdict(case.check, &damaged), "a damaged {}", case.name);
        }
    }
}

fn compare(cases: &[Case]) {
    println!("\n                         of a text, in the mean");
    let unit = clock::unit();
    println!("{unit:5} of a check    texts   bytes  lines        C       ours  ours / C");
    for case in cases {
        let [floor, ours] = clock::time([floor(case), ours(case)]);
        let (name, texts, ratio) = (case.name, case.texts.len(), ours.ratio_to(&floor));
        let lines: usize = case.texts.iter().map(|text| counts(text).line_ends).sum();
        let (length, lines) = (case.bytes() / texts, lines / texts);
        let (floor, ours) = (floor.median() / texts as f64, ours.median() / texts as f64);
        println!("{name:17} {texts:5} {length:7} {lines:6} {floor:8.0} {ours:10.0} {ratio:9.2}");
    }
    println!("(allowed: {TIMES})");
}

/// How our time grows with the text.
fn grow(cases: &[Case; 3]) {
    let times = clock::time(cases.each_ref().map(ours));
    println!("\n{:16}  bytes  {} per byte  against the first", cases[0].name, clock::unit());
    for (case, time) in cases.iter().zip(&times) {
        let length = case.bytes() / case.texts.len();
        let a_byte = time.median() / case.bytes() as f64;
        let growth = time.ratio_to(&times[0]) * cases[0].bytes() as f64 / case.bytes() as f64;
        println!("{length:23}  {a_byte:11.2}  {growth:17.2}");
    }
}

/// The most of each check over all texts, its own and the other's, and one that is too long.
fn measure_stack(cases: &[Case]) {
    let too_long = vec![0; limits::TEXT + 1];
    let texts = || cases.iter().flat_map(|case| &case.texts).chain([&too_long]);
    let most =
        |check: Check| texts().map(|text| stack_taken(check, text)).max().expect("some text");
    let (frame, command) = (most(ours::tap_check_frame_text), most(ours::tap_check_command_text));
    println!("\nstack of tap_check_frame_text: {frame} bytes at most (allowed: {STACK})");
    println!("stack of tap_check_command_text: {command} bytes at most (allowed: {STACK})");
}

fn stack_taken(check: Check, text: &[u8]) -> usize {
    let (call, at) = (check as *const (), text.as_ptr() as usize);
    // SAFETY: as in `ours::verdict`.
    unsafe { stack::taken(call, &[at, text.len()]) }
}

fn floor(case: &Case) -> Side<'_> {
    clock::side(|| {
        for text in &case.texts {
            black_box(counts(black_box(text)));
        }
    })
}

fn ours(case: &Case) -> Side<'_> {
    clock::side(|| {
        for text in &case.texts {
            black_box(ours::verdict(case.check, black_box(text)));
        }
    })
}

fn counts(text: &[u8]) -> Counts {
    // SAFETY: the slice is valid for the call, which only reads it.
    unsafe { count(text.as_ptr(), text.len()) }
}
