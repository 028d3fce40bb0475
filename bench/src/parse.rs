//! The library's `parse_payload` against that of zniff-rs, on the same payloads.

use std::hint::black_box;

use oracle::limits;
use zniff_core::pti;

use crate::clock::{self, Side};
use crate::{ours, payloads, stack};

/// The stack that a call may take.
const STACK: usize = 16 << 10;

pub fn run() {
    let payloads = payloads::compared();
    check(&payloads);
    compare(&payloads);
    compare_readings(&payloads);
    grow();
    measure_stack(&payloads);
}

/// Stops unless both sides have the same frames of every payload.
fn check(payloads: &[(&str, Vec<u8>)]) {
    for (name, payload) in payloads {
        let same = ours::frames(payload) == pti::parse_payload(payload);
        assert!(same, "the two sides have different frames of '{name}'");
    }
    println!("Both sides have the same frames of all {} payloads, in every field.", payloads.len());
}

fn compare(payloads: &[(&str, Vec<u8>)]) {
    let unit = clock::unit();
    println!("\n{unit} of a call             bytes  frames        Rust        ours  ours / Rust");
    for (name, payload) in payloads {
        let frames = pti::parse_payload(payload).len();
        let [rust, ours] = clock::time([rust(payload), ours(payload, false)]);
        let (length, ratio) = (payload.len(), ours.ratio_to(&rust));
        let (rust, ours) = (rust.median(), ours.median());
        println!("{name:26} {length:6}  {frames:6}  {rust:10.1}  {ours:10.1}  {ratio:11.2}");
    }
}

/// What it costs that beams are a family of their own, against all that starts with their marker.
fn compare_readings(payloads: &[(&str, Vec<u8>)]) {
    println!("\n{} of a call               marker      family  family / marker", clock::unit());
    for (name, payload) in payloads {
        let [marker, family] = clock::time([ours(payload, false), ours(payload, true)]);
        let ratio = family.ratio_to(&marker);
        println!("{name:26} {:10.1}  {:10.1}  {ratio:15.2}", marker.median(), family.median());
    }
}

/// How our time grows with the payload. 64 KiB are a byte more than is taken: 65,535 it is.
fn grow() {
    let payloads = [1, 4, 16, 64].map(|kib| payloads::frames(limits::PAYLOAD.min(kib << 10)));
    let times = clock::time(payloads.each_ref().map(|payload| ours(payload, false)));
    println!("\nfull of frames: bytes  ours {}  per KiB, against the first", clock::unit());
    for (payload, time) in payloads.iter().zip(&times) {
        let (length, first) = (payload.len(), payloads[0].len());
        let per_kib = time.ratio_to(&times[0]) * first as f64 / length as f64;
        println!("{length:21}  {:7.0}  {per_kib:29.2}", time.median());
    }
}

fn measure_stack(payloads: &[(&str, Vec<u8>)]) {
    let refused = vec![0; limits::PAYLOAD + 1];
    let all = payloads.iter().map(|(_, payload)| payload).chain([&refused]);
    let most = all.map(|payload| stack_taken(payload)).max().expect("some payload");
    println!("\nstack of tap_parse_payload: {most} bytes at most (allowed: {STACK})");
}

fn stack_taken(payload: &[u8]) -> usize {
    let (call, mut table) = (ours::tap_parse_payload as *const (), ours::table());
    let (at, length) = (payload.as_ptr() as usize, payload.len());
    // SAFETY: as in `ours::parse_payload`.
    unsafe {
        stack::taken(call, &[at, length, ours::FIRMWARE, 1, table.as_mut_ptr() as usize, table.len()])
    }
}

fn rust(payload: &[u8]) -> Side<'_> {
    clock::side(|| drop(black_box(pti::parse_payload(black_box(payload)))))
}

fn ours(payload: &[u8], family: bool) -> Side<'_> {
    let mut table = ours::table();
    clock::side(move || {
        black_box(ours::parse_payload(black_box(payload), family, &mut table));
    })
}
