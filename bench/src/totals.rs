//! `add_payload` against zniff-rs, which parses a payload, decodes each frame and counts what it finds in arrays.

use std::hint::black_box;

use oracle::limits;
use oracle::shape::{Body, PAIRS_BY_RATE, enclose};
use zniff_core::decoder::frame_definition::decode::{DecodeError, decode_header};
use zniff_core::decoder::frame_definition::schema::FrameDefinition;
use zniff_core::pti;

use crate::clock::{self, Side};
use crate::frames::{self, Frame};
use crate::ours::{self, TOTALS};
use crate::{payloads, stack};

/// What a payload full of frames may cost of what zniff-rs does.
const FULL: f64 = 0.6;
/// The stack that a call may take.
const STACK: usize = 64 << 10;

pub fn run() {
    let loaded = frames::loaded(&frames::definition());
    let payloads = compared();
    for (name, payload) in &payloads {
        let mut totals = [0; TOTALS];
        ours::add_payload(payload, &mut totals);
        assert_eq!(rust_totals(&loaded, payload), totals, "other totals of '{name}'");
    }
    println!("\nBoth sides have the same totals of every payload.");
    println!("\n{} of a payload          bytes  frames         Rust         ours  ours / Rust", clock::unit());
    for (name, payload) in &payloads {
        let count = pti::parse_payload(payload).len();
        let [rust, ours] = clock::time([rust(&loaded, payload), ours(payload)]);
        let (length, ratio) = (payload.len(), ours.ratio_to(&rust));
        println!("{name:24} {length:6}  {count:6}  {:11.0}  {:11.0}  {ratio:11.2}", rust.median(), ours.median());
    }
    println!("(allowed: {FULL} on a payload full of frames)");
    grow();
    measure_stack(&payloads);
}

/// Full of frames of every kind in turn; of those that a house mostly sends; of frames with drawn bytes; of beams.
fn compared() -> Vec<(&'static str, Vec<u8>)> {
    let all = frames::frames();
    let house: Vec<&Frame> = [2, 4, 2, 4, 3, 4, 6, 4, 0].map(|kind| &all[kind]).into_iter().collect();
    vec![
        ("every kind in turn", full_of(&all.iter().collect::<Vec<_>>(), limits::PAYLOAD)),
        ("a house", full_of(&house, limits::PAYLOAD)),
        ("drawn bytes", payloads::frames(limits::PAYLOAD)),
        ("beams", payloads::beams(limits::PAYLOAD)),
    ]
}

/// Records of these frames in turn, as many as there is room for.
fn full_of(frames: &[&Frame], length: usize) -> Vec<u8> {
    let mut payload = Vec::new();
    for frame in frames.iter().cycle() {
        let mut body = Body::new(2, false, frame.mpdu.clone());
        (body.channel, body.region) = PAIRS_BY_RATE[usize::from(frame.speed)][0];
        let record = enclose(&body.bytes());
        if payload.len() + record.len() > length {
            return payload;
        }
        payload.extend(record);
    }
    payload
}

/// How our time grows with the frames.
fn grow() {
    let all = frames::frames();
    let all: Vec<&Frame> = all.iter().collect();
    let payloads = [1, 4, 16, 64].map(|kib| full_of(&all, limits::PAYLOAD.min(kib << 10)));
    let times = clock::time(payloads.each_ref().map(|payload| ours(payload)));
    println!("\nevery kind in turn: frames  ours {}  per frame, against the first", clock::unit());
    let counts = payloads.each_ref().map(|payload| pti::parse_payload(payload).len());
    for (count, time) in counts.iter().zip(&times) {
        let per_frame = time.ratio_to(&times[0]) * counts[0] as f64 / *count as f64;
        println!("{count:26}  {:7.0}  {per_frame:29.2}", time.median());
    }
}

fn measure_stack(payloads: &[(&str, Vec<u8>)]) {
    let most = payloads.iter().map(|(_, payload)| stack_taken(payload)).max().expect("some payload");
    println!("\nstack of tap_add_payload: {most} bytes at most (allowed: {STACK})");
}

fn stack_taken(payload: &[u8]) -> usize {
    let (call, mut totals) = (ours::tap_add_payload as *const (), [0u64; TOTALS]);
    let text = (frames::TEXT.as_ptr() as usize, frames::TEXT.len());
    let (region, at) = (usize::from(frames::REGION), payload.as_ptr() as usize);
    let arguments =
        [text.0, text.1, region, ours::FIRMWARE, 0, at, payload.len(), totals.as_mut_ptr() as usize];
    // SAFETY: as in `ours::add_payload`.
    unsafe { stack::taken(call, &arguments) }
}

fn ours(payload: &[u8]) -> Side<'_> {
    let mut totals = [0; TOTALS];
    clock::side(move || _ = black_box(ours::add_payload(black_box(payload), &mut totals)))
}

fn rust<'a>(loaded: &'a FrameDefinition, payload: &'a [u8]) -> Side<'a> {
    clock::side(move || _ = black_box(rust_totals(loaded, black_box(payload))))
}

/// What zniff-rs finds, in the places of TO1 (docs/RULES.md).
fn rust_totals(loaded: &FrameDefinition, payload: &[u8]) -> [u64; TOTALS] {
    let mut totals = [0; TOTALS];
    for frame in pti::parse_payload(payload) {
        totals[1027] += frame.mpdu.len() as u64;
        if let Some(repeats) = frame.beam_count {
            totals[1025] += 1;
            totals[1026] += u64::from(repeats);
            continue;
        }
        match decode_header(loaded, &frame.mpdu, frames::REGION, frame.speed) {
            Ok(header) => {
                totals[usize::from(header.header_key) * 4 + usize::from(frame.speed)] += 1;
                totals[1024] += u64::from(!header.crc_ok);
            }
            Err(DecodeError::TooShort) => totals[1028] += 1,
            Err(DecodeError::UnknownBaseHeader(_)) => totals[1029] += 1,
            Err(DecodeError::NoMatchingHeader) => totals[1030] += 1,
        }
    }
    totals
}
