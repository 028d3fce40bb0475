//! The library's `read_bits` against that of zniff-rs, on the same bytes.

use std::hint::black_box;

use zniff_core::decoder::frame_definition::decode::oracle;

use crate::clock::{self, Side};
use crate::ours;

const BYTES: [u8; 16] = *b"\x09\xAF\x17\xC3\x5A\x81\xE6\x2D\x94\x7B\x3E\xD0\x68\xF5\x4C\xB2";
const WIDTHS: [u64; 4] = [1, 8, 32, 64];
/// What a read of 32 or of 64 bits may cost of what zniff-rs's does.
const WIDE: f64 = 0.5;

pub fn run() {
    check();
    compare("whole bytes", &(0..64).filter(|place| place % 8 == 0).collect::<Vec<u64>>());
    compare("odd bits", &(0..64).filter(|place| place % 8 != 0).collect::<Vec<u64>>());
    println!("(allowed: {WIDE} at 32 and 64 bits)");
}

/// Stops unless both sides have the same number, or none, of every width at every place.
fn check() {
    for (place, width) in (0..=128).flat_map(|place| (0..=65).map(move |width| (place, width))) {
        let same = ours::read_bits(&BYTES, place, width) == rust_bits(&BYTES, place, width);
        assert!(same, "the two sides read other bits: {width} from {place} on");
    }
    println!("\nBoth sides read the same of every width at every place of 16 bytes.");
}

/// A read, in the mean over those places.
fn compare(at: &str, places: &[u64]) {
    println!("\n{:5} of a read at {at:11}    Rust    ours  ours / Rust", clock::unit());
    for width in WIDTHS {
        let [rust, ours] =
            clock::time([reads(places, width, rust_bits), reads(places, width, ours::read_bits)]);
        let (many, ratio) = (places.len() as f64, ours.ratio_to(&rust));
        let (rust, ours) = (rust.median() / many, ours.median() / many);
        println!("{width:21} bits  {rust:8.2}{ours:8.2}  {ratio:11.2}");
    }
}

/// A read of that width at each of the places. What it is asked for is not known before.
fn reads<'a>(
    places: &'a [u64],
    width: u64,
    read: impl Fn(&[u8], u64, u64) -> Option<u64> + 'a,
) -> Side<'a> {
    clock::side(move || {
        for place in places {
            black_box(read(black_box(&BYTES), black_box(*place), black_box(width)));
        }
    })
}

#[inline]
fn rust_bits(bytes: &[u8], place: u64, width: u64) -> Option<u64> {
    oracle::read_bits(bytes, place as usize, width as usize)
}
