//! The payloads that are timed. They are the same in every run.

use std::ops::RangeInclusive;

use oracle::limits;
use oracle::random::Random;
use oracle::shape::{Body, PAIRS_BY_RATE, enclose};

const SEED: u64 = 1;

/// The most bytes of a frame's record that are not its middle bytes: brackets, the length byte
/// and the one after it, the longer header, the longer trailer.
const AROUND: usize = 4 + 19 + 6;

/// The payloads on which both sides are timed, by name.
pub fn compared() -> [(&'static str, Vec<u8>); 6] {
    const FULL: usize = limits::PAYLOAD;
    [
        ("one frame, 20 bytes", one_frame()),
        ("full of that frame", alike(FULL)),
        ("full of frames", frames(FULL)),
        ("full of beams", beams(FULL)),
        ("full of records, no frame", records_without_a_frame(FULL)),
        ("noise", Random::new(SEED, 0).bytes(FULL)),
    ]
}

/// A record with a frame whose MPDU has 20 bytes.
fn one_frame() -> Vec<u8> {
    enclose(&Body::new(2, false, plain_middle(&mut Random::new(SEED, 0), 20, 2)).bytes())
}

/// That record again and again; the last may be cut.
fn alike(length: usize) -> Vec<u8> {
    one_frame().into_iter().cycle().take(length).collect()
}

/// Records with frames, of every sort but beams; the shortest MPDU has 16 bytes.
pub fn frames(length: usize) -> Vec<u8> {
    let sizes = AROUND + 16..=AROUND + 20;
    full_of(length, sizes, |random, size| frame(random, size, plain_middle))
}

pub fn beams(length: usize) -> Vec<u8> {
    let sizes = AROUND + 40..=AROUND + 90;
    full_of(length, sizes, |random, size| frame(random, size, beam_middle))
}

/// Records without a body (n is 1) and records whose bodies are too short for a frame.
fn records_without_a_frame(length: usize) -> Vec<u8> {
    full_of(length, 3..=12, |random, size| match size {
        3 => vec![0x5B, 1, 0x5D],
        _ => enclose(&random.bytes_of(&[2, 3, 4], size - 4)),
    })
}

/// A payload of that length: records of drawn sizes, the last of the size that is left.
fn full_of(
    length: usize,
    sizes: RangeInclusive<usize>,
    record: impl Fn(&mut Random, usize) -> Vec<u8>,
) -> Vec<u8> {
    let random = &mut Random::new(SEED, 0);
    let mut payload = Vec::with_capacity(length);
    while payload.len() < length {
        let left = length - payload.len();
        let drawn = random.from_to(*sizes.start(), *sizes.end());
        let size = if left < drawn + sizes.start() { left } else { drawn };
        payload.extend(record(random, size));
    }
    payload
}

/// A record of that size with a frame of a drawn sort; `middle` makes its middle bytes, so many,
/// at that rate.
fn frame(
    random: &mut Random,
    size: usize,
    middle: impl Fn(&mut Random, usize, usize) -> Vec<u8>,
) -> Vec<u8> {
    let mut body = Body::new(random.pick(&[2, 3]), random.one_in(2), Vec::new());
    let rate = random.below(4);
    (body.channel, body.region) = random.pick(PAIRS_BY_RATE[rate]);
    body.rssi = random.byte();
    body.middle = middle(random, size - 4 - body.header_length() - body.trailer_length(), rate);
    enclose(&body.bytes())
}

/// An MPDU that says its own length.
fn plain_middle(random: &mut Random, m: usize, _rate: usize) -> Vec<u8> {
    let mut middle = random.bytes(m);
    middle[0] = 0xC1;
    middle[7] = m as u8;
    middle
}

/// Repetitions of a beam; after one in sixteen stands a byte that is none of it.
fn beam_middle(random: &mut Random, m: usize, rate: usize) -> Vec<u8> {
    let beam = [0x55, random.byte(), random.byte(), random.byte()];
    let width = if rate == 3 { 4 } else { 3 };
    let mut middle = Vec::new();
    while middle.len() < m {
        middle.extend(&beam[..width]);
        if random.one_in(16) {
            middle.push(random.byte());
        }
    }
    middle.truncate(m);
    middle
}
