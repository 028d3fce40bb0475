//! Runs of payloads with frames that a text names: texts and MPDUs are drawn for `header`, and what else stands in the
//! payloads as for `frames`. Totals start at 0, or about the limit.

use super::{header, pti};
use crate::limits;
use crate::random::Random;
use crate::request::Request;
use crate::shape::{Body, PAIRS_BY_RATE, enclose};

/// Of one MPDU: so many bytes fit into a record.
const MPDU: usize = 220;

pub fn totals(random: &mut Random) -> Vec<u8> {
    let line = header::header(random);
    let Some(Request::Header { region, speed, text, mpdu, .. }) = Request::read(&line) else {
        unreachable!("a drawn request has the form of one");
    };
    let payloads = (0..random.pick(&[1, 1, 2, 3, 5]))
        .map(|_| match random.below(8) {
            0 => pti::payload(random),
            _ => records(random, &mpdu, speed),
        })
        .collect();
    let by = pti::by(random);
    let request = Request::Totals { start: start(random), by, region, text, payloads };
    let line = request.line();
    // What no program need hold is drawn anew.
    if line.len() > limits::LINE { totals(random) } else { line }
}

/// Mostly nothing yet; else a few frames before the limit, at it, or past it.
fn start(random: &mut Random) -> u64 {
    const LIMIT: u64 = (1 << 63) - 1;
    match random.below(20) {
        0..=11 => 0,
        12 | 13 => LIMIT - random.below(6) as u64,
        14 | 15 => LIMIT - random.below(300) as u64,
        16 => LIMIT + 1 + random.below(2) as u64,
        17 => u64::MAX - random.below(3) as u64,
        _ => random.number() >> random.below(64),
    }
}

/// Records of that MPDU, as it is or with some bytes changed, at its speed or another, and of beams.
fn records(random: &mut Random, mpdu: &[u8], speed: u64) -> Vec<u8> {
    let mut payload = Vec::new();
    for _ in 0..random.pick(&[1, 1, 2, 3, 6]) {
        let rate = if random.one_in(3) { random.below(4) } else { (speed as usize).min(3) };
        let middle = middle(random, mpdu);
        let mut body = Body::new(random.pick(&[2, 3]), random.one_in(3), middle);
        (body.channel, body.region) = random.pick(PAIRS_BY_RATE[rate]);
        payload.extend(enclose(&body.bytes()));
        if random.one_in(6) {
            payload.extend([0x5B, 1, 0x5D]);
        }
    }
    payload
}

fn middle(random: &mut Random, mpdu: &[u8]) -> Vec<u8> {
    let mut middle = mpdu[..mpdu.len().min(MPDU)].to_vec();
    if middle.is_empty() {
        middle.push(random.byte());
    }
    match random.below(12) {
        0 => middle.truncate(random.from_to(1, 2)),
        1 => return beam(random),
        2 => middle[0] = 0x55,
        3 | 4 => {
            let place = random.below(middle.len());
            middle[place] ^= 1 << random.below(8);
        }
        _ => {}
    }
    // Else byte 7 says a length that cuts it.
    if middle.len() > 7 && !random.one_in(4) {
        middle[7] = middle.len() as u8;
    }
    middle
}

fn beam(random: &mut Random) -> Vec<u8> {
    let beam = [0x55, random.byte(), random.byte(), random.byte()];
    let width = random.pick(&[3, 4]);
    let mut middle: Vec<u8> = beam[..width].repeat(random.from_to(1, 30));
    if random.one_in(2) {
        middle.truncate(random.from_to(1, middle.len()));
    }
    middle
}
