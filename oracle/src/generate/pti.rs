//! Requests about payloads and records. Random bytes stop at the first test, so most bodies here
//! are frames, or frames with one thing wrong.

use zniff_core::pti::{parse_payload, speed_for, split_records};
use zniff_core::types::{Frame, Region};

use crate::limits;
use crate::random::Random;
use crate::reading::pti::{Beams, By};
use crate::request::Request;
use crate::shape::{Body, LONGEST_BODY, PAIRS_BY_RATE, PAIRS_OF_FIVE_BITS, enclose};

pub fn rate(random: &mut Random) -> Vec<u8> {
    let mut argument = |listed: usize| match random.below(12) {
        0 => random.below(33) as u64,
        1 => random.below(256) as u64,
        2 => wrapping(random, listed),
        3 => random.number() >> random.below(64),
        _ => random.below(listed) as u64,
    };
    Request::Rate { channel: argument(4), region: argument(18) }.line()
}

/// A number that is below `end` in too few bits.
fn wrapping(random: &mut Random, end: usize) -> u64 {
    (random.from_to(1, 4) as u64) << random.pick(&[8, 16, 32]) | random.below(end) as u64
}

pub fn count(random: &mut Random) -> Vec<u8> {
    Request::Count { payload: payload(random) }.line()
}

pub fn body(random: &mut Random) -> Vec<u8> {
    let payload = payload(random);
    let bodies = split_records(&payload).len();
    let k = match random.below(12) {
        0..=8 => random.below(bodies.max(1)) as u64,
        9 => bodies as u64 + random.below(2) as u64,
        10 => wrapping(random, bodies.max(1)),
        _ => u64::MAX >> random.below(64),
    };
    Request::Body { k, payload }.line()
}

pub fn record(random: &mut Random) -> Vec<u8> {
    Request::Record { body: some_body(random) }.line()
}

pub fn recordby(random: &mut Random) -> Vec<u8> {
    Request::Recordby { by: by(random), body: some_body(random) }.line()
}

fn some_body(random: &mut Random) -> Vec<u8> {
    match random.below(1_000) {
        0..=4 => long_body(random),
        _ => short_body(random, 400),
    }
}

pub fn by(random: &mut Random) -> By {
    let beams = random.pick(&[Beams::Marker, Beams::Family, Beams::Family]);
    By { firmware: firmware(random), beams }
}

/// A firmware's number: mostly 3, often 2, sometimes one that there isn't.
fn firmware(random: &mut Random) -> u64 {
    match random.below(20) {
        0..=11 => 3,
        12..=18 => 2,
        _ => match random.below(4) {
            0 => wrapping(random, 4),
            1 => u64::MAX >> random.below(64),
            _ => random.below(6) as u64,
        },
    }
}

pub fn frames(random: &mut Random) -> Vec<u8> {
    let payload = payload(random);
    Request::Frames { cap: cap(random, &payload), payload }.line()
}

pub fn frametable(random: &mut Random) -> Vec<u8> {
    let payload = payload(random);
    Request::Frametable { cap: cap(random, &payload), payload }.line()
}

pub fn framesby(random: &mut Random) -> Vec<u8> {
    let payload = payload(random);
    let cap = cap(random, &payload);
    Request::Framesby { by: by(random), cap, payload }.line()
}

pub fn frametableby(random: &mut Random) -> Vec<u8> {
    let payload = payload(random);
    let cap = cap(random, &payload);
    Request::Frametableby { by: by(random), cap, payload }.line()
}

/// A table one row short, exact, ample, empty, or the largest.
fn cap(random: &mut Random, payload: &[u8]) -> u64 {
    let rows = parse_payload(payload).len() as u64;
    match random.below(100) {
        0..=19 => rows.saturating_sub(1),
        20..=59 => rows,
        60..=79 => rows + 1,
        80..=89 => rows + random.below(20) as u64,
        90..=94 => random.below(rows as usize + 1) as u64,
        95..=98 => 0,
        _ => limits::CAP,
    }
}

/// Some payload.
pub fn payload(random: &mut Random) -> Vec<u8> {
    const BRACKETS: &[u8] = &[0x5B, 0x5B, 0x5D, 0x5D, 0, 1, 2, 3, 4, 5];
    let (short, long) = (random.from_to(3, 8), random.below(60));
    match random.below(4_000) {
        0 => longest_payload(random),
        1..=20 => long_payload(random),
        21..=200 => random.bytes_of(BRACKETS, short),
        201..=400 => random.bytes_of(BRACKETS, long),
        401..=450 => random.bytes(long),
        _ => records(random),
    }
}

/// Some records, as they are or damaged.
fn records(random: &mut Random) -> Vec<u8> {
    let mut payload = Vec::new();
    let mut places = Vec::new();
    for _ in 0..random.pick(&[1, 1, 1, 2, 2, 3, 4, 7]) {
        places.push(payload.len());
        payload.extend(a_record(random));
    }
    places.push(payload.len());
    for _ in 0..random.pick(&[0, 0, 0, 0, 0, 1, 1, 2]) {
        damage(random, &mut payload, &places);
    }
    payload
}

/// One record: a body in brackets, one without body, or one by the source's own writer.
fn a_record(random: &mut Random) -> Vec<u8> {
    match random.below(60) {
        0..=2 => vec![0x5B, 1, 0x5D],
        3..=5 => vec![0x5B, 2, random.byte(), 0x5D],
        6 => vec![0x5B, random.pick(&[0, 0x5B, 0x5D]), 0, 0x5D],
        7..=9 => written_by_source(random),
        10..=12 => {
            let longest = long_frame(random, LONGEST_BODY).bytes();
            enclose(&longest[..longest.len() - random.below(3)])
        }
        _ => enclose(&short_body(random, LONGEST_BODY)),
    }
}

/// What `Frame::to_pti_vector` of the source writes.
fn written_by_source(random: &mut Random) -> Vec<u8> {
    const REGIONS: &[Region] =
        &[Region::EU, Region::US, Region::JP, Region::KR, Region::USLR, Region::EULR];
    let mut frame = Frame {
        region: random.pick(REGIONS),
        channel: random.below(4) as u8,
        rssi: random.byte(),
        payload: plain_middle(random, 60),
        ..Frame::default()
    };
    frame.to_pti_vector().expect("the source's writer never fails")
}

/// One damage to a payload; `places` are where its records start, and its end.
fn damage(random: &mut Random, payload: &mut Vec<u8>, places: &[usize]) {
    let place = random.pick(places).min(payload.len());
    let length = payload.len();
    match random.below(10) {
        0 => payload.truncate(length.saturating_sub(random.from_to(1, 4))),
        1 => payload.truncate(random.below(length + 1)),
        2 => payload.push(random.pick(&[0, 0x5B, 0x5D])),
        3 => {
            let tail = random.below(30);
            payload.extend(random.bytes(tail));
        }
        4 => payload.insert(place, random.pick(&[0, 0x5B, 0x5D])),
        5 => alter(payload, place, |_| random.pick(&[0x5A, 0x5D, 0])),
        6 => alter(payload, place + 1, |n| n.wrapping_add(1)),
        7 => alter(payload, place + 1, |n| n.wrapping_sub(1)),
        8 => alter(payload, place.wrapping_sub(1), |_| random.pick(&[0x5B, 0x5C, 0])),
        _ => flip_a_bit(random, payload),
    }
}

/// Changes the byte at a place, where there is one.
fn alter(bytes: &mut [u8], place: usize, change: impl FnOnce(u8) -> u8) {
    if let Some(byte) = bytes.get_mut(place) {
        *byte = change(*byte);
    }
}

fn flip_a_bit(random: &mut Random, bytes: &mut [u8]) {
    let bit = random.below(8);
    let place = random.below(bytes.len() + 1);
    alter(bytes, place, |byte| byte ^ 1 << bit);
}

/// A payload of a few thousand bytes.
fn long_payload(random: &mut Random) -> Vec<u8> {
    let length = random.from_to(1_000, 6_000);
    filled(random, length)
}

/// A payload about the limit, or far past it.
fn longest_payload(random: &mut Random) -> Vec<u8> {
    match random.below(10) {
        0..=2 => filled(random, limits::PAYLOAD),
        3..=5 => filled(random, limits::PAYLOAD + 1),
        6 => filled(random, limits::PAYLOAD - 1),
        7 => filled(random, limits::PAYLOAD + 2),
        8 => random.bytes(limits::PAYLOAD),
        _ => filled(random, 190_000),
    }
}

/// A payload of that length, full of records: of all sorts, of the shortest frames, or empty.
fn filled(random: &mut Random, length: usize) -> Vec<u8> {
    const SHORTEST_FRAME: usize = 22;
    let sort = random.below(4);
    let mut payload: Vec<u8> = Vec::with_capacity(length);
    while payload.len() + LONGEST_BODY + 4 <= length {
        match sort {
            0 => payload.extend([0x5B, 2, 0, 0x5D]),
            1 => payload.extend(enclose(&Body::new(2, true, random.bytes(1)).bytes())),
            _ => payload.extend(enclose(&frame(random, 60).bytes())),
        }
    }
    while payload.len() + 2 * SHORTEST_FRAME <= length {
        payload.extend(enclose(&Body::new(2, true, random.bytes(1)).bytes()));
    }
    let left = (length - payload.len()).saturating_sub(4);
    payload.extend(enclose(&random.bytes(left)));
    payload.truncate(length);
    payload
}

/// A body about the limit, or past it.
fn long_body(random: &mut Random) -> Vec<u8> {
    let length = match random.below(100) {
        0 => limits::PAYLOAD + random.below(2),
        1..=9 => random.from_to(limits::BODY, 3 * limits::BODY),
        10..=39 => limits::BODY,
        40..=69 => limits::BODY + 1,
        _ => random.from_to(LONGEST_BODY, limits::BODY),
    };
    long_frame(random, length).bytes()
}

/// A frame whose body has exactly that length.
fn long_frame(random: &mut Random, length: usize) -> Body {
    let mut body = frame(random, length);
    let m = length - body.header_length() - body.trailer_length();
    while body.middle.len() < m {
        let again = body.middle[..body.middle.len().min(m - body.middle.len())].to_vec();
        body.middle.extend(again);
    }
    body
}

/// A frame, a frame with one thing wrong, or few random bytes; at most `longest` bytes.
fn short_body(random: &mut Random, longest: usize) -> Vec<u8> {
    match random.below(20) {
        0 => {
            let length = random.below(40);
            let mut body = random.bytes(length);
            alter(&mut body, 0, |_| random.pick(&[2, 3]));
            body
        }
        1..=6 => {
            let frame = frame(random, longest - 1);
            let fault = random.below(FAULTS);
            spoil(random, &frame, fault)
        }
        _ => frame(random, longest).bytes(),
    }
}

/// A frame whose body has at most `longest` bytes, 26 or more.
fn frame(random: &mut Random, longest: usize) -> Body {
    let mut body = Body::new(random.pick(&[2, 3]), random.one_in(3), Vec::new());
    let room = longest - body.header_length() - body.trailer_length();
    let (channel, region) = pair(random);
    let high = |random: &mut Random| random.byte() & random.pick(&[0, 0xF0]);
    body.channel = channel | high(random);
    body.region = region | high(random);
    body.protocol |= high(random);
    let any = random.byte();
    body.rssi = random.pick(&[any, any, 0, 3, 0x7F, 0x80, 0xFF]);
    body.filler = std::array::from_fn(|_| random.byte());
    if random.one_in(3) {
        let width = if speed_for(channel, region) == 3 { 4 } else { 3 };
        body.middle = match random.one_in(2) {
            true => beam_middle(random, width),
            false => marked_middle(random, width),
        };
        body.middle.truncate(room);
        if random.one_in(2) {
            body.tag = random.byte();
        }
    } else {
        body.middle = plain_middle(random, room);
    }
    body
}

/// A channel and a region, each rate as often as the others; some regions take five bits.
fn pair(random: &mut Random) -> (u8, u8) {
    if random.one_in(6) {
        return random.pick(PAIRS_OF_FIVE_BITS);
    }
    if random.one_in(5) {
        return (random.byte() & 15, random.byte() & 15);
    }
    let rate = random.below(4);
    random.pick(PAIRS_BY_RATE[rate])
}

/// Middle bytes, about lengths and length bytes that decide something.
fn plain_middle(random: &mut Random, room: usize) -> Vec<u8> {
    let m = match random.below(8) {
        0 => random.from_to(1, 6),
        1..=3 => random.from_to(7, 9),
        4..=6 => random.from_to(10, 40),
        _ => random.from_to(1, room),
    };
    let m = m.min(room);
    let mut middle = random.bytes(m);
    let near = m as u8;
    let l = random.pick(&[0, 1, near.wrapping_sub(1), near, near.wrapping_add(1), 0xFF]);
    if random.below(8) > 0 {
        alter(&mut middle, 7, |_| l);
    }
    middle
}

/// Middle bytes that start with 0x55: a pattern, most often of that width, and what follows it.
fn beam_middle(random: &mut Random, width: usize) -> Vec<u8> {
    let width = if random.one_in(8) { 7 - width } else { width };
    let mut pattern = vec![0x55];
    pattern.extend(match random.below(3) {
        0 => random.bytes_of(&[0x55, 1, 2], width - 1),
        _ => random.bytes(width - 1),
    });
    let mut middle = pattern.clone();
    for _ in 0..random.pick(&[0, 1, 2, 3, 4, 5, 8, 30]) {
        match random.below(10) {
            0 => middle.push(random.pick(&[0x55, 0xAA])),
            1 => middle.push(random.byte()),
            2 => middle.extend(&pattern[..random.below(width)]),
            3 => {
                let place = middle.len() + random.below(width);
                middle.extend(&pattern);
                alter(&mut middle, place, |byte| byte.wrapping_add(1));
            }
            _ => middle.extend(&pattern),
        }
    }
    if random.one_in(6) {
        middle.truncate(random.from_to(1, 2 * width));
    }
    middle
}

/// Middle bytes that start with 0x55, about as many as part a beam from an ordinary frame, with a
/// byte 7 that says some length; the first bytes stand there again, or not.
fn marked_middle(random: &mut Random, width: usize) -> Vec<u8> {
    let m = random.from_to(1, 12);
    let mut middle = random.bytes(m);
    middle[0] = 0x55;
    let l = random.pick(&[0, m as u8 - 1, m as u8, m as u8 + 1]);
    alter(&mut middle, 7, |_| l);
    if 2 * width <= m && random.one_in(2) {
        let place = random.from_to(width, m - width);
        let first = middle[..width].to_vec();
        middle[place..place + width].copy_from_slice(&first);
    }
    middle
}

/// How many faults `spoil` knows.
pub const FAULTS: usize = 12;

/// The bytes of a frame with one thing wrong.
pub fn spoil(random: &mut Random, frame: &Body, fault: usize) -> Vec<u8> {
    let mut bytes = frame.bytes();
    let start_tag = frame.header_length() - 1;
    let trailer = bytes.len() - frame.trailer_length();
    let protocol = bytes.len() - 2;
    match fault {
        0 => bytes[0] = random.pick(&[0, 1, 4, 0x82, 0xFF]),
        1 => bytes[0] ^= 1,
        2 => bytes[start_tag] ^= 0xF8 ^ 0xFC,
        3 => bytes[start_tag] = random.pick(&[0xF9, 0xFD, 0xFA, 0, 0x55]),
        4 => bytes[trailer] = random.pick(&[0xF9, 0xFD]),
        5 => bytes[trailer] = random.pick(&[0xF8, 0xFA, 0xFE, 0]),
        6 => bytes[protocol] = random.pick(&[5, 7, 0, 0x60, 0x0E]),
        7 => drop(bytes.drain(start_tag + 1..trailer)),
        8 => bytes.truncate(random.below(bytes.len())),
        9 => drop(bytes.remove(random.below(bytes.len()))),
        10 => bytes.insert(random.below(bytes.len()), random.pick(&[0, 0x55, 0xF9])),
        _ => flip_a_bit(random, &mut bytes),
    }
    bytes
}
