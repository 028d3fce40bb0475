//! Document 01, 'Records and frames', and what document 02 adds to it (F, FV, FP and BF of docs/RULES.md):
//! each rule a function. Of the Rust it takes the rates alone, which are lists. It answers for firmware 3
//! and for beams as a family of their own.

use zniff_core::pti::speed_for;

use crate::limits;
use crate::refusal::Refusal;

/// BF1: which records are beams: all that start with 0x55, or those that are a family of their own.
#[derive(Debug, Clone, Copy, PartialEq, Eq)]
pub enum Beams {
    Marker,
    Family,
}

/// What a caller says of the bytes: the firmware that wrote them, and which of them are beams.
#[derive(Debug, Clone, Copy, PartialEq, Eq)]
pub struct By {
    pub firmware: u64,
    pub beams: Beams,
}

impl By {
    /// What the Rust knows.
    pub const SOURCE: By = By { firmware: 2, beams: Beams::Marker };

    /// `FIRMWARE READING`.
    pub fn numbers(self) -> Vec<u64> {
        vec![self.firmware, u64::from(self.beams == Beams::Family)]
    }
}

/// FV1: how many bits of its byte say the region, by the firmware that wrote the record; FV2.
pub fn region_bits(firmware: u64) -> Result<u32, Refusal> {
    match firmware {
        2 => Ok(4),
        3 => Ok(5),
        _ => Err(Refusal { number: 13, carried: firmware as usize }),
    }
}

/// F16: a frame, its MPDU's place counted from the body's first byte or from the payload's.
#[derive(Debug, Clone, PartialEq, Eq)]
pub struct Frame {
    pub is_sent: bool,
    pub region: u8,
    pub channel: u8,
    pub rate: u8,
    pub rssi: i8,
    pub beams: Option<usize>,
    pub start: usize,
    pub length: usize,
    /// FP1, of a payload's frames alone.
    pub origin: Option<Origin>,
    pub target: Target,
}

/// BF2, BF3: what a beam says beside its marker.
#[derive(Debug, Clone, Copy, Default, PartialEq, Eq)]
pub struct Target {
    pub node: Option<u16>,
    pub hash: Option<u16>,
    pub power: Option<u16>,
}

/// FP1: the number of a frame's record, and the place of its 0x5B.
#[derive(Debug, Clone, Copy, PartialEq, Eq)]
pub struct Origin {
    pub record: usize,
    pub place: usize,
}

/// F1 to F4: where each body starts in a payload, and its bytes.
pub fn bodies(payload: &[u8]) -> Vec<(usize, &[u8])> {
    let mut bodies = Vec::new();
    let mut place = 1;
    while let Some(n) = record_at(payload, place) {
        if n >= 2 {
            bodies.push((place + 2, &payload[place + 2..place + n]));
        }
        place += n + 2;
    }
    bodies
}

/// F1: the n of the record that stands at a place, if one stands there.
fn record_at(payload: &[u8], place: usize) -> Option<usize> {
    let n = usize::from(*payload.get(place)?);
    let stands = payload.len() > 4 && payload[place - 1] == 0x5B && payload.get(place + n) == Some(&0x5D);
    stands.then_some(n)
}

/// F7 to F16: the frame in a body, if it is one.
pub fn frame(body: &[u8], bits: u32, beams: Beams) -> Option<Frame> {
    let header = match body.first()? {
        2 => 12,
        3 => 19,
        _ => return None,
    };
    let is_sent = match body.get(header - 1)? {
        0xF8 => false,
        0xFC => true,
        _ => return None,
    };
    let tail = body.len().checked_sub(if is_sent { 5 } else { 6 }).filter(|&tail| tail > header)?;
    let (middle, trailer) = (&body[header..tail], &body[tail..]);
    let (rssi, rest) = if is_sent { (0, &trailer[1..]) } else { (trailer[1] as i8, &trailer[2..]) };
    let region = (u32::from(rest[0]) % (1 << bits)) as u8;
    let (channel, protocol) = (rest[1] % 16, rest[2] % 16);
    let rate = speed_for(channel, region);
    let count = beam_count(middle, rate);
    let is_beam = match beams {
        Beams::Marker => middle[0] == 0x55,
        Beams::Family => middle[0] == 0x55 && (count >= 2 || middle.len() < 9),
    };
    let has_tag = trailer[0] == if is_sent { 0xFD } else { 0xF9 };
    if protocol != 6 || !(is_beam || has_tag) {
        return None;
    }
    let target = match beams {
        Beams::Family if is_beam => target(middle, rate),
        _ => Target::default(),
    };
    let beams = is_beam.then_some(count);
    let length = mpdu_length(middle, is_beam);
    let start = header;
    Some(Frame { is_sent, region, channel, rate, rssi, beams, start, length, origin: None, target })
}

/// BF3: node, hash and power of a beam, each if it is wholly there.
fn target(middle: &[u8], rate: u8) -> Target {
    let byte = |place| middle.get(place).copied().map(u16::from);
    if rate != 3 {
        return Target { node: byte(1), hash: byte(2), power: None };
    }
    let number = byte(1).zip(byte(2)).map(|(high, low)| high << 8 | low);
    Target { node: number.map(|n| n & 0xFFF), hash: byte(3), power: number.map(|n| n >> 12) }
}

/// F12: how many of the middle bytes are the MPDU.
fn mpdu_length(middle: &[u8], is_beam: bool) -> usize {
    match middle.get(7) {
        Some(&l) if !is_beam && usize::from(l) <= middle.len() => usize::from(l),
        _ => middle.len(),
    }
}

/// F14, F15: how often the first bytes stand there.
fn beam_count(middle: &[u8], rate: u8) -> usize {
    let width = if rate == 3 { 4 } else { 3 }.min(middle.len());
    let (first, mut rest) = middle.split_at(width);
    let mut count = 1;
    while !rest.is_empty() {
        let again = rest[0] == 0x55 && rest.starts_with(first);
        count += usize::from(again);
        rest = &rest[if again { width } else { 1 }..];
    }
    count
}

/// F18, FP1: the frames of a payload.
pub fn frames(payload: &[u8], bits: u32, beams: Beams) -> Vec<Frame> {
    let bodies = bodies(payload).into_iter().enumerate();
    let placed = |(record, (start, body))| {
        let frame = frame(body, bits, beams)?;
        let origin = Some(Origin { record, place: start - 3 });
        Some(Frame { start: start + frame.start, origin, ..frame })
    };
    bodies.filter_map(placed).collect()
}

/// What `parse_record` answers: FV2, then 4 and 9.
pub fn parse_record(by: By, body: &[u8]) -> Result<Frame, Refusal> {
    let bits = region_bits(by.firmware)?;
    limits::within(limits::BODY, body)?;
    frame(body, bits, by.beams).ok_or(Refusal { number: 9, carried: 0 })
}

/// What `parse_payload` answers with so many rows: FV2, then 4 and 8.
pub fn parse_payload(by: By, payload: &[u8], cap: u64) -> Result<Vec<Frame>, Refusal> {
    let bits = region_bits(by.firmware)?;
    limits::within(limits::PAYLOAD, payload)?;
    let frames = frames(payload, bits, by.beams);
    match frames.len() as u64 <= cap {
        true => Ok(frames),
        false => Err(Refusal { number: 8, carried: frames.len() }),
    }
}
