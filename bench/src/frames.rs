//! A frame text as one would be written for real frames, and frames that it names.

use oracle::definition;
use oracle::definition::frame::FrameDefinition;
use oracle::reading::header::{base_key, decode_header};
use zniff_core::decoder::frame_definition::schema;

/// Three base headers (two channels, three channels, Long Range) and 30 headers.
pub const TEXT: &[u8] = include_bytes!("../definitions/frame.txt");

pub const REGION: u8 = 1;

/// A frame, by the name of its header and its length.
pub struct Frame {
    pub name: &'static str,
    pub speed: u8,
    pub mpdu: Vec<u8>,
}

/// Frames of 9 to 64 bytes. On the base header of two channels, with 14 candidates: the first, some
/// between, the last, and none. Then Long Range, with five.
pub fn frames() -> Vec<Frame> {
    let two_channels = |properties1: u8, behind: &[u8]| {
        let mut mpdu = vec![0xCC, 0x14, 0xD2, 0xF3, 0x01, properties1, 0x0B, 0];
        mpdu.extend(behind);
        mpdu[7] = mpdu.len() as u8;
        mpdu
    };
    let payload = |length: usize| (0..length).map(|at| at as u8).collect::<Vec<u8>>();
    let frame = |name, speed, mpdu| Frame { name, speed, mpdu };
    let routed = |properties3: u8, behind: &[u8]| {
        let mut behind = behind.to_vec();
        behind.splice(0..0, [0x08, properties3, 0x20, 0x05, 0x07]);
        two_channels(0x81, &behind)
    };
    let explore = |command: u8, behind: usize| {
        let mut fields = vec![0xFF, 0x20 | command, 0x00, 0x2C, 0x40, 0, 0, 0, 0];
        fields.extend(payload(behind));
        two_channels(0x05, &fields)
    };
    let long_range = vec![0xCC, 0x14, 0xD2, 0xF3, 0x00, 0x11, 0x01, 20, 0x01, 8, 0x9E, 0x0E];
    vec![
        frame("Broadcast", 1, two_channels(0x01, &[&[0xFF][..], &payload(11)].concat())),
        frame("Singlecast", 1, two_channels(0x41, &[0x05])),
        frame("Singlecast", 2, two_channels(0x41, &[&[0x05][..], &payload(11)].concat())),
        frame("Singlecast", 2, two_channels(0x41, &[&[0x05][..], &payload(55)].concat())),
        frame("Acknowledgement", 2, two_channels(0x03, &[0x05, 0xF2, 0xC9])),
        frame("Multicast", 2, two_channels(0x02, &[&[0x1D][..], &payload(33)].concat())),
        frame("Routed Singlecast", 2, routed(0x00, &payload(7))),
        frame("Routed Error", 2, routed(0x14, &payload(2))),
        frame("Routed Error, extended", 2, routed(0x1C, &[&[0x40][..], &payload(6)].concat())),
        frame("Explore Normal", 2, explore(0, 5)),
        frame("Explore Normal", 2, explore(0, 47)),
        frame("none", 2, two_channels(0x04, &payload(12))),
        frame("none", 2, two_channels(0x04, &payload(56))),
        frame("Long Range Singlecast", 3, [&long_range[..], &payload(8)].concat()),
    ]
}

pub fn definition() -> FrameDefinition {
    definition::read(TEXT).expect("an accepted text")
}

/// The definition as zniff-rs would have loaded it: a field's label is about as long as its name.
pub fn loaded(definition: &FrameDefinition) -> schema::FrameDefinition {
    let mut loaded = oracle::source::header::schema(definition);
    for base in &mut loaded.base_headers {
        label(&mut base.params);
    }
    for header in &mut loaded.headers {
        header.text = header.name.clone();
        label(&mut header.params);
    }
    for set in &mut loaded.define_sets {
        let named = definition.define_sets.iter().find(|named| named.name == set.name);
        for (define, named) in set.defines.iter_mut().zip(&named.expect("that set").defines) {
            define.text = named.text.clone();
        }
    }
    loaded
}

fn label(params: &mut [schema::Param]) {
    for param in params {
        param.text = param.name.clone();
        label(&mut param.params);
    }
}

/// Which candidates are tried, and how many rows there are. Stops where the header is another than
/// the frame's name says.
pub fn answer(definition: &FrameDefinition, frame: &Frame) -> (usize, usize) {
    let (region, speed) = (u64::from(REGION), u64::from(frame.speed));
    let key = base_key(definition, region, speed);
    let answer = decode_header(definition, &frame.mpdu, region, speed);
    let number = answer.as_ref().map_or(definition.headers.len(), |header| header.number);
    let name = definition.headers.get(number).map_or("none", |header| &header.name);
    assert_eq!(name, frame.name, "another header");
    let tried = definition.headers.iter().take(number + 1);
    let tried = tried.filter(|h| h.base_key == Some(key) && !h.validations.is_empty());
    (tried.count(), answer.map_or(0, |header| header.rows.len()))
}

/// The P lines of a base header and of its candidates, as numbers: what our walk goes over.
pub struct Loaded {
    pub base: Vec<u64>,
    /// The base's lines, and behind them the candidate's.
    pub candidates: Vec<Vec<u64>>,
}

/// The lines for the frame's base header.
pub fn lines(text: &[u8], definition: &FrameDefinition, frame: &Frame) -> Loaded {
    let key = base_key(definition, u64::from(REGION), u64::from(frame.speed)).to_string();
    let (mut base, mut candidates) = (Vec::new(), Vec::new());
    let (mut at, mut params) = (0, 0);
    let mut owner: Option<Vec<u64>> = None;
    let mut validated = false;
    let mut is_base = false;
    for line in text.split_inclusive(|&byte| byte == b'\n').chain([&b"D\t\n"[..]]) {
        let fields: Vec<&[u8]> = line[..line.len() - 1].split(|&byte| byte == b'\t').collect();
        match line[0] {
            b'P' => {
                if let Some(lines) = &mut owner {
                    lines.extend(numbers(&fields, at, params));
                }
                params += 1;
            }
            b'V' => validated = true,
            b'E' => (),
            kind => {
                match owner.take() {
                    Some(lines) if is_base => base = lines,
                    Some(lines) if validated => candidates.push(lines),
                    _ => (),
                }
                (is_base, validated) = (kind == b'B' && base.is_empty(), false);
                let given = [b'B', b'H'].iter().position(|&owner| owner == kind);
                let is_ours = given.is_some_and(|i| fields[i + 1] == key.as_bytes());
                owner = (is_ours && (kind == b'H' || is_base)).then(Vec::new);
            }
        }
        at += line.len();
    }
    let candidates = candidates.into_iter().map(|own| [&base[..], &own].concat());
    Loaded { candidates: candidates.collect(), base }
}

/// A P line as thirteen numbers: level, order, bits and type, where name, set, optional and size path
/// begin and how long they are, and the line's number among the P lines.
fn numbers(fields: &[&[u8]], at: usize, number: u64) -> [u64; 13] {
    let value = |k: usize| str::from_utf8(fields[k]).expect("digits").parse().expect("a number");
    let part = |k: usize| {
        let before: usize = fields[..k].iter().map(|field| field.len() + 1).sum();
        if fields[k] == b"-" { [0, 0] } else { [(at + before) as u64, fields[k].len() as u64] }
    };
    let [name, set, optional, size] = [part(5), part(6), part(7), part(8)];
    let mut numbers = [number; 13];
    numbers[..4].copy_from_slice(&[value(1), value(2), value(3), type_number(fields[4])]);
    numbers[4..12].copy_from_slice([name, set, optional, size].as_flattened());
    numbers
}

/// The number that stands for a type in a line.
fn type_number(word: &[u8]) -> u64 {
    let words = ["HEX", "NUMBER", "NUMBER_SIGNED", "NODE_NUMBER", "BOOLEAN", "BITMASK"];
    words.iter().position(|known| known.as_bytes() == word).expect("a type") as u64
}

/// The text with so many candidates more of the first base header, in front of the others. The base's
/// fields rule them out.
pub fn with_candidates(more: usize) -> Vec<u8> {
    let first = TEXT.windows(3).position(|bytes| bytes == b"\nH\t").expect("an H line") + 1;
    let lines = [
        "H\t99\t0\t0000\tAnother\n",
        "V\tProperties1.HeaderType\t15\n",
        "P\t0\t1\t8\tHEX\tDestination\t-\t-\t-\n",
    ];
    [&TEXT[..first], &lines.concat().repeat(more).into_bytes(), &TEXT[first..]].concat()
}

/// The text with so many define sets more, in front, which no P line names.
pub fn with_sets(more: usize) -> Vec<u8> {
    let mut sets = String::new();
    for number in 0..more {
        sets += &format!("D\tAnother set, number {number}\n");
        for entry in 0..64 {
            sets += &format!("E\t{entry}\tAn entry that no field of a frame has\n");
        }
    }
    [sets.as_bytes(), TEXT].concat()
}
