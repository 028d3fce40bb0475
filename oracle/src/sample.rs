//! A small sample of requests: the examples, every boundary once, and some that are drawn.

use crate::generate::{FAULTS, Generator, spoil};
use crate::limits;
use crate::random::Random;
use crate::reading::command::Offsets;
use crate::reading::pti::{Beams, By};
use crate::reading::xml::xml_of;
use crate::request::{Request, push_hex};
use crate::shape::{Body, LONGEST_BODY, PAIRS_BY_RATE, PAIRS_OF_FIVE_BITS, enclose};

/// How many requests are drawn, and how long a drawn one may be.
const DRAWN: usize = 2_000;
const DRAWN_LENGTH: usize = 300;
/// The same of each walk, whose requests have a text.
const WALKS: &[(&str, usize, usize)] =
    &[("header", 300, 1_600), ("command", 300, 800), ("commandby", 200, 800), ("headernodes", 200, 900), ("commandnodes", 200, 900), ("listing", 200, 1_600), ("headervalue", 300, 1_200), ("commandvalue", 300, 900), ("totals", 30, 1_100), ("xml", 200, 700), ("unxml", 300, 1_400)];

/// The sample of a seed, line by line: requests of those kinds, and lines that are no request.
pub fn sample(seed: u64, kinds: &str) -> Result<Vec<Vec<u8>>, String> {
    let mut lines: Vec<Vec<u8>> =
        examples().into_iter().map(|(request, _)| request.into_bytes()).collect();
    lines.extend(bad_lines());
    let mut requests = rates();
    requests.extend(about_brackets());
    requests.extend(about_middles());
    requests.extend(about_beams());
    requests.extend(about_faults(&mut Random::new(seed, u64::MAX)));
    requests.extend(about_tables());
    requests.extend(about_firmwares());
    requests.extend(about_families());
    requests.extend(about_lengths());
    requests.extend(about_headers());
    requests.extend(about_commands());
    requests.extend(about_bits());
    requests.extend(about_tidied());
    requests.extend(about_xml());
    requests.extend(about_nodes());
    requests.extend(about_command_nodes());
    requests.extend(about_listings());
    lines.extend(requests.iter().map(Request::line));

    let generator = Generator::new(seed, kinds)?;
    let of_kinds = |request: Request| generator.kinds().iter().any(|k| k.name == request.word());
    lines.retain(|line| Request::read(line).is_none_or(of_kinds));
    let names: Vec<&str> = generator.kinds().iter().map(|kind| kind.name).collect();
    let is_walk = |name: &&str| WALKS.iter().any(|(walk, _, _)| walk == name);
    let (walks, others): (Vec<&str>, Vec<&str>) = names.iter().partition(|name| is_walk(name));
    if !others.is_empty() {
        lines.extend(drawn(&Generator::new(seed, &others.join(","))?, DRAWN, DRAWN_LENGTH));
    }
    for &(walk, count, length) in WALKS.iter().filter(|(walk, _, _)| walks.contains(walk)) {
        lines.extend(drawn(&Generator::new(seed, walk)?, count, length));
    }
    Ok(lines)
}

/// So many drawn requests that are no longer than that.
fn drawn(generator: &Generator, count: usize, length: usize) -> impl Iterator<Item = Vec<u8>> {
    let drawn = (0..).map(|index| generator.request(index).1);
    drawn.filter(move |line| line.len() <= length).take(count)
}

/// The examples that were worked out by hand: request and answer.
pub fn examples() -> Vec<(String, &'static str)> {
    let text = include_str!("examples.txt").lines();
    let lines: Vec<&str> = text.filter(|line| !line.is_empty() && !line.starts_with('#')).collect();
    let (pairs, rest) = lines.as_chunks::<2>();
    assert!(rest.is_empty(), "a request without its answer");
    let answer_of = |line: &'static str| line.strip_prefix("= ").expect("an answer");
    pairs.iter().map(|&[request, answer]| (with_texts(request), answer_of(answer))).collect()
}

/// A request whose texts in quotes become their bytes.
fn with_texts(request: &str) -> String {
    let mut line = String::new();
    for (place, part) in request.split('"').enumerate() {
        match place % 2 {
            0 => line.push_str(part),
            _ => push_hex(part.replace('|', "\t").replace('/', "\n").as_bytes(), &mut line),
        }
    }
    line
}

/// Lines that are no request, beyond what a text file can show.
fn bad_lines() -> Vec<Vec<u8>> {
    let lines: &[&[u8]] = &[
        b"",
        b" ",
        b"-",
        b"rate",
        b"rate ",
        b"rate 3 ",
        b" rate 3 12",
        b"rate  3 12",
        b"rate 3  12",
        b"rate 3 12 ",
        b"rate 3 12\r",
        b"rate\t3\t12",
        b"rate 3 12\0",
        b"RATE 3 12",
        b"rate +3 12",
        b"rate 3 -12",
        b"rate 3 -",
        b"rate 0x3 12",
        b"rate 00 12",
        b"rate 3 100000000000000000000000000000000000000000000000000",
        b"count",
        b"count ",
        b"count --",
        b"count -00",
        b"count 5b 02",
        b"count 5b02005d00 -",
        b"count /0",
        b"count 0:",
        b"count `0",
        b"count 0g",
        b"count \xb5\xb5",
        b"body 5b02005d00",
        b"body - 5b02005d00",
        b"body 0",
        b"body 18446744073709551616 5b02005d00",
        b"record",
        b"record 0 5b",
        b"frames 1",
        b"frames 01 -",
        b"frames 18446744073709551616 -",
        b"frametable 16385 -",
        b"frametable 1 0",
        b"recordby 3 5b",
        b"recordby 3 1",
        b"recordby 3 2 -",
        b"recordby 3 01 -",
        b"recordby - 0 -",
        b"recordby 18446744073709551616 0 -",
        b"framesby 3 0 -",
        b"framesby 4 2 1 -",
        b"frametableby 3 0 16385 -",
        b"frametableby 3 00 1 -",
        b"frametext",
        b"frametext 0",
        b"frametext 0 0a",
        b"commandtext",
        b"commandtext 0A",
        b"commandtext 0a -",
        b"header",
        b"header 1 0 0 -",
        b"header 1 0 - -",
        b"header 16385 0 0 - -",
        b"header 1 0 0 - - -",
        b"command 1 -",
        b"command 16385 - -",
        b"command 1 - 0",
        b"command 1 0 - -",
        b"commandby 2 1 - -",
        b"commandby 1 -",
        b"commandby 0 16385 - -",
        b"commandby 01 1 - -",
        b"\xff\xfe",
    ];
    lines.iter().map(|line| line.to_vec()).collect()
}

/// All 512 rates of the table, and arguments about its edges and beyond.
fn rates() -> Vec<Request> {
    let edges = [16, 31, 32, 33, 255, 256, 257, 512, 513, 768, 1 << 32, 1 << 63, u64::MAX];
    let table = (0..16).flat_map(|channel| (0..32).map(move |region| (channel, region)));
    let past = edges.into_iter().flat_map(|edge| [(edge, 1), (0, edge), (edge, edge)]);
    table.chain(past).map(|(channel, region)| Request::Rate { channel, region }).collect()
}

/// Each question about a payload.
fn asked_of(payload: &[u8]) -> Vec<Request> {
    let payload = || payload.to_vec();
    let body = |k| Request::Body { k, payload: payload() };
    vec![
        Request::Count { payload: payload() },
        body(0),
        body(1),
        Request::Frames { cap: 4, payload: payload() },
        Request::Frametable { cap: 4, payload: payload() },
    ]
}

/// Payloads about the first that has a record, about n of 0, 1 and 2, about brackets that fail, and
/// about the end.
fn about_brackets() -> Vec<Request> {
    let payloads: &[&[u8]] = &[
        &[0x5B],
        &[0x5B, 1],
        &[0x5B, 1, 0x5D],
        &[0x5B, 1, 0x5D, 0],
        &[0x5B, 1, 0x5D, 0, 0],
        &[0x5B, 0, 0, 0, 0x5D],
        &[0x5B, 0, 0x5D, 0, 0],
        &[0x5B, 0x5D, 0x5D, 0x5D, 0x5D],
        &[0x5B, 2, 0, 0x5D, 0x5B],
        &[0x5B, 2, 0, 0x5D, 0x5B, 2],
        &[0x5B, 2, 0, 0x5D, 0x5B, 2, 0],
        &[0x5B, 2, 0, 0x5D, 0x5B, 2, 0, 0x5D],
        &[0x5B, 2, 0, 0x5D, 0x5A, 2, 0, 0x5D],
        &[0x5B, 2, 0, 0x5D, 0x5B, 2, 0, 0x5C],
        &[0x5B, 2, 0, 0x5D, 0x5B, 0, 0, 0x5D],
        &[0x5B, 2, 0, 0x5D, 0, 0x5B, 2, 0, 0x5D],
        &[0x5B, 1, 0x5D, 0x5B, 2, 0, 0x5D],
        &[0x5B, 1, 0x5D, 0x5B, 3, 0, 7, 0x5D],
        &[0x5A, 3, 0, 7, 0x5D],
        &[0x5B, 3, 0, 7, 0x5D],
        &[0x5B, 3, 0, 7, 0x5C],
        &[0x5B, 4, 0, 7, 0x5D],
        &[0x5B, 4, 0, 7, 0x5D, 0x5D],
        &[0x5B, 5, 0, 7, 0x5D, 0x5D],
        &[0x5B, 3, 0, 7, 0x5D, 0x5B, 3, 0, 8, 0x5D],
        &[0x5B, 3, 0x5D, 0x5B, 0x5D, 0x5B, 3, 0, 8, 0x5D],
    ];
    let longest = enclose(&Body::new(2, false, vec![9; LONGEST_BODY - 18]).bytes());
    let mut requests: Vec<Request> =
        payloads.iter().flat_map(|payload| asked_of(payload)).collect();
    requests.extend(asked_of(&longest));
    requests.extend(asked_of(&longest[..longest.len() - 1]));
    requests
}

/// Frames of both versions and directions: m about 0, 1 and 7 to 9, l about 0 and m.
fn about_middles() -> Vec<Request> {
    let mut requests = Vec::new();
    for (version, is_tx) in VERSIONS_AND_DIRECTIONS {
        for m in [0, 1, 2, 6, 7, 8, 9, 10, 40] {
            for l in [0, 1, 7, m.max(1) - 1, m, m + 1, 255] {
                let mut middle: Vec<u8> = (0xC0..).take(usize::from(m)).collect();
                if let Some(byte) = middle.get_mut(7) {
                    *byte = l;
                }
                let mut body = Body::new(version, is_tx, middle);
                body.rssi = l;
                requests.push(Request::Record { body: body.bytes() });
                if m < 8 && is_tx {
                    break;
                }
            }
        }
    }
    requests
}

const VERSIONS_AND_DIRECTIONS: [(u8, bool); 4] = [(2, false), (2, true), (3, false), (3, true)];

/// Beams at every rate: of each length, with a byte between, with the tag or the protocol wrong.
fn about_beams() -> Vec<Request> {
    let mut requests = Vec::new();
    for pairs in PAIRS_BY_RATE {
        for (place, &(channel, region)) in pairs.iter().enumerate() {
            for (version, is_tx) in VERSIONS_AND_DIRECTIONS {
                let lengths = if place == 0 { 1..=13 } else { 8..=8 };
                for (width, m) in lengths.flat_map(|m| [(3, m), (4, m)]) {
                    let pattern = [0x55, 1, 2, 3];
                    let middle = pattern[..width].iter().copied().cycle().take(m).collect();
                    let mut body = Body::new(version, is_tx, middle);
                    (body.channel, body.region) = (channel, region | 0xE0);
                    requests.push(Request::Record { body: body.bytes() });
                }
            }
        }
    }
    for spoilt in
        [[0x55, 1, 2, 0xAA, 0x55, 1, 2, 0x55], [0x55, 0x55, 0x55, 0x55, 0x55, 0x55, 0x55, 1]]
    {
        for (version, is_tx) in VERSIONS_AND_DIRECTIONS {
            let mut body = Body::new(version, is_tx, spoilt.to_vec());
            requests.push(Request::Record { body: body.bytes() });
            body.tag = 0xFA;
            requests.push(Request::Record { body: body.bytes() });
            body.protocol = 5;
            requests.push(Request::Record { body: body.bytes() });
        }
    }
    requests
}

/// Each thing that can be wrong with a frame, in both versions and directions, beam or not.
fn about_faults(random: &mut Random) -> Vec<Request> {
    let mut requests = Vec::new();
    for (version, is_tx) in VERSIONS_AND_DIRECTIONS {
        for first in [0x55, 0xCC] {
            let frame = Body::new(version, is_tx, vec![first, 1, 2, 0x55, 1, 2, 3, 4, 5]);
            for fault in 0..FAULTS {
                requests.push(Request::Record { body: spoil(random, &frame, fault) });
            }
        }
    }
    requests
}

/// Three frames among records that are none, and tables of no row to the most.
fn about_tables() -> Vec<Request> {
    let mut payload = Vec::new();
    for (version, is_tx) in [(2, false), (3, true), (2, true)] {
        payload.extend(enclose(&Body::new(version, is_tx, vec![0x55, 1, 2]).bytes()));
        payload.extend([0x5B, 2, 0, 0x5D, 0x5B, 1, 0x5D]);
    }
    let mut requests = Vec::new();
    for cap in [0, 1, 2, 3, 4, 64, limits::CAP] {
        requests.push(Request::Frames { cap, payload: payload.clone() });
        requests.push(Request::Frametable { cap, payload: payload.clone() });
    }
    for k in (0..8).chain([1 << 8, 1 << 32, u64::MAX]) {
        requests.push(Request::Body { k, payload: payload.clone() });
    }
    requests
}

/// Repeated or not, tagged or not, and a firmware.
const ALL_THREE: [(bool, bool, u64); 8] = [
    (true, true, 2),
    (true, true, 3),
    (true, false, 2),
    (true, false, 3),
    (false, true, 2),
    (false, true, 3),
    (false, false, 2),
    (false, false, 3),
];

/// Every region byte under both firmwares; a beam of each pair of five bits; numbers of firmwares
/// that there aren't, with a body that is too long too.
fn about_firmwares() -> Vec<Request> {
    let by = |firmware: u64| By { firmware, beams: Beams::Marker };
    let asked = |firmware: u64, body: Vec<u8>| asked_by(by(firmware), body);
    let too_long = |firmware: u64| {
        Request::Recordby { by: by(firmware), body: vec![0; limits::BODY + 1] }
    };
    let mut requests = Vec::new();
    for region in 0..=255 {
        let mut body = Body::new(2, region % 2 == 0, vec![0xC5, 1, 2]);
        (body.region, body.channel, body.protocol) = (region, region >> 4, 0x16);
        let record = |firmware| asked(firmware, body.bytes())[0].clone();
        requests.extend([3, 2].map(record));
    }
    for &(channel, region) in PAIRS_OF_FIVE_BITS {
        for (version, is_tx) in VERSIONS_AND_DIRECTIONS {
            let mut body = Body::new(version, is_tx, [0x55, 1, 2, 3].repeat(2));
            (body.channel, body.region) = (channel, region);
            requests.extend([3, 2].into_iter().flat_map(|firmware| asked(firmware, body.bytes())));
        }
    }
    for firmware in [0, 1, 4, 5, 13, 255, 258, 259, 1 << 32 | 2, u64::MAX] {
        requests.extend(asked(firmware, Body::new(2, false, vec![1]).bytes()));
        requests.extend(asked(firmware, vec![]));
        requests.push(too_long(firmware));
    }
    requests.push(too_long(3));
    requests
}

/// A record by itself, and in a payload.
fn asked_by(by: By, body: Vec<u8>) -> [Request; 3] {
    let payload = enclose(&body);
    [
        Request::Recordby { by, body },
        Request::Framesby { by, cap: 1, payload: payload.clone() },
        Request::Frametableby { by, cap: 1, payload },
    ]
}

/// Beams as a family of their own: 1 to 12 middle bytes at every rate, that repeat or not, with the
/// right tag and with a wrong one, under both firmwares; some of them by the other reading too.
fn about_families() -> Vec<Request> {
    let mut requests = Vec::new();
    for (rate, pairs) in PAIRS_BY_RATE.iter().enumerate() {
        let width = if rate == 3 { 4 } else { 3 };
        for m in 1..=12 {
            for (is_repeated, is_tagged, firmware) in ALL_THREE {
                let mut middle: Vec<u8> = [0x55, 0x61, 0x02, 0x9A, 5, 6, 7, 8, 9, 10, 11, 12][..m].to_vec();
                if is_repeated {
                    middle = [0x55, 0x61, 0x02, 0x9A][..width].repeat(4)[..m].to_vec();
                }
                let mut body = Body::new(2, m % 2 == 0, middle);
                (body.channel, body.region) = pairs[m % pairs.len()];
                body.tag ^= u8::from(!is_tagged);
                let by = By { firmware, beams: Beams::Family };
                requests.push(asked_by(by, body.bytes())[0].clone());
                if (8..=9).contains(&m) {
                    requests.extend(asked_by(By { beams: Beams::Marker, ..by }, body.bytes()));
                    requests.extend(asked_by(by, body.bytes()));
                }
            }
        }
    }
    requests
}

/// The longest bodies and payloads that are taken, and the shortest that are refused.
fn about_lengths() -> Vec<Request> {
    let body = |is_tx: bool, first: u8, length: usize| {
        let mut body = Body::new(3, is_tx, Vec::new());
        let m = length - body.bytes().len();
        body.middle = [first, 1, 2].into_iter().cycle().take(m).collect();
        Request::Record { body: body.bytes() }
    };
    let mut requests = Vec::new();
    for first in [0x55, 0xCC] {
        requests.push(body(false, first, limits::BODY));
        requests.push(body(true, first, limits::BODY + 1));
    }
    let record = enclose(&Body::new(2, true, vec![0x55]).bytes());
    let payload = |length: usize| record.iter().copied().cycle().take(length).collect::<Vec<u8>>();
    let rows = (limits::PAYLOAD / record.len()) as u64;
    requests.push(Request::Frames { cap: rows, payload: payload(limits::PAYLOAD) });
    requests.push(Request::Count { payload: payload(limits::PAYLOAD + 1) });
    requests
}

/// The longest MPDU that is taken, the shortest that is refused, a limit of the text that is passed,
/// and as many rows as there can be: 64 fields of a base header and 64 of a candidate, a bit each.
fn about_headers() -> Vec<Request> {
    let header = |cap: u64, text: &str, mpdu: Vec<u8>| {
        let text = text.replace('|', "\t").into_bytes();
        Request::Header { cap, region: 0, speed: 0, text, mpdu }
    };
    let one = "B|0\nP|0|0|8|HEX|a|-|-|-\nH|1|0|0000|h\nV|a|1\n";
    let bits = "P|0|0|1|HEX|a|-|-|-\n".repeat(limits::PARAMS);
    let most = format!("B|0\n{bits}H|1|0|0000|h\nV|a|1\n{bits}");
    vec![
        header(1, one, vec![1; limits::MPDU]),
        header(1, one, vec![1; limits::MPDU + 1]),
        header(limits::CAP, one, vec![1, 2]),
        header(1, &"F|1|1\n".repeat(limits::RADIO_FREQUENCIES + 1), vec![1; limits::MPDU + 1]),
        header(128, &most, vec![0xA5; 16]),
        header(127, &most, vec![0xA5; 16]),
        header(127, &most, vec![0xA5; 15]),
    ]
}

/// The longest payload that is taken, the shortest that is refused, a limit of the text that is
/// passed, entries 254 and 255, and more rows than the largest table has: each byte a repetition
/// with a Q of 32 bits.
fn about_commands() -> Vec<Request> {
    use Offsets::{Answered, Position};
    let command = |cap: u64, text: &str, payload: Vec<u8>| Request::Command {
        cap,
        text: text.replace('|', "\t").into_bytes(),
        payload,
    };
    let by = |offsets: Offsets, text: &str, payload: &[u8]| Request::Commandby {
        offsets,
        cap: limits::CAP,
        text: text.replace('|', "\t").into_bytes(),
        payload: payload.to_vec(),
    };
    let both =
        |text: &str, payload: &[u8]| [by(Answered, text, payload), by(Position, text, payload)];
    let one = "Q|0|ARRAY|a|-|-\n";
    let bits = "T|1|a\n".repeat(limits::PARAM_ITEMS);
    let most = format!("G|g|255|1|0\nQ|1|BYTE|a|-|-\n{bits}");
    let (text, payload) = entries_254_and_255();
    let by_offsets = OFFSETS.iter().flat_map(|(text, payload)| both(text, payload));
    let at_254 = both(text, &payload);
    let commands = vec![
        command(1, one, vec![0xA5; limits::COMMAND]),
        command(1, one, vec![0xA5; limits::COMMAND + 1]),
        command(limits::CAP, one, vec![0xA5; 3]),
        command(1, &format!("{most}T|1|a\n"), vec![0xA5; limits::COMMAND + 1]),
        command(510, text, payload),
        command(34, &most, vec![0xA5; 3]),
        command(33, &most, vec![0xA5; 3]),
        command(limits::CAP, &most, vec![0xA5; limits::COMMAND]),
    ];
    commands.into_iter().chain(by_offsets).chain(at_254).collect()
}

/// A text and a payload for each kind of place where offsets by position find another entry than those
/// of document 01, and for each that is not found: an absent Q before a length, a condition and a count;
/// a group before these; the Q itself, one behind it; a Q without a value; a group's members. | stands
/// for a tab.
pub const OFFSETS: &[(&str, &[u8])] = &[
    (
        "Q|0|BYTE|a|-|-\nQ|0|BYTE|b|0|128\nQ|0|BYTE|c|-|-\nQ|0|VARIANT|d|-|-\nR|2|255|-|0\n",
        &[0x20, 1, 1, 2, 3, 4, 5],
    ),
    (
        "Q|0|BYTE|a|-|-\nQ|0|BYTE|b|0|128\nQ|0|BYTE|c|-|-\nQ|0|BYTE|d|2|2\nQ|0|BYTE|e|1|2\n",
        &[0x20, 1, 1, 2, 3, 4, 5],
    ),
    (
        "Q|0|BYTE|a|-|-\nQ|0|BYTE|b|0|128\nQ|0|BYTE|c|-|-\nG|g|2|255|0\nQ|1|BYTE|m|-|-\n",
        &[0x20, 1, 1, 2, 3, 4, 5],
    ),
    (
        "Q|0|BYTE|n|-|-\nG|g|0|255|0\nQ|1|BYTE|m|-|-\nQ|0|BYTE|c|-|-\nQ|0|VARIANT|d|-|-\nR|2|255|-|0\n",
        &[0x20, 1, 2, 7, 8, 1, 5, 6],
    ),
    (
        "Q|0|BYTE|n|-|-\nG|g|0|255|0\nQ|1|BYTE|m|-|-\nQ|0|BYTE|c|-|-\nQ|0|BYTE|d|2|1\nQ|0|BYTE|e|1|1\n",
        &[0x20, 1, 2, 7, 8, 1, 5, 6],
    ),
    (
        "Q|0|BYTE|n|-|-\nG|g|0|255|0\nQ|1|BYTE|m|-|-\nQ|0|BYTE|c|-|-\nG|h|2|255|0\nQ|1|BYTE|k|-|-\n",
        &[0x20, 1, 2, 7, 8, 1, 5, 6],
    ),
    ("Q|0|BYTE|a|-|-\nQ|0|VARIANT|b|-|-\nR|1|255|-|0\n", &[0x20, 1, 1, 2, 3]),
    ("Q|0|VARIANT|a|-|-\nR|1|255|-|0\nQ|0|BYTE|b|-|-\n", &[0x20, 1, 1, 2, 3]),
    (
        "Q|0|ARRAY|a|-|-\nA|9|0\nQ|0|BYTE|b|0|255\nQ|0|VARIANT|c|-|-\nR|0|255|-|0\n",
        &[0x20, 1, 1, 2, 3, 4, 5, 6, 7, 8, 9, 10],
    ),
    (
        "G|g|255|1|0\nQ|1|BYTE|n|-|-\nQ|1|VARIANT|m|-|-\nR|0|3|-|0\nQ|1|BYTE|k|0|4\n",
        &[0x20, 1, 1, 9, 6, 8, 7, 5, 2, 0],
    ),
];

/// Buffers of a text's length, a byte more and a byte less, the largest, and none.
fn about_tidied() -> Vec<Request> {
    let text =
        "Q|0|BYTE|U|-|-\nU|1|-|U\nS|2|1|U\nU|4|2|US\nK|0|U\n".replace('|', "\t").into_bytes();
    let tidy = |cap: u64, text: &[u8]| Request::Tidy { cap, text: text.to_vec() };
    let length = text.len() as u64;
    vec![
        tidy(length, &text),
        tidy(length + 1, &text),
        tidy(length - 1, &text),
        tidy(limits::BUFFER, &text),
        tidy(0, &text),
        tidy(0, &text[1..]),
        tidy(0, b""),
    ]
}

/// A text with every kind of line and its XML, in buffers of its length, a byte more and a byte less, the largest, and none; the XML cut at every byte; and a
/// little that is not read.
fn about_xml() -> Vec<Request> {
    let text = "F|1|2\nB|0\nP|0|0|8|HEX|a|-|-|-\nP|1|0|4|HEX|x|s|a|-\nH|1|-|0101|<&>\"'\nP|0|0|0|HEX|y|-|-|a\nV|a.x|31\nD|s\nE|255|e\n"
        .replace('|', "\t");
    let written = xml_of(text.as_bytes()).expect("a text in plain form");
    let about = |length: usize| [length, length + 1, length - 1, 0].map(|n| n as u64).into_iter().chain([limits::BUFFER]);
    let xml = |cap: u64, text: &str| Request::Xml { cap, text: text.as_bytes().to_vec() };
    let unxml = |cap: u64, xml: &[u8]| Request::Unxml { cap, xml: xml.to_vec() };
    let mut requests: Vec<Request> = about(written.len()).map(|cap| xml(cap, &text)).collect();
    requests.extend(about(text.len()).map(|cap| unxml(cap, written.as_bytes())));
    requests.extend(["", "D|s\nF|1|2\n", "H|1|-|0000|n\nV|a|1\nP|0|0|8|HEX|a|-|-|-\n", "F|1\n"].map(|text| xml(0, &text.replace('|', "\t"))));
    requests.extend((0..written.len()).step_by(7).map(|length| unxml(0, &written.as_bytes()[..length])));
    let deep = |levels: usize| {
        let param = r#"<Param Order="0" Bits="1" Type="HEX" Name="a" Text="a">"#;
        let inside = param.repeat(levels) + &"</Param>".repeat(levels);
        format!(r#"<FrameDefinition><BaseHeader Key="0" Name="0" Text="0">{inside}</BaseHeader></FrameDefinition>"#)
    };
    requests.extend([8, 9].map(|levels| unxml(4_096, deep(levels).as_bytes())));
    let define = |attributes: &str| format!(r#"<FrameDefinition><DefineSet Name="s"><Define {attributes}/></DefineSet></FrameDefinition>"#);
    let defines = [
        r#"Key="0xFFFFFFFF" Text="e" Name="n""#,
        r#"Key="0x100000000" Text="e" Name="n""#,
        r#"Key="4294967295" Text="&lt;&gt;&amp;&quot;&apos;" Name="n""#,
        r#"Key="4294967296" Text="e" Name="n""#,
        r#"Key=" +007 " Text="e" Name="n""#,
        r#"Key="" Text="e" Name="n""#,
        r#"Key="1" Text="" Name="n""#,
        r#"Key="1" Text="&#65;" Name="n""#,
        r#"Key="1" Text="<" Name="n""#,
        r#"Key="1" Text="e""#,
        r#"Key="1" Text="e" Name="n" Name="n""#,
        r#"Key='1' Text="e" Name="n""#,
    ];
    requests.extend(defines.map(|attributes| unxml(64, define(attributes).as_bytes())));
    let others = ["<FrameDefinition/>", " <FrameDefinition />\n", "\u{feff}<FrameDefinition/>", "<FrameDefinition><!-- --></FrameDefinition>", "<frameDefinition/>", "a"];
    requests.extend(others.map(|xml| unxml(0, xml.as_bytes())));
    requests
}

/// Masks of eight, nine and 255 bytes, tables of as many nodes, one more and one less, and rows that are none.
fn about_nodes() -> Vec<Request> {
    let text = "B|0\nP|0|0|8|NUMBER|n|-|-|-\nP|0|1|0|BITMASK|m|-|-|n\nP|0|2|12|BITMASK|odd|-|-|-\nP|0|3|4|HEX|x|-|-|-\n\
        P|0|4|16|HEX|o|-|-|-\nP|1|0|8|BITMASK|i|-|-|-\nH|0|0|0010|x\nV|n|9\nH|0|0|0010|x\nV|n|8\nH|0|0|0010|x\nV|n|255\n";
    let text = text.replace('|', "\t").into_bytes();
    let nodes = |cap: u64, row: u64, length: u8, byte: u8| Request::Headernodes {
        cap,
        row,
        region: 0,
        speed: 0,
        text: text.clone(),
        mpdu: [&[length][..], &vec![byte; usize::from(length)], &[0x12, 0x34, 0x56, 0x78]].concat(),
    };
    let rows = (0..8).map(|row| nodes(8, row, 8, 0x11));
    let caps = [(8, 8), (9, 9), (255, 255)].into_iter().flat_map(|(length, byte)| {
        let set = u64::from(length) * u64::from(u8::count_ones(byte));
        [set - 1, set, set + 1, 0].map(|cap| nodes(cap, 1, length, byte))
    });
    let others = [(0, 1, 7), (0, 1, 8), (limits::CAP, 1, 255), (0, u64::MAX, 8), (0, u64::MAX, 7)];
    rows.chain(caps).chain(others.map(|(cap, row, length)| nodes(cap, row, length, 0))).collect()
}

/// Rows of every kind of a command with masks outside and inside a group, tables of as many nodes, one more and one less, and rows that there
/// are not.
fn about_command_nodes() -> Vec<Request> {
    let text = "Q|0|BYTE|n|-|-\nT|1|odd\nQ|0|BITMASK|m|-|-\nM|9\nT|1|no\nQ|0|MULTI_ARRAY|a|-|-\nM|2\n\
        Q|0|BITMASK|one|-|-\nM|1\nT|1|low\nG|g|0|3|0\nQ|1|BYTE|k|-|-\nQ|1|BITMASK|i|-|-\nR|0|255|-|0\nQ|0|BITMASK|rest|-|-\n";
    let text = text.replace('|', "\t").into_bytes();
    let masks = [&[2][..], &[0x11; 9], &[3, 3], &[0x80], &[1, 0xFF], &[2, 1, 0x80], &[0; 3], &[1]].concat();
    let nodes = |offsets: Offsets, cap: u64, row: u64, payload: &[u8]| Request::Commandnodes {
        offsets,
        cap,
        row,
        text: text.clone(),
        payload: [&[0x20, 0x01][..], payload].concat(),
    };
    let modes = [Offsets::Answered, Offsets::Position];
    let rows = (0..16).flat_map(|row| modes.map(|offsets| nodes(offsets, 18, row, &masks)));
    let caps = [17, 18, 19, 0].map(|cap| nodes(Offsets::Answered, cap, 2, &masks));
    let others = [0, 1, 2, 5, 10].map(|length| nodes(Offsets::Position, 0, 2, &masks[..length]));
    let past = [u64::MAX, 16_384].map(|row| nodes(Offsets::Answered, 0, row, &masks));
    let mut short = vec![nodes(Offsets::Answered, 0, 0, &[0; 2_047]), nodes(Offsets::Answered, 0, 7, &[])];
    if let Some(Request::Commandnodes { payload, .. }) = short.last_mut() {
        payload.truncate(1);
    }
    rows.chain(caps).chain(others).chain(past).chain(short).collect()
}

/// Listings by a text of three headers of which the last two hold for it: our own and what is wrong by one byte or line.
fn about_listings() -> Vec<Request> {
    let text = "B|0\nP|0|0|8|NUMBER|n|-|-|-\nP|0|1|8|HEX|x|-|-|-\nP|1|0|4|HEX|low|-|-|-\n\
        H|0|0|0000|a\nV|n|8\nH|0|0|0000|b\nV|n|9\nP|0|0|0|HEX|m|-|-|n\nH|0|0|0000|c\nV|n|9\nH|0|1|0000|d\nV|n|9\nH|0|0|0000|e\n";
    let text = text.replace('|', "\t").into_bytes();
    let base = "0|0|0|8|1|9|0\n1|0|8|8|1|18|0\n2|2|12|4|1|2|0\n";
    let mask = "3|0|16|72|0|0|0\n";
    let listings = [
        format!("{base}{mask}1\n"),
        format!("{base}0\n"),
        format!("{base}2\n"),
        format!("{base}1\n"),
        format!("{base}3\n"),
        format!("{base}4\n"),
        format!("{base}5\n"),
        format!("{base}18446744073709551615\n"),
        format!("{base}18446744073709551616\n"),
        format!("{base}{mask}01\n"),
        format!("{base}{mask}1"),
        format!("{base}{mask}1\n\n"),
        format!("{base}{mask}1\n1\n"),
        format!("{base}{mask}{mask}1\n"),
        format!("{base}\n{mask}1\n"),
        format!("{base}{mask}"),
        format!("{mask}1\n"),
        "1\n".to_string(),
        "1".to_string(),
        String::new(),
    ];
    let mut listings: Vec<Vec<u8>> = listings.iter().map(|l| l.replace('|', "\t").into_bytes()).collect();
    let ours = listings[0].clone();
    for at in 0..ours.len() {
        let mut other = ours.clone();
        other[at] = if other[at] == b'7' { b'6' } else { b'7' };
        listings.push(other);
    }
    let listing = |listing: Vec<u8>, mpdu: Vec<u8>| Request::Listing {
        region: 0,
        speed: 0,
        text: text.clone(),
        mpdu,
        listing,
    };
    let mpdu = [&[9, 0x12][..], &[0xA5; 12]].concat();
    let refused = [vec![], vec![9], vec![7, 0x12, 0], vec![0; 2_049]].map(|mpdu| listing(Vec::new(), mpdu));
    listings.into_iter().map(|l| listing(l, mpdu.clone())).chain(refused).collect()
}

/// A count of 253 and as many repetitions: then b is entry 254, by which c has its length, and c is
/// entry 255, on which d depends; e does not meet its mask. | stands for a tab.
pub fn entries_254_and_255() -> (&'static str, Vec<u8>) {
    let text = "Q|0|BYTE|n|-|-\nG|g|0|255|0\nQ|1|BYTE|a|-|-\nQ|0|BYTE|b|-|-\n\
        Q|0|VARIANT|c|-|-\nR|254|255|-|0\nQ|0|BYTE|d|255|1\nQ|0|BYTE|e|254|1\n";
    let payload = [&[0x20, 0x01, 253][..], &[0xA5; 253], &[2, 0xAA, 0xBB, 1, 2, 3]].concat();
    (text, payload)
}

/// Every width at every place of two bytes, the two widths next to those that are read too; and
/// every width up to the last bit, and a bit past it. The first bytes tell the places apart: from
/// four bits on, no two places have the same number.
fn about_bits() -> Vec<Request> {
    let bytes = [0x09, 0xAF, 0x17, 0xC3, 0x5A, 0x81, 0xE6, 0x2D, 0x94, 0x7B];
    let end = 8 * bytes.len() as u64;
    let within = (0..16).flat_map(|place| (0..=65).map(move |width| (place, width)));
    let at_the_end = (1..=64).flat_map(|width| [(end - width, width), (end - width + 1, width)]);
    let asked = within.chain(at_the_end);
    asked.map(|(place, width)| Request::Bits { place, width, bytes: bytes.to_vec() }).collect()
}
