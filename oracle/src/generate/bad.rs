//! Lines that are no request, most of them one step from one.

use super::pti;
use crate::random::Random;

/// Longer than a replay program need hold.
const TOO_LONG: usize = 500_000;

pub fn line(random: &mut Random) -> Vec<u8> {
    match random.below(400) {
        0 => vec![b'a'; TOO_LONG],
        1..=9 => Vec::new(),
        10..=29 => {
            let length = random.below(30);
            random.bytes(length).into_iter().filter(|&byte| byte != b'\n').collect()
        }
        30..=129 => bad_number(random),
        130..=229 => bad_bytes(random),
        _ => bad_words(random),
    }
}

/// A request with a number that is none, or too large.
fn bad_number(random: &mut Random) -> Vec<u8> {
    const NUMBERS: &[&str] = &[
        "",
        "-",
        "--",
        "00",
        "01",
        "007",
        "+1",
        "-1",
        "1.0",
        "1e3",
        "0x1",
        "1f",
        "a",
        "1_000",
        "18446744073709551616",
        "18446744073709551617",
        "28446744073709551615",
        "100000000000000000000",
        "99999999999999999999999999999999999999999",
    ];
    const CAPS: &[&str] = &["16385", "16386", "65536", "4294967296", "18446744073709551615"];
    let number = random.pick(NUMBERS);
    const BUFFERS: &[&str] = &["196609", "4294967296", "18446744073709551615"];
    match random.below(30) {
        0 => format!("rate {number} 1"),
        1 => format!("rate 1 {number}"),
        2 => format!("body {number} 5b02005d00"),
        3 => format!("frames {number} 5b02005d00"),
        4 => format!("frametable {number} 5b02005d00"),
        5 => format!("header {number} 0 0 - 0000"),
        6 => format!("header 4 {number} 0 - 0000"),
        7 => format!("header 4 0 {number} - 0000"),
        8 => format!("command {number} - 0000"),
        9 => format!(
            "{} {} - -",
            random.pick(&["header", "command", "commandby 0"]),
            random.pick(CAPS)
        ),
        10 => format!("tidy {number} -"),
        11 => format!("tidy {} -", random.pick(BUFFERS)),
        12 => format!("headernodes {number} 0 0 0 - 0000"),
        13 => format!("headernodes 4 {number} 0 0 - 0000"),
        14 => format!("headernodes 4 0 0 {number} - 0000"),
        15 => format!("headernodes {} 0 0 0 - 0000", random.pick(CAPS)),
        16 => format!("listing {number} 0 - 0000 310a"),
        17 => format!("listing 0 {number} - 0000 310a"),
        18 => format!("headervalue {number} 0 0 0 - 0000"),
        19 => format!("headervalue 4 {number} 0 0 - 0000"),
        20 => format!("headervalue {} 0 0 0 - 0000", random.pick(BUFFERS)),
        21 => format!("commandnodes {number} 4 0 - 0000"),
        22 => format!("commandnodes 0 {number} 0 - 0000"),
        23 => format!("commandnodes 1 4 {number} - 0000"),
        24 => format!("commandnodes {} 4 0 - 0000", random.pick(&["2", "3", "18446744073709551615"])),
        25 => format!("commandvalue {number} 4 0 - 0000"),
        26 => format!("commandvalue 0 {number} 0 - 0000"),
        27 => format!("commandvalue 1 4 {number} - 0000"),
        28 => format!("commandvalue 0 {} 0 - 0000", random.pick(BUFFERS)),
        _ => format!("{} {} -", random.pick(&["frames", "frametable"]), random.pick(CAPS)),
    }
    .into_bytes()
}

/// A request whose bytes are none.
fn bad_bytes(random: &mut Random) -> Vec<u8> {
    const BYTES: &[&str] = &[
        "",
        "0",
        "000",
        "5b02005d0",
        "5B02005D00",
        "5b02005D00",
        "5g",
        "g5",
        "0x00",
        "--",
        "-00",
        "00-",
        "5b 02",
        "5b,02",
        "5b02005d00\r",
        "\u{b5}",
        "0\0",
        "/0",
        ":0",
        "@0",
        "`0",
    ];
    const WORDS: &[&str] = &[
        "count",
        "body 0",
        "record",
        "frames 4",
        "frametable 4",
        "frametext",
        "commandtext",
        "header 4 0 0 -",
        "command 4 -",
        "tidy 100",
        "headernodes 4 0 0 0 -",
        "commandnodes 0 4 0 -",
        "listing 0 0 - 0000",
        "listing 0 0 -",
        "headervalue 4 0 0 0 -",
        "commandvalue 1 4 0 -",
    ];
    const WALKS: &[&str] = &["header 4 0 0", "command 4", "headernodes 4 0 0 0", "commandnodes 1 4 0", "headervalue 4 0 0 0", "commandvalue 0 4 0"];
    match random.below(8) {
        0 => format!("{} {} 0000", random.pick(WALKS), random.pick(BYTES)),
        _ => format!("{} {}", random.pick(WORDS), random.pick(BYTES)),
    }
    .into_bytes()
}

/// A request with a wrong word, a word too few or too many, or parted by something else.
fn bad_words(random: &mut Random) -> Vec<u8> {
    const WORDS: &[&str] =
        &["rates", "rat", "Rate", "RECORD", "frame", "table", "refused", "-", "0"];
    let draw = random.pick(&[pti::rate, pti::body, pti::record, pti::frames, pti::frametable]);
    let mut line = draw(random);
    line.truncate(400);
    let spaces: Vec<usize> = (0..line.len()).filter(|&at| line[at] == b' ').collect();
    let space = random.pick(&spaces);
    match random.below(9) {
        0 => drop(line.splice(..spaces[0], random.pick(WORDS).bytes())),
        1 => line.truncate(spaces[spaces.len() - 1]),
        2 => line.truncate(spaces[0] + random.below(2)),
        3 => line.extend(random.pick(&[" ", " 0", " -", " 00", "\t", "\r", "\0"]).bytes()),
        4 => line.insert(0, random.pick(b" \t\0")),
        5 => line.insert(space, b' '),
        6 => line[space] = random.pick(b"\t,\0\r\x0b\xa0"),
        7 => drop(line.remove(space)),
        _ => line[spaces[0] - 1] ^= 0x20,
    }
    line
}
