//! The definition texts that are timed, all of them accepted. They are the same in every run.

use oracle::limits;
use oracle::random::Random;

const SEED: u64 = 1;

const NAMES: [&str; 16] = [
    "HomeID",
    "SourceNodeID",
    "FrameControl",
    "Header Type",
    "Speed",
    "LowPower",
    "AckReq",
    "Routed",
    "Length",
    "SequenceNumber",
    "Destination",
    "Properties1",
    "Number of repeaters",
    "Hops",
    "Data",
    "Checksum",
];

/// Lines, until the next is too long for what is left of a length.
struct Text {
    bytes: Vec<u8>,
    length: usize,
    full: bool,
}

impl Text {
    fn new(length: usize) -> Text {
        Text { bytes: Vec::new(), length, full: false }
    }

    /// Adds the line, unless it or one before it is too long.
    fn line(&mut self, fields: &[&str]) {
        let line = fields.join("\t") + "\n";
        self.full |= self.length < self.bytes.len() + line.len();
        if !self.full {
            self.bytes.extend(line.bytes());
        }
    }

    fn bytes(self) -> Vec<u8> {
        assert!(self.full, "the limits allow no text of {} bytes", self.length);
        self.bytes
    }
}

/// A frame text as one would be written: up to sixteen times an F, a D, a B and four H. Each
/// stream gives another.
pub fn frame(length: usize, stream: u64) -> Vec<u8> {
    let random = &mut Random::new(SEED, stream);
    let mut text = Text::new(length);
    for header in 0..limits::HEADERS {
        let key = header.to_string();
        if header % 4 == 0 {
            text.line(&["F", &key, &key]);
            set(&mut text, random);
            text.line(&["B", &key]);
            params(&mut text, random, 4);
        }
        let base = random.pick(&[&key, "-"]);
        text.line(&["H", &key, base, random.pick(&["0000", "1000", "0101"]), &name(random)]);
        for _ in 0..2 {
            text.line(&["V", &path(random), &number(random, 65_536)]);
        }
        let count = random.from_to(12, 24);
        params(&mut text, random, count);
    }
    text.bytes()
}

/// A frame text of the shortest P lines.
pub fn shortest_params() -> Vec<u8> {
    params_alike("P\t0\t1\t8\tHEX\ta\t-\t-\t-")
}

/// A frame text of the longest P lines.
pub fn longest_params() -> Vec<u8> {
    let name = "n".repeat(40);
    let path = [&name[..38], &name, &name].join(".");
    params_alike(&format!("P\t0\t65535\t255\tNUMBER_SIGNED\t{name}\t{name}\t{path}\t{path}"))
}

/// A frame text of P lines whose paths have as many names as there is room for.
pub fn longest_paths() -> Vec<u8> {
    let path = ["n"; 60].join(".");
    params_alike(&format!("P\t0\t1\t8\tHEX\ta\t-\t{path}\t{path}"))
}

/// A command text of the shortest S lines.
pub fn shortest_bits() -> Vec<u8> {
    let head = "Q\t0\tBYTE\ta\t-\t-";
    alike(limits::CMD_ITEMS, head, limits::PARAM_ITEMS, "S\t1\t-\ta")
}

/// A frame text of short P lines with drawn fields, which the processor cannot foresee.
pub fn mixed_params() -> Vec<u8> {
    let random = &mut Random::new(SEED, 0);
    let mut text = Text::new(limits::TEXT);
    for _ in 0..limits::HEADERS {
        text.line(&["H", &number(random, 256), "-", "0000", short(random)]);
        for _ in 0..limits::PARAMS {
            let (order, bits) = (number(random, 1_000), number(random, 256));
            let of = random.pick(&["HEX", "NUMBER", "BOOLEAN", "BITMASK"]);
            let mut word = || if random.one_in(2) { "-" } else { short(random) };
            let (set, optional, size) = (word(), word(), word());
            text.line(&["P", "0", &order, &bits, of, short(random), set, optional, size]);
        }
    }
    text.bytes()
}

/// A command text of short lines of drawn kinds, which the processor cannot foresee either.
pub fn mixed_items() -> Vec<u8> {
    let random = &mut Random::new(SEED, 0);
    let mut text = Text::new(limits::TEXT);
    for _ in 0..limits::CMD_ITEMS {
        text.line(&["Q", "0", random.pick(&["BYTE", "WORD", "CONST"]), short(random), "-", "-"]);
        for _ in 0..limits::PARAM_ITEMS {
            let (mask, shift) = (number(random, 256), random.pick(&["-", "0", "7"]));
            match random.pick(&["R", "A", "T", "S", "U", "K", "M"]) {
                "R" => text.line(&["R", &mask, &number(random, 256), shift, "0"]),
                "A" => text.line(&["A", &mask, random.pick(&["0", "1"])]),
                "M" => text.line(&["M", random.pick(&["-", &mask])]),
                kind @ ("S" | "U") => text.line(&[kind, &mask, shift, short(random)]),
                kind => text.line(&[kind, &mask, short(random)]),
            }
        }
    }
    text.bytes()
}

fn params_alike(param: &str) -> Vec<u8> {
    alike(limits::HEADERS, "H\t1\t-\t0000\ta", limits::PARAMS, param)
}

/// The longest text of one line again and again, as often under each head as is allowed.
fn alike(heads: usize, head: &str, lines: usize, line: &str) -> Vec<u8> {
    let mut text = Text::new(limits::TEXT);
    for _ in 0..heads {
        text.line(&[head]);
        (0..lines).for_each(|_| text.line(&[line]));
    }
    text.bytes()
}

/// A set of defines.
fn set(text: &mut Text, random: &mut Random) {
    text.line(&["D", &name(random)]);
    for key in 0..random.from_to(4, 12) {
        text.line(&["E", &key.to_string(), &name(random)]);
    }
}

/// Parameters, some of them inside the one before, down to level 3. Sizes stand at level 0 alone.
fn params(text: &mut Text, random: &mut Random, count: usize) {
    let mut level = 0;
    for order in 0..count {
        let name = name(random);
        let of =
            random.pick(&["HEX", "NUMBER", "NUMBER_SIGNED", "NODE_NUMBER", "BOOLEAN", "BITMASK"]);
        let set = if random.one_in(4) { random.pick(&NAMES) } else { "-" };
        let optional = if random.one_in(4) { path(random) } else { "-".to_string() };
        let size = if level == 0 && random.one_in(4) { path(random) } else { "-".to_string() };
        let bits = random.pick(&["1", "4", "8", "16"]);
        let (at, order) = (level.to_string(), order.to_string());
        text.line(&["P", &at, &order, bits, of, &name, set, &optional, &size]);
        level = random.below(level.min(2) + 2);
    }
}

/// A command text as one would be written: parameters with what stands under them, now and then
/// a group. Each stream gives another.
pub fn command(length: usize, stream: u64) -> Vec<u8> {
    let random = &mut Random::new(SEED, stream);
    let mut text = Text::new(length);
    let mut level = "0";
    for _ in 0..limits::CMD_ITEMS {
        if random.one_in(16) {
            text.line(&["G", &name(random), &number(random, 256), "255", &number(random, 8)]);
            level = "1";
        } else {
            if random.one_in(8) {
                level = "0";
            }
            param(&mut text, random, level);
        }
    }
    text.bytes()
}

/// A parameter, and under it what its type asks for.
fn param(text: &mut Text, random: &mut Random, level: &str) {
    let of = match random.one_in(4) {
        true => random.pick(&["VARIANT", "ARRAY", "BITMASK", "WORD"]),
        false => random.pick(&["STRUCT_BYTE", "CONST"]),
    };
    let offset = if random.one_in(4) { number(random, 256) } else { "-".to_string() };
    let mask = if offset == "-" { "-" } else { "128" };
    text.line(&["Q", level, of, &name(random), &offset, mask]);
    match of {
        "STRUCT_BYTE" => (0..8).for_each(|bit| {
            let (mask, shift) = ((1u8 << bit).to_string(), bit.to_string());
            match random.pick(&["T", "S", "U"]) {
                "T" => text.line(&["T", &mask, &name(random)]),
                kind => text.line(&[kind, &mask, random.pick(&["-", &shift]), &name(random)]),
            }
        }),
        "CONST" => (0..random.from_to(16, limits::PARAM_ITEMS))
            .for_each(|value| text.line(&["K", &value.to_string(), &name(random)])),
        "VARIANT" => text.line(&["R", &number(random, 256), "31", random.pick(&["-", "5"]), "0"]),
        "ARRAY" => text.line(&["A", &number(random, 256), random.pick(&["0", "1"])]),
        "BITMASK" => text.line(&["M", random.pick(&["-", "4"])]),
        _ => {}
    }
}

/// One or two of the words above.
fn name(random: &mut Random) -> String {
    match random.one_in(4) {
        true => [random.pick(&NAMES), random.pick(&NAMES)].join(" "),
        false => random.pick(&NAMES).to_string(),
    }
}

/// A name of one to four letters.
fn short(random: &mut Random) -> &'static str {
    random.pick(&["a", "On", "Off", "Mode"])
}

fn path(random: &mut Random) -> String {
    (0..random.from_to(1, 3)).map(|_| random.pick(&NAMES)).collect::<Vec<_>>().join(".")
}

fn number(random: &mut Random, end: usize) -> String {
    random.below(end).to_string()
}
