//! The fields of the forms: how a good one is drawn, and one that is most often bad.

use crate::random::Random;

pub struct Form {
    pub letter: &'static str,
    pub fields: &'static [Kind],
}

#[derive(Clone, Copy)]
pub enum Kind {
    /// A number from 0 to this.
    Number(usize),
    /// A number up to 7.
    Level,
    Shift,
    Bit,
    Flags,
    Word(&'static [&'static str]),
    Name,
    NameWithoutDot,
    Path,
    /// What is marked ?.
    Optional(&'static Kind),
}

pub const BYTE: Kind = Kind::Number(255);
pub const WORD: Kind = Kind::Number(65_535);
pub const OPTIONAL_BYTE: Kind = Kind::Optional(&BYTE);
pub const OPTIONAL_SHIFT: Kind = Kind::Optional(&Kind::Shift);
pub const OPTIONAL_NAME: Kind = Kind::Optional(&Kind::Name);
pub const OPTIONAL_PATH: Kind = Kind::Optional(&Kind::Path);

pub const LETTERS: &[u8] = b"abcXYZ019_ ";

/// A line of this form, with good fields; levels are 0.
pub fn good_line(random: &mut Random, form: &Form) -> Vec<Vec<u8>> {
    let mut line = vec![form.letter.into()];
    line.extend(form.fields.iter().map(|&kind| good(random, kind)));
    line
}

pub fn good(random: &mut Random, kind: Kind) -> Vec<u8> {
    match kind {
        Kind::Number(most) => {
            let any = random.below(most + 1);
            let below_ten = random.below(10);
            decimal(random.pick(&[any, below_ten, below_ten, 0, 1, most]))
        }
        Kind::Level => decimal(0),
        Kind::Shift => decimal(random.below(8)),
        Kind::Bit => decimal(random.below(2)),
        Kind::Flags => random.bytes_of(b"01", 4),
        Kind::Word(words) => random.pick(words).into(),
        Kind::Name => name(random, b".-"),
        Kind::NameWithoutDot => name(random, b"-"),
        Kind::Path => path(random),
        Kind::Optional(_) if random.below(5) < 2 => b"-".to_vec(),
        Kind::Optional(kind) => good(random, *kind),
    }
}

fn decimal(number: usize) -> Vec<u8> {
    number.to_string().into_bytes()
}

/// A name with some of these bytes in it.
fn name(random: &mut Random, some: &[u8]) -> Vec<u8> {
    let length = match random.below(20) {
        0 => 40,
        1 => random.from_to(1, 40),
        _ => random.from_to(1, 8),
    };
    let mut name = match random.below(8) {
        0 => printable(random, length),
        1 => random.bytes_of(&[LETTERS, some].concat(), length),
        2 => random.bytes_of(some, length),
        _ => random.bytes_of(LETTERS, length),
    };
    if !some.contains(&b'.') {
        name.iter_mut().filter(|byte| **byte == b'.').for_each(|byte| *byte = b'/');
    }
    if name == b"-" { b"--".to_vec() } else { name }
}

/// A name of exactly that length.
pub fn name_of_length(random: &mut Random, length: usize) -> Vec<u8> {
    random.bytes_of(LETTERS, length)
}

fn printable(random: &mut Random, length: usize) -> Vec<u8> {
    (0..length).map(|_| random.from_to(0x20, 0x7E) as u8).collect()
}

fn path(random: &mut Random) -> Vec<u8> {
    match random.below(30) {
        0 => exact_path(random, &[40, 40, 38]),
        1 => exact_path(random, &[40, 1, 40, 36]),
        2 => exact_path(random, &[[1; 59].as_slice(), &[2]].concat()),
        _ => {
            let names: Vec<_> =
                (0..random.pick(&[1, 1, 1, 2, 2, 3, 5])).map(|_| name(random, b"-")).collect();
            let mut path = names.join(&b'.');
            path.truncate(120);
            if path.ends_with(b".") || path.ends_with(b".-") { b"a.b".to_vec() } else { path }
        }
    }
}

/// A path of names of these lengths.
fn exact_path(random: &mut Random, lengths: &[usize]) -> Vec<u8> {
    let names: Vec<_> = lengths.iter().map(|&length| name_of_length(random, length)).collect();
    names.join(&b'.')
}

/// A field that is no good one, or on the edge of it.
pub fn bad(random: &mut Random, kind: Kind) -> Vec<u8> {
    if random.one_in(6) {
        return random.pick(&["", "-", "--", " ", "0", "\r", "\0", ".", "\u{7f}"]).into();
    }
    match kind {
        Kind::Number(most) => bad_number(random, most),
        Kind::Level | Kind::Shift => bad_number(random, 7),
        Kind::Bit => bad_number(random, 1),
        Kind::Flags => {
            let length = random.from_to(3, 5);
            random.bytes_of(b"00112/ -", length)
        }
        Kind::Word(words) => bad_word(random, words),
        Kind::Name | Kind::NameWithoutDot => bad_name(random),
        Kind::Path => bad_path(random),
        Kind::Optional(kind) => bad(random, *kind),
    }
}

fn bad_number(random: &mut Random, most: usize) -> Vec<u8> {
    let near = (most + random.from_to(1, 3)).to_string();
    let low = random.below(most + 1) as u128;
    match random.below(10) {
        0..=1 => near,
        2 => random.pick(&["7", "8", "255", "256", "257", "65535", "65536", "65537"]).into(),
        3 => format!("{}{low}", random.pick(&["0", "00", "+", "-", " "])),
        4 => format!("{low}{}", random.pick(&[" ", ".0", "a", "\r", "\0", "/", ":"])),
        // Good in too few bits.
        5 => ((1u128 << random.pick(&[8, 16, 32, 64, 65])) + low).to_string(),
        6..=7 => {
            let length = random.pick(&[2, 5, 6, 19, 20, 21, 30, 40, 200]);
            return random.bytes_of(b"0123456789", length);
        }
        8 => "0".repeat(random.from_to(2, 30)),
        _ => random.pick(&["a", "0x1", "1e3", "1.0", "²"]).into(),
    }
    .into_bytes()
}

fn bad_word(random: &mut Random, words: &[&str]) -> Vec<u8> {
    const WORDS: &[&str] = &["HEX", "BYTE", "BITMASK", "NUMBER", "BIT24", "BIT_23", "NUMBER_"];
    let word = random.pick(words);
    match random.below(6) {
        0 => word.to_lowercase().into_bytes(),
        1 => word[1..].into(),
        2 => word[..word.len() - 1].into(),
        3 => format!("{word}{}", random.pick(&[" ", "\r", "_", "X", "\0"])).into_bytes(),
        4 => random.pick(WORDS).into(),
        _ => {
            let mut word = word.as_bytes().to_vec();
            let place = random.below(word.len());
            word[place] ^= 1 << random.below(8);
            word
        }
    }
}

fn bad_name(random: &mut Random) -> Vec<u8> {
    let length = random.pick(&[1, 2, 8, 39, 40, 41, 42, 100]);
    let mut name = name_of_length(random, length);
    if random.one_in(2) {
        let place = random.below(length);
        name[place] = match random.below(3) {
            0 => random.pick(&[0x1F, 0x20, 0x7E, 0x7F, b'.', b'-', 0x80, 0xA0]),
            _ => random.byte(),
        };
    }
    name
}

fn bad_path(random: &mut Random) -> Vec<u8> {
    let length = random.from_to(1, 7);
    match random.below(8) {
        0..=3 => random.bytes_of(b"aa..-", length),
        4 => bad_name(random),
        5 => exact_path(random, &[40, 40, 39]),
        6 => {
            let mut lengths = [1, 8, 3, 40];
            lengths[random.below(4)] = random.pick(&[0, 40, 41]);
            exact_path(random, &lengths)
        }
        _ => {
            let mut path = path(random);
            path.insert(random.below(path.len() + 1), random.pick(b".-\x1f\x7f\x00a"));
            path
        }
    }
}
