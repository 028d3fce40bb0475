//! Definition texts. Most bytes are no text at all, so a text is drawn good, of every feature and
//! of sizes up to every limit, and then most often damaged in one or two places.

mod command;
mod damage;
mod field;
mod frame;

use crate::limits;
use crate::random::Random;
use crate::generate::values::room;
use crate::request::Request;
use field::{Form, name_of_length};

pub fn frametext(random: &mut Random) -> Vec<u8> {
    Request::Frametext { text: text(random, &frame::FRAME) }.line()
}

pub fn commandtext(random: &mut Random) -> Vec<u8> {
    Request::Commandtext { text: text(random, &command::COMMAND) }.line()
}

/// A command text, and a buffer that mostly has room for it.
pub fn tidy(random: &mut Random) -> Vec<u8> {
    let text = text(random, &command::COMMAND);
    let cap = room(random, text.len());
    Request::Tidy { cap, text }.line()
}

/// A frame text without damage.
pub fn good_frame_text(random: &mut Random) -> Vec<u8> {
    bytes_of(&lines(random, &frame::FRAME, 0))
}

/// A command text without damage.
pub fn good_command_text(random: &mut Random) -> Vec<u8> {
    bytes_of(&lines(random, &command::COMMAND, 0))
}

/// A good frame text, damaged in some place, or some text instead.
pub fn damaged_frame_text(random: &mut Random, good: &[u8]) -> Vec<u8> {
    damaged_or_other(random, &frame::FRAME, good)
}

/// A good command text, damaged in some place, or some text instead.
pub fn damaged_command_text(random: &mut Random, good: &[u8]) -> Vec<u8> {
    damaged_or_other(random, &command::COMMAND, good)
}

fn damaged_or_other(random: &mut Random, language: &Language, good: &[u8]) -> Vec<u8> {
    match random.below(4) {
        0 => text(random, language),
        _ => damaged(random, language, lines_of(good), 1),
    }
}

/// One of the two languages, and how its texts are drawn.
struct Language {
    forms: &'static [Form],
    /// Adds lines that may follow any others; none where a limit would be passed.
    block: fn(&mut Random, &mut Vec<Line>, Size),
    /// Adds lines until some limit is reached, or passed by so many.
    full: fn(&mut Random, &mut Vec<Line>, usize),
    /// A line that may follow any others, and the letter of lines `letter, 0, name` under it.
    owner: fn(&mut Random) -> Line,
    owned: &'static str,
}

/// How many lines an owner has: few, or about as many as it may.
#[derive(Clone, Copy)]
enum Size {
    Small,
    Large,
}

/// A line: its fields, the first its letter.
type Line = Vec<Vec<u8>>;

fn text(random: &mut Random, language: &Language) -> Vec<u8> {
    let mistakes = random.pick(&[0, 0, 0, 0, 1, 1, 1, 1, 2, 2]);
    let excess = random.below(2);
    let lines = lines(random, language, excess);
    if mistakes > 0 { damaged(random, language, lines, mistakes) } else { bytes_of(&lines) }
}

/// The text of these lines with so many mistakes, and now and then one more.
fn damaged(
    random: &mut Random,
    language: &Language,
    mut lines: Vec<Line>,
    mistakes: usize,
) -> Vec<u8> {
    for _ in 0..mistakes {
        damage::lines(random, language.forms, &mut lines);
    }
    let mut text = bytes_of(&lines);
    if random.one_in(4) {
        damage::bytes(random, &mut text);
    }
    text
}

/// Lines of a good text, but for limits that are passed by `excess`.
fn lines(random: &mut Random, language: &Language, excess: usize) -> Vec<Line> {
    let mut lines = Vec::new();
    match random.below(4_000) {
        0..=1 => longest(random, language, excess, &mut lines),
        2..=20 => {
            let size = random.from_to(1_000, 8_000);
            fill(random, language, size, &mut lines);
        }
        21..=240 => {
            blocks(random, language, &mut lines);
            (language.full)(random, &mut lines, excess);
            blocks(random, language, &mut lines);
        }
        _ => blocks(random, language, &mut lines),
    }
    lines
}

fn blocks(random: &mut Random, language: &Language, lines: &mut Vec<Line>) {
    for _ in 0..random.pick(&[0, 1, 1, 2, 2, 3, 5]) {
        (language.block)(random, lines, Size::Small);
    }
}

/// Blocks until the text has that size, and no line past it.
fn fill(random: &mut Random, language: &Language, size: usize, lines: &mut Vec<Line>) {
    while size_of(lines) < size {
        (language.block)(random, lines, Size::Large);
    }
    while size_of(lines) > size {
        lines.pop();
    }
}

/// A text of exactly the longest size or a byte less; with an excess, past it.
fn longest(random: &mut Random, language: &Language, excess: usize, lines: &mut Vec<Line>) {
    const ROOM: usize = 200;
    let size = limits::TEXT + 2 * excess - random.below(2);
    fill(random, language, size - ROOM, lines);
    lines.push((language.owner)(random));
    let left = size - size_of(lines);
    let shortest = language.owned.len() + "\t0\t\n".len();
    let count = left.div_ceil(shortest + 40);
    for place in 0..count {
        let length = (left + place) / count - shortest;
        let name = name_of_length(random, length);
        lines.push(vec![language.owned.into(), b"0".to_vec(), name]);
    }
    assert_eq!(size, size_of(lines));
    if excess > 0 && random.one_in(4) {
        lines.extend_from_within(..);
    }
}

/// Adds a line to a text.
pub fn push_line(fields: &[&str], text: &mut Vec<u8>) {
    for (place, field) in fields.iter().enumerate() {
        if place > 0 {
            text.push(b'\t');
        }
        text.extend(field.bytes());
    }
    text.push(b'\n');
}

fn lines_of(text: &[u8]) -> Vec<Line> {
    let fields_of = |line: &[u8]| line.split(|&byte| byte == b'\t').map(<[u8]>::to_vec).collect();
    let mut lines: Vec<Line> = text.split(|&byte| byte == b'\n').map(fields_of).collect();
    lines.pop();
    lines
}

fn bytes_of(lines: &[Line]) -> Vec<u8> {
    let mut text = Vec::with_capacity(size_of(lines));
    for line in lines {
        text.extend(line.join(&b'\t'));
        text.push(b'\n');
    }
    text
}

fn size_of(lines: &[Line]) -> usize {
    lines.iter().flatten().map(|field| field.len() + 1).sum()
}

/// How many lines of this form there are.
fn count(lines: &[Line], form: &Form) -> usize {
    lines.iter().filter(|line| line[0] == form.letter.as_bytes()).count()
}
