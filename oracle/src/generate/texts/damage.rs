//! Damage to texts. What is damaged may be as good as before: the judge decides.

use super::Line;
use super::field::{Form, Kind, bad, good, good_line};
use crate::random::Random;

/// Bytes that decide something, somewhere.
const BYTES: &[u8] = b"\0\t\x0b\r\x1a\x1f !-./09:?FPQ~\x7f\x80\xff";

/// One damage to some line.
pub fn lines(random: &mut Random, forms: &[Form], lines: &mut Vec<Line>) {
    if lines.is_empty() {
        lines.push(vec![Vec::new()]);
    }
    let place = match random.below(4) {
        0 => lines.len() - 1,
        _ => random.below(lines.len()),
    };
    let other = random.below(lines.len());
    match random.below(20) {
        0..=2 => drop(lines.remove(place)),
        3 => lines.insert(place, lines[place].clone()),
        4 => lines.swap(place, other),
        5 => lines.insert(place, vec![Vec::new()]),
        6..=9 => {
            let form = &forms[random.below(forms.len())];
            lines.insert(place, good_line(random, form));
        }
        10 => lines[place][0] = letter(random, forms),
        11..=16 => field(random, forms, &mut lines[place]),
        _ => fields(random, &mut lines[place]),
    }
}

/// Another letter: of this text, of none, or more than a letter.
fn letter(random: &mut Random, forms: &[Form]) -> Vec<u8> {
    let letter = forms[random.below(forms.len())].letter;
    match random.below(6) {
        0..=1 => letter.into(),
        2 => letter.to_lowercase().into(),
        3 => vec![random.from_to(0x41, 0x5A) as u8],
        4 => random.pick(&["", "-", "FF", "F ", " F", "Q0", "\0", "\u{feff}F"]).into(),
        _ => random.bytes(1),
    }
}

/// One field is drawn anew, most often bad.
fn field(random: &mut Random, forms: &[Form], line: &mut Line) {
    let Some(form) = forms.iter().find(|form| form.letter.as_bytes() == line[0]) else {
        return;
    };
    let place = random.below(form.fields.len());
    let kind = form.fields[place];
    if let Some(field) = line.get_mut(place + 1) {
        *field = match (kind, random.below(4)) {
            (Kind::Level, 0..=2) => random.below(10).to_string().into(),
            (Kind::Bit, 0..=1) => random.below(2).to_string().into(),
            (Kind::Shift | Kind::Optional(Kind::Shift), 0..=1) => {
                random.below(256).to_string().into()
            }
            (Kind::Optional(&kind), 0..=1) => good(random, kind),
            _ => bad(random, kind),
        };
    }
}

/// The fields as bytes: one left out, doubled, empty, moved, glued, with a stray byte.
fn fields(random: &mut Random, line: &mut Line) {
    let place = random.below(line.len());
    let other = random.below(line.len());
    let at = random.below(line[place].len() + 1);
    match random.below(8) {
        0 => drop(line.remove(place)),
        1 => line.insert(place, line[place].clone()),
        2 => line.insert(place, Vec::new()),
        3 => line.push(random.pick(&["", "0", "-", "a"]).into()),
        4 => line.swap(place, other),
        5 => line[place].insert(at, random.pick(BYTES)),
        6 => line[place].push(random.pick(b"\r \t\0")),
        _ if at < line[place].len() => drop(line[place].remove(at)),
        _ => line[place].push(random.byte()),
    }
    if line.is_empty() {
        line.push(Vec::new());
    }
}

/// One damage to the text as bytes.
pub fn bytes(random: &mut Random, text: &mut Vec<u8>) {
    let at = random.below(text.len() + 1);
    match random.below(8) {
        0..=1 => drop(text.pop()),
        2 => text.push(random.pick(BYTES)),
        3 => text.truncate(at),
        4 => text.insert(at, random.pick(BYTES)),
        5 => text.insert(at, random.byte()),
        6 if at < text.len() => text[at] ^= 1 << random.below(8),
        _ if at < text.len() => drop(text.remove(at)),
        _ => text.insert(0, random.pick(BYTES)),
    }
}
