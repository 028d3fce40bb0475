//! Frame texts.

use super::field::{
    BYTE, Form, Kind, OPTIONAL_BYTE, OPTIONAL_NAME, OPTIONAL_PATH, WORD, good_line,
};
use super::{Language, Line, Size, count};
use crate::limits;
use crate::random::Random;

pub const FRAME: Language =
    Language { forms: &[F, B, H, P, V, D, E], block, full, owner: define_set, owned: "E" };

const TYPES: &[&str] = &["HEX", "NUMBER", "NUMBER_SIGNED", "NODE_NUMBER", "BOOLEAN", "BITMASK"];

const F: Form = Form { letter: "F", fields: &[BYTE, BYTE] };
const B: Form = Form { letter: "B", fields: &[BYTE] };
const H: Form = Form { letter: "H", fields: &[BYTE, OPTIONAL_BYTE, Kind::Flags, Kind::Name] };
const P: Form = Form {
    letter: "P",
    fields: &[
        Kind::Level,
        WORD,
        BYTE,
        Kind::Word(TYPES),
        Kind::NameWithoutDot,
        OPTIONAL_NAME,
        OPTIONAL_PATH,
        OPTIONAL_PATH,
    ],
};
const V: Form = Form { letter: "V", fields: &[Kind::Path, WORD] };
const D: Form = Form { letter: "D", fields: &[Kind::Name] };
const E: Form = Form { letter: "E", fields: &[WORD, Kind::Name] };

/// An F, B, H or D line with lines of its own. One D is left for the end of a longest text.
fn block(random: &mut Random, lines: &mut Vec<Line>, size: Size) {
    let (form, most) = random.pick(&[
        (&F, limits::RADIO_FREQUENCIES),
        (&B, limits::BASE_HEADERS),
        (&B, limits::BASE_HEADERS),
        (&H, limits::HEADERS),
        (&H, limits::HEADERS),
        (&H, limits::HEADERS),
        (&D, limits::DEFINE_SETS - 1),
    ]);
    if count(lines, form) >= most {
        return;
    }
    lines.push(good_line(random, form));
    let (most_params, some) = match size {
        Size::Small => (random.pick(&[0, 1, 2, 3, 5, 8]), random.pick(&[0, 1, 1, 2, 3])),
        Size::Large => (random.from_to(limits::PARAMS - 8, limits::PARAMS), random.below(16)),
    };
    match form.letter {
        "B" => params(random, lines, most_params, 0),
        "H" => params(random, lines, most_params, some),
        "D" => defines(random, lines, 2 * some),
        _ => {}
    }
}

/// P lines under a B or H, and V lines among them.
fn params(random: &mut Random, lines: &mut Vec<Line>, params: usize, validations: usize) {
    let is_deep = random.one_in(2);
    let (mut params, mut validations, mut deepest) = (params, validations, 0);
    while params + validations > 0 {
        if random.below(params + validations) < validations {
            lines.push(good_line(random, &V));
            validations -= 1;
        } else {
            let level = match is_deep {
                true => deepest - random.below(deepest + 1) / 2,
                false => random.below(deepest + 1),
            };
            lines.push(param(random, level));
            deepest = (level + 1).min(limits::LEVEL as usize);
            params -= 1;
        }
    }
}

fn param(random: &mut Random, level: usize) -> Line {
    let mut line = good_line(random, &P);
    line[1] = level.to_string().into_bytes();
    if level > 0 {
        line[8] = b"-".to_vec();
    }
    line
}

fn defines(random: &mut Random, lines: &mut Vec<Line>, defines: usize) {
    lines.extend((0..defines).map(|_| good_line(random, &E)));
}

/// One of the limits.
fn full(random: &mut Random, lines: &mut Vec<Line>, excess: usize) {
    match random.below(8) {
        0 => repeat(random, lines, &F, limits::RADIO_FREQUENCIES + excess),
        1 => repeat(random, lines, &B, limits::BASE_HEADERS + excess),
        2 => repeat(random, lines, &H, limits::HEADERS + excess),
        3 => repeat(random, lines, &D, limits::DEFINE_SETS + excess),
        4 => {
            lines.push(good_line(random, &B));
            params(random, lines, limits::PARAMS + excess, 0);
        }
        5 => {
            lines.push(good_line(random, &H));
            params(random, lines, limits::PARAMS + excess, 3);
        }
        6 => {
            lines.push(good_line(random, &H));
            params(random, lines, 5, limits::VALIDATIONS + excess);
        }
        _ => {
            lines.push(good_line(random, &D));
            defines(random, lines, limits::DEFINES + excess);
        }
    }
}

/// Lines of this form until there are so many.
fn repeat(random: &mut Random, lines: &mut Vec<Line>, form: &Form, most: usize) {
    for _ in count(lines, form)..most {
        lines.push(good_line(random, form));
    }
}

fn define_set(random: &mut Random) -> Line {
    good_line(random, &D)
}
