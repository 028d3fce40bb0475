//! Command texts.

use super::field::{BYTE, Form, Kind, OPTIONAL_BYTE, OPTIONAL_SHIFT, good_line};
use super::{Language, Line, Size, count};
use crate::limits;
use crate::random::Random;

pub const COMMAND: Language =
    Language { forms: &[Q, G, R, A, T, S, U, K, M], block, full, owner: outer_param, owned: "K" };

const TYPES: &[&str] = &[
    "BYTE",
    "WORD",
    "DWORD",
    "BIT_24",
    "STRUCT_BYTE",
    "VARIANT",
    "CONST",
    "BITMASK",
    "ARRAY",
    "MARKER",
    "MULTI_ARRAY",
];

const Q: Form = Form {
    letter: "Q",
    fields: &[Kind::Bit, Kind::Word(TYPES), Kind::Name, OPTIONAL_BYTE, OPTIONAL_BYTE],
};
const G: Form = Form { letter: "G", fields: &[Kind::Name, BYTE, BYTE, Kind::Shift] };
const R: Form = Form { letter: "R", fields: &[BYTE, BYTE, OPTIONAL_SHIFT, Kind::Bit] };
const A: Form = Form { letter: "A", fields: &[BYTE, Kind::Bit] };
const T: Form = Form { letter: "T", fields: &[BYTE, Kind::Name] };
const S: Form = Form { letter: "S", fields: &[BYTE, OPTIONAL_SHIFT, Kind::Name] };
const U: Form = Form { letter: "U", fields: &[BYTE, OPTIONAL_SHIFT, Kind::Name] };
const K: Form = Form { letter: "K", fields: &[BYTE, Kind::Name] };
const M: Form = Form { letter: "M", fields: &[OPTIONAL_BYTE] };
const ITEMS: &[&Form] = &[&R, &A, &T, &S, &U, &K, &M];

/// A Q with lines under it, or a G with members. One Q is left for the end of a longest text.
fn block(random: &mut Random, lines: &mut Vec<Line>, size: Size) {
    if random.below(3) > 0 {
        param(random, lines, 0, size);
    } else if has_room(lines) {
        lines.push(good_line(random, &G));
        for _ in 0..random.pick(&[0, 1, 2, 3, 5]) {
            param(random, lines, 1, size);
        }
    }
}

fn has_room(lines: &[Line]) -> bool {
    count(lines, &Q) + count(lines, &G) < limits::CMD_ITEMS - 1
}

/// A Q of this level with lines under it.
fn param(random: &mut Random, lines: &mut Vec<Line>, level: usize, size: Size) {
    if has_room(lines) {
        lines.push(param_line(random, level));
        let most = match size {
            Size::Small => random.pick(&[0, 0, 1, 1, 2, 3, 5]),
            Size::Large => random.from_to(limits::PARAM_ITEMS - 2, limits::PARAM_ITEMS),
        };
        items(random, lines, most);
    }
}

fn param_line(random: &mut Random, level: usize) -> Line {
    let mut line = good_line(random, &Q);
    line[1] = level.to_string().into_bytes();
    line
}

fn items(random: &mut Random, lines: &mut Vec<Line>, items: usize) {
    for _ in 0..items {
        let form = random.pick(ITEMS);
        lines.push(good_line(random, form));
    }
}

/// One of the limits.
fn full(random: &mut Random, lines: &mut Vec<Line>, excess: usize) {
    if random.one_in(2) {
        let in_group = random.one_in(3);
        if in_group {
            lines.push(good_line(random, &G));
        }
        lines.push(param_line(random, usize::from(in_group)));
        return items(random, lines, limits::PARAM_ITEMS + excess);
    }
    let mut in_group = false;
    for _ in count(lines, &Q) + count(lines, &G)..limits::CMD_ITEMS + excess {
        if random.one_in(20) {
            lines.push(good_line(random, &G));
            in_group = true;
        } else {
            in_group &= random.below(8) > 0;
            lines.push(param_line(random, usize::from(in_group)));
        }
    }
}

fn outer_param(random: &mut Random) -> Line {
    param_line(random, 0)
}
