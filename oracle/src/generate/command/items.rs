//! Q and G, and the lines under a Q, around the body of a payload.

use zniff_core::decoder::command_class::schema::ParamType;

use crate::definition::command::{CmdItem, ItemKind, Param, ParamItem, TYPES, VariantGroup};
use crate::generate::small_bytes;
use crate::limits;
use crate::random::Random;
use crate::reading::command::{Found, Offsets, Walk, found};

/// Types with a length of their own.
const FIXED: &[ParamType] = &[
    ParamType::Byte,
    ParamType::StructByte,
    ParamType::Const,
    ParamType::Marker,
    ParamType::Word,
    ParamType::Bit24,
    ParamType::Dword,
];

/// The items of a command.
pub fn items(random: &mut Random, body: &[u8], offsets: Offsets) -> Vec<CmdItem> {
    let (count, is_full) = match random.below(200) {
        0 => (limits::CMD_ITEMS, true),
        1..=4 => (random.from_to(12, 60), false),
        5..=8 => (0, false),
        _ => (random.pick(&[1, 2, 3, 4, 6, 8, 10, 14]), false),
    };
    let mut walk = Walk::new(body, offsets);
    let mut items = Vec::new();
    let mut left = count;
    while left > 0 {
        let is_group = match walk.entries.is_empty() {
            true => random.one_in(12),
            false => random.one_in(if is_full { 40 } else { 4 }),
        };
        let item = match is_group {
            true => CmdItem::VariantGroup(group(random, &walk, left - 1)),
            false => CmdItem::Param(param(random, &walk)),
        };
        left -= match &item {
            CmdItem::Param(_) => 1,
            CmdItem::VariantGroup(group) => 1 + group.params.len(),
        };
        walk.take_item(&item);
        items.push(item);
    }
    items
}

/// A payload and items: more than 250 repetitions, and behind them entries that offsets of 254 and
/// 255 meet or miss.
pub fn about_offset_255(random: &mut Random, offsets: Offsets) -> (Vec<u8>, Vec<CmdItem>) {
    let length = random.from_to(280, 400);
    let mut payload = small_bytes(random, length);
    payload[2] = random.from_to(248, 255) as u8;
    let mut walk = Walk::new(&payload[2..], offsets);
    let count = CmdItem::Param(plain(ParamType::Byte, Vec::new()));
    let group = CmdItem::VariantGroup(VariantGroup {
        line: 0,
        name: name(random),
        offset: 0,
        mask: 255,
        shift: 0,
        params: vec![plain(ParamType::Byte, Vec::new())],
    });
    let mut items = vec![count, group];
    items.iter().for_each(|item| walk.take_item(item));
    for _ in 0..12 {
        let item = CmdItem::Param(param(random, &walk));
        walk.take_item(&item);
        items.push(item);
    }
    (payload, items)
}

/// A payload and items whose rows are about as many as the largest table has, or more.
pub fn many_rows(random: &mut Random) -> (Vec<u8>, Vec<CmdItem>) {
    let length = random.from_to(400, limits::COMMAND);
    let payload = small_bytes(random, length);
    let count = random.pick(&[6, 20, limits::PARAM_ITEMS]);
    let kinds = (0..count).map(|_| bits(random)).collect();
    let group = VariantGroup {
        line: 0,
        name: name(random),
        offset: 255,
        mask: 255,
        shift: 0,
        params: vec![plain(ParamType::StructByte, kinds)],
    };
    (payload, vec![CmdItem::VariantGroup(group)])
}

/// A Q without condition.
fn plain(param_type: ParamType, kinds: Vec<ItemKind>) -> Param {
    let items = kinds.into_iter().map(|kind| ParamItem { line: 0, kind }).collect();
    let (optional_offset, optional_mask) = (None, None);
    Param { line: 0, param_type, name: "q".into(), optional_offset, optional_mask, items }
}

/// A G with at most so many members, which are drawn around its first repetition.
fn group(random: &mut Random, walk: &Walk, most: usize) -> VariantGroup {
    let (offset, mask, shift) = match random.below(12) {
        0 => (255, random.pick(&[1, 255]), 0),
        1 => (random.pick(&[0, 1, 255]), 0, random.below(8) as u8),
        2 => (254, 255, 0),
        _ => size(random, &walk.entries, 6),
    };
    let mut repetition = Walk::new(&walk.body[walk.place..], Offsets::Answered);
    let mut params = Vec::new();
    for _ in 0..random.pick(&[0, 1, 1, 2, 2, 3, 4]).min(most) {
        let q = param(random, &repetition);
        repetition.take_item(&CmdItem::Param(q.clone()));
        params.push(q);
    }
    VariantGroup { line: 0, name: name(random), offset, mask, shift, params }
}

fn param(random: &mut Random, walk: &Walk) -> Param {
    let param_type = match walk.entries.is_empty() && random.below(8) > 0 {
        true => random.pick(FIXED),
        false => random.pick(TYPES).1,
    };
    let (optional_offset, optional_mask) = condition(random, &walk.entries);
    let next = walk.body.get(walk.place).copied().unwrap_or(0);
    let mut kinds = Vec::new();
    match param_type {
        ParamType::Variant | ParamType::Bitmask | ParamType::MultiArray => {
            lengths(random, walk, &mut kinds);
        }
        ParamType::Array => {
            for _ in 0..random.pick(&[0, 1, 1, 1, 1, 1, 2, 2]) {
                kinds.push(array(random));
            }
        }
        ParamType::Const => consts(random, next, &mut kinds),
        _ => {}
    }
    for _ in 0..random.pick(&[0, 0, 0, 1, 2, 4]) {
        kinds.push(bits(random));
    }
    if random.one_in(6) {
        let place = random.below(kinds.len() + 1);
        kinds.insert(place, any(random, walk));
    }
    if random.one_in(100) {
        kinds.resize_with(limits::PARAM_ITEMS, || any(random, walk));
    }
    kinds.truncate(limits::PARAM_ITEMS);
    let name = name(random);
    Param { name, optional_offset, optional_mask, ..plain(param_type, kinds) }
}

/// Mostly none; else one that holds or not, or half of one.
fn condition(random: &mut Random, entries: &[Found]) -> (Option<u8>, Option<u8>) {
    let any = random.byte();
    match random.below(20) {
        0 => (Some(any), None),
        1 => (None, Some(any)),
        2 => (Some(random.pick(&[0, 1, 254, 255])), Some(random.pick(&[0, 1, 255]))),
        3..=6 => {
            let offset = offset(random, entries);
            let low = low_byte_at(entries, offset);
            let single = 1 << random.below(8);
            (Some(offset), Some(random.pick(&[low, low, !low, single, 255])))
        }
        _ => (None, None),
    }
}

/// Mostly of an entry that has a value; else of one that has none, or past the list.
fn offset(random: &mut Random, entries: &[Found]) -> u8 {
    let has_value = random.below(8) > 0;
    offset_of(random, entries, has_value)
}

/// Of an entry that has a value or has none, mostly; past the list where there is none such.
fn offset_of(random: &mut Random, entries: &[Found], has_value: bool) -> u8 {
    let of_sort = |place: &usize| entries[*place].flatten().is_some() == has_value;
    let places: Vec<usize> = (0..entries.len().min(256)).filter(of_sort).collect();
    match places[..] {
        [] => (entries.len() + random.below(2)).min(255) as u8,
        _ if random.one_in(12) => random.pick(&[entries.len().min(255) as u8, 253, 254, 255]),
        _ => random.pick(&places) as u8,
    }
}

fn low_byte_at(entries: &[Found], offset: u8) -> u8 {
    found(entries, offset).flatten().unwrap_or(0) as u8
}

/// Offset, mask and shift, mostly such that the size is from 1 to about so much.
fn size(random: &mut Random, entries: &[Found], about: usize) -> (u8, u8, u8) {
    let mut drawn = (0, 255, 0);
    for _ in 0..6 {
        let offset = offset(random, entries);
        let any = random.byte();
        let mask = random.pick(&[255, 255, 7, 15, 0xF0, any]);
        let shift = random.pick(&[0, 0, mask.trailing_zeros().min(7) as u8, any % 8]);
        drawn = (offset, mask, shift);
        let size = (low_byte_at(entries, offset) & mask) >> shift;
        if (1..=about).contains(&usize::from(size)) {
            break;
        }
    }
    drawn
}

/// R and M lines in every combination, some of them missing.
fn lengths(random: &mut Random, walk: &Walk, kinds: &mut Vec<ItemKind>) {
    for letter in random
        .pick(&["", "R", "R", "R", "R", "R", "R", "R", "M", "MR", "RM", "RR", "MM", "MRM"])
        .chars()
    {
        kinds.push(match letter {
            'R' => variant(random, walk),
            _ => bit_mask(random),
        });
    }
}

fn variant(random: &mut Random, walk: &Walk) -> ItemKind {
    let any = random.byte();
    let (offset, mask, shift) = match random.below(16) {
        0 => (255, random.pick(&[1, 255]), 0),
        1 => (random.pick(&[0, 1, 255]), 0, random.below(8) as u8),
        2 => (random.pick(&[253, 254, any]), any, 0),
        3 => (offset_of(random, &walk.entries, false), 255, 0),
        _ => size(random, &walk.entries, walk.remaining().min(12)),
    };
    ItemKind::Variant { offset, mask, shift, is_ascii: random.one_in(3) }
}

fn bit_mask(random: &mut Random) -> ItemKind {
    let length = random.pick(&[None, None, Some(0), Some(1), Some(2), Some(4), Some(9), Some(255)]);
    ItemKind::BitMask { length }
}

fn array(random: &mut Random) -> ItemKind {
    let length = random.pick(&[0, 1, 1, 2, 3, 4, 7, 8, 9, 255]);
    ItemKind::ArrayAttrib { length, is_ascii: random.one_in(3) }
}

/// K lines, often with the byte that comes next, and now and then an A or R about them.
fn consts(random: &mut Random, next: u8, kinds: &mut Vec<ItemKind>) {
    for _ in 0..random.pick(&[0, 1, 2, 3, 5]) {
        kinds.push(constant(random, next));
    }
    for _ in 0..random.pick(&[0, 0, 1, 1, 2]) {
        let place = random.below(kinds.len() + 1);
        let kind = match random.below(2) {
            0 => array(random),
            _ => ItemKind::Variant { offset: 0, mask: 255, shift: 0, is_ascii: random.one_in(3) },
        };
        kinds.insert(place, kind);
    }
}

fn constant(random: &mut Random, next: u8) -> ItemKind {
    let any = random.byte();
    let value = random.pick(&[next, next, next.wrapping_add(1), any]);
    ItemKind::Const { value, name: name(random) }
}

/// A T, S or U line.
fn bits(random: &mut Random) -> ItemKind {
    let any = random.byte();
    let single = 1 << random.below(8);
    let mask = random.pick(&[any, single, 0x0F, 0xE0, 0, 255]);
    let shift = random.pick(&[0, mask.trailing_zeros().min(7) as u8, any % 8]);
    let name = name(random);
    match random.below(3) {
        0 => ItemKind::BitFlag { mask, name },
        1 => ItemKind::BitField { mask, shift, name },
        _ => ItemKind::FieldEnum { mask, shift, name },
    }
}

/// A line of any form that may stand under a Q.
fn any(random: &mut Random, walk: &Walk) -> ItemKind {
    let next = walk.body.get(walk.place).copied().unwrap_or(0);
    match random.below(6) {
        0 => variant(random, walk),
        1 => array(random),
        2 => bit_mask(random),
        3 => constant(random, next),
        _ => bits(random),
    }
}

fn name(random: &mut Random) -> String {
    const NAMES: &[&str] = &["a", "b", "Level", "Node ID", "a.b", "--", "On", "x"];
    match random.below(40) {
        0 => "N".repeat(40),
        _ => random.pick(NAMES).into(),
    }
}
