//! What drawn `command` requests reach: every feature of a command text, in answers.

mod seen;

use oracle::definition::command::{CmdItem, CommandDefinition, ItemKind, Param, VariantGroup};
use oracle::definition::read;
use oracle::generate::Generator;
use oracle::reading::command::{
    Found, Offsets, Walk, decode_params, first_a, first_m, first_r, found, length_if_it_exists,
    repetitions,
};
use oracle::request::Request;
use seen::Seen;
use zniff_core::decoder::command_class::schema::ParamType;

#[test]
fn command_requests_reach_every_feature() {
    let generator = Generator::new(1, "command").unwrap();
    let mut seen = Seen::default();
    for index in 0..40_000 {
        let request = Request::read(&generator.request(index).1);
        let Some(Request::Command { cap, text, payload }) = request else {
            panic!("another request");
        };
        let Ok(definition) = read::<CommandDefinition>(&text) else {
            continue;
        };
        let Ok(command) = decode_params(&definition, &payload, Offsets::Answered) else {
            continue;
        };
        let rows = command.rows.len() as u64;
        seen.note("table: exact", cap == rows);
        seen.note("table: one row short", cap + 1 == rows);
        seen.note("table: none", cap == 0 && rows > 0);
        seen.note("table: the largest is too small", rows > 16_384);
        if rows <= cap {
            note_command(&mut seen, &definition, &payload);
            seen.note("remainder: none", command.remainder == payload.len() && rows > 0);
            seen.note("remainder: some", command.remainder < payload.len());
            seen.note("payload: 2 bytes", payload.len() == 2);
            seen.note("payload: 2048 bytes", payload.len() == 2_048 && rows > 0);
        }
    }
    seen.hold(5);
}

fn note_command(seen: &mut Seen, definition: &CommandDefinition, payload: &[u8]) {
    let mut walk = Walk::new(&payload[2..], Offsets::Answered);
    let mut lines = 0;
    for item in &definition.items {
        match item {
            CmdItem::Param(q) => {
                note_param(seen, q, &walk.entries, &walk.body[walk.place..], "outer");
                walk.take_item(item);
                lines += 1;
            }
            CmdItem::VariantGroup(group) => {
                note_members(seen, group, &walk.body[walk.place..]);
                note_group(seen, group, &mut walk);
                lines += 1 + group.params.len();
            }
        }
    }
    seen.note("256 Q and G", lines == 256);
}

/// The members of a group, in its first repetition.
fn note_members(seen: &mut Seen, group: &VariantGroup, body: &[u8]) {
    let mut repetition = Walk::new(body, Offsets::Answered);
    for (place, q) in group.params.iter().enumerate() {
        let (entries, body) = (&repetition.entries, &repetition.body[repetition.place..]);
        note_param(seen, q, entries, body, "member");
        if length_if_it_exists(q, entries, body.len()).is_none() {
            seen.note("member: missing, bytes are left", place > 0 && !body.is_empty());
            seen.note("member: missing, others behind it", place + 1 < group.params.len());
            return;
        }
        repetition.take_item(&CmdItem::Param(q.clone()));
    }
}

/// Takes the group.
fn note_group(seen: &mut Seen, group: &VariantGroup, walk: &mut Walk) {
    let count = repetitions(group, &walk.entries);
    let entry = found(&walk.entries, group.offset);
    let (bytes, entries) = (walk.remaining(), walk.entries.len());
    walk.take_item(&CmdItem::VariantGroup(group.clone()));
    let taken = walk.entries.len() - entries;

    let is_counted = count == Some(taken as u64);
    seen.note("group: counted, one", is_counted && taken == 1);
    seen.note("group: counted, more", is_counted && taken > 1);
    seen.note("group: counted, shifted", is_counted && taken > 1 && group.shift > 0);
    seen.note("group: counted, bytes end first", taken > 0 && count > Some(taken as u64));
    seen.note("group: open by offset", group.offset == 255 && group.mask > 0 && taken > 1);
    seen.note("group: open by mask", group.mask == 0 && group.offset < 255 && taken > 1);
    if bytes > 0 && taken == 0 {
        let is_empty = group.params.is_empty();
        seen.note("group: count 0", count == Some(0) && matches!(entry, Some(Some(_))));
        seen.note("group: entry without value", count == Some(0) && entry == Some(None));
        seen.note("group: no entry", count == Some(0) && entry.is_none());
        seen.note("group: offset 254, no entry", group.offset == 254 && entry.is_none());
        seen.note("group: no members", count != Some(0) && is_empty);
        seen.note("group: members that take nothing", count != Some(0) && !is_empty);
    }
}

/// A Q before which these entries are in its list, and which has these bytes before it.
fn note_param(seen: &mut Seen, q: &Param, entries: &[Found], body: &[u8], list: &str) {
    let length = length_if_it_exists(q, entries, body.len());
    if !body.is_empty() {
        note_condition(seen, q, entries, length.is_some(), list);
    }
    if let Some(length) = length {
        seen.note(format!("{list}: {:?}", q.param_type), true);
        note_length(seen, q, entries, body.len(), length);
        note_bits(seen, q, length);
        note_consts(seen, q, body[0]);
        seen.note("value: of eight bytes", length == 8);
        seen.note("value: none, nine bytes", length == 9);
        seen.note("lines under a Q: 32", q.items.len() == 32);
    }
}

fn note_condition(seen: &mut Seen, q: &Param, entries: &[Found], exists: bool, list: &str) {
    let (offset, mask) = match (q.optional_offset, q.optional_mask) {
        (Some(offset), Some(mask)) => (offset, mask),
        (offset, mask) => {
            seen.note("condition: offset alone", offset.is_some() && exists);
            seen.note("condition: mask alone", mask.is_some() && exists);
            return;
        }
    };
    let entry = found(entries, offset);
    let value = entry.flatten();
    seen.note(format!("condition of {list}: holds"), exists);
    seen.note(format!("condition of {list}: fails"), value.is_some() && mask > 0 && !exists);
    seen.note(format!("condition of {list}: no entry"), entry.is_none());
    seen.note("condition: entry without value", entry == Some(None));
    seen.note("condition: mask 0", value.is_some() && mask == 0);
    seen.note("condition: low byte of a longer value", value > Some(255));
    seen.note("condition: entry 254 or 255", value.is_some() && offset >= 254);
}

fn note_length(seen: &mut Seen, q: &Param, entries: &[Found], left: usize, length: usize) {
    let is_rest = length == left;
    seen.note("length: fixed, cut", q.param_type.fixed_len().is_some_and(|fixed| fixed > length));
    match q.param_type {
        ParamType::Array => {
            let a = first_a(q).map(|(length, _)| usize::from(length));
            seen.note("length: A", a == Some(length));
            seen.note("length: A, cut", a > Some(length));
            seen.note("length: no A", a.is_none());
        }
        ParamType::Variant | ParamType::Bitmask | ParamType::MultiArray => {
            let (m, r) = (first_m(q), first_r(q));
            let is_by_m = matches!(m, Some(Some(_)));
            let later_m = |kind: &ItemKind| matches!(kind, ItemKind::BitMask { length: Some(_) });
            seen.note("length: M", is_by_m && !is_rest);
            seen.note("length: M, and an R", is_by_m && r.is_some() && !is_rest);
            seen.note("length: M without length, R", m == Some(None) && r.is_some() && !is_rest);
            seen.note("length: M without length, no R", m == Some(None) && r.is_none());
            seen.note("length: M without length, later M", m == Some(None) && has(q, later_m));
            seen.note("length: neither M nor R", m.is_none() && r.is_none());
            if let (false, Some((offset, mask, shift, _))) = (is_by_m, r) {
                note_length_by_r(seen, entries, (offset, mask, shift), is_rest);
                let count = count(q, |kind| matches!(kind, ItemKind::Variant { .. }));
                seen.note("length: R, another behind it", count > 1 && !is_rest);
            }
        }
        _ => {}
    }
}

/// A length by offset, mask and shift of an R; `is_rest`: it is all that is left.
fn note_length_by_r(
    seen: &mut Seen,
    entries: &[Found],
    (offset, mask, shift): (u8, u8, u8),
    is_rest: bool,
) {
    let entry = found(entries, offset);
    seen.note("length: R, offset 255", offset == 255 && mask > 0);
    seen.note("length: R, mask 0", offset < 255 && mask == 0);
    if offset == 255 || mask == 0 {
        return;
    }
    seen.note("length: R, no entry", entry.is_none());
    if let Some(Some(value)) = entry {
        seen.note("length: R", !is_rest);
        seen.note("length: R, cut", is_rest);
        seen.note("length: R, shifted", shift > 0 && !is_rest);
        seen.note("length: R, offset 0", offset == 0);
        seen.note("length: R, entry 254", offset == 254);
        seen.note("length: R, low byte of a longer value", value > 255);
    }
}

fn note_bits(seen: &mut Seen, q: &Param, length: usize) {
    let flags = count(q, |kind| matches!(kind, ItemKind::BitFlag { .. }));
    let fields = count(q, |kind| matches!(kind, ItemKind::BitField { .. }));
    let enums = count(q, |kind| matches!(kind, ItemKind::FieldEnum { .. }));
    let is_there = length == 1 && flags + fields + enums > 0;
    let is_declared = q.param_type.fixed_len() == Some(1);
    seen.note("bits: all three kinds", length == 1 && flags * fields * enums > 0);
    seen.note("bits: of a WORD cut to a byte", is_there && q.param_type == ParamType::Word);
    seen.note("bits: of a length that is 1 by chance", is_there && !is_declared);
    seen.note("bits: not of two bytes", length == 2 && flags + fields + enums > 0);
}

fn note_consts(seen: &mut Seen, q: &Param, byte: u8) {
    let named = count(q, |kind| matches!(kind, ItemKind::Const { value, .. } if *value == byte));
    if q.param_type != ParamType::Const {
        seen.note("K: not of a CONST", named > 0);
        return;
    }
    let (a, r) = (first_a(q), first_r(q));
    let a_is_ascii = a.is_some_and(|(_, is_ascii)| is_ascii);
    let r_is_ascii = r.is_some_and(|(_, _, _, is_ascii)| is_ascii);
    let is_plain = !a_is_ascii && !r_is_ascii;
    let is_ascii = |kind: &ItemKind| {
        matches!(
            kind,
            ItemKind::ArrayAttrib { is_ascii: true, .. } | ItemKind::Variant { is_ascii: true, .. }
        )
    };
    seen.note("K: named", is_plain && named == 1);
    seen.note("K: two of the value", is_plain && named > 1);
    seen.note("K: none of the value", is_plain && named == 0 && !q.items.is_empty());
    seen.note("K: A is ascii", a_is_ascii && !r_is_ascii && named > 0);
    seen.note("K: R is ascii", r_is_ascii && !a_is_ascii && named > 0);
    seen.note("K: A and R are not ascii", is_plain && a.is_some() && r.is_some() && named > 0);
    seen.note("K: a later A or R is ascii", is_plain && has(q, is_ascii) && named > 0);
}

fn count(q: &Param, is_it: impl Fn(&ItemKind) -> bool) -> usize {
    q.items.iter().filter(|item| is_it(&item.kind)).count()
}

fn has(q: &Param, is_it: impl Fn(&ItemKind) -> bool) -> bool {
    count(q, is_it) > 0
}
