//! The parameters of a command.

use zniff_core::decoder::command_class::schema::ParamType;

use crate::definition::command::{CmdItem, CommandDefinition, ItemKind, Param, VariantGroup};
use crate::limits;
use crate::refusal::Refusal;
use crate::rows::{self, CommandRow};

/// C2: an entry that was answered: its value, if it has one. A repetition is one without a value.
pub type Entry = Option<u64>;

/// D1: what an offset finds: an entry, or that there is no such one.
pub type Found = Option<Entry>;

/// D1: how offsets count in the outer list: over the entries answered so far, or by position in the text.
#[derive(Debug, Clone, Copy, PartialEq, Eq)]
pub enum Offsets {
    Answered,
    Position,
}

/// C1: where the body starts in the payload.
const BEFORE_BODY: usize = 2;

/// The kinds of rows.
const PARAMETER: u64 = 0;
const BIT_CHILD: u64 = 1;
const REPETITION: u64 = 2;

/// C18, R10: the answer, or the refusal, but for 8.
pub fn decode_params(
    definition: &CommandDefinition,
    payload: &[u8],
    offsets: Offsets,
) -> Result<rows::Command, Refusal> {
    if payload.len() > limits::COMMAND {
        return Err(Refusal { number: 4, carried: payload.len() });
    }
    let Some(body) = payload.get(BEFORE_BODY..) else {
        return Err(Refusal { number: 5, carried: payload.len() });
    };
    let mut walk = Walk::new(body, offsets);
    definition.items.iter().for_each(|item| walk.take_item(item));
    Ok(rows::Command { remainder: BEFORE_BODY + walk.place, rows: walk.rows })
}

/// What has been answered so far, and the place in the body where the rest starts.
pub struct Walk<'a> {
    pub body: &'a [u8],
    pub place: usize,
    offsets: Offsets,
    /// What offsets find, of the outer list.
    pub entries: Vec<Found>,
    pub rows: Vec<CommandRow>,
}

impl<'a> Walk<'a> {
    pub fn new(body: &'a [u8], offsets: Offsets) -> Walk<'a> {
        Walk { body, place: 0, offsets, entries: Vec::new(), rows: Vec::new() }
    }

    pub fn remaining(&self) -> usize {
        self.body.len() - self.place
    }

    /// C9: a Q of the outer list, passed over where it does not exist. D2, D3: by position each Q and G has
    /// its place, but a Q that does not exist and a group are not found there.
    pub fn take_item(&mut self, item: &CmdItem) {
        match item {
            CmdItem::Param(q) => {
                let entries = std::mem::take(&mut self.entries);
                let entry = self.take_param(q, &entries, 0);
                self.entries = entries;
                if entry.is_some() || self.offsets == Offsets::Position {
                    self.entries.push(entry);
                }
            }
            CmdItem::VariantGroup(group) => {
                let repetitions = self.take_group(group);
                match self.offsets {
                    Offsets::Answered => self.entries.extend(vec![Some(None); repetitions]),
                    Offsets::Position => self.entries.push(None),
                }
            }
        }
    }

    /// Takes a Q, where it exists: its row, and those of its bit children.
    fn take_param(&mut self, q: &Param, entries: &[Found], parent: u64) -> Found {
        let length = length_if_it_exists(q, entries, self.remaining())?;
        let lacking = lacking(q, entries, self.remaining());
        let start = self.place;
        self.place += length;
        let bytes = &self.body[start..self.place];
        let value = value(bytes);
        let (line, named_by) = (q.line, named_by(q, value));
        let kind = PARAMETER;
        self.push(start, Row { kind, line, parent, value, named_by, repetition: 0, lacking });
        if let &[byte] = bytes {
            self.push_bit_children(q, byte, start);
        }
        Some(value)
    }

    /// C11: the bit children of a Q that takes one byte.
    fn push_bit_children(&mut self, q: &Param, byte: u8, start: usize) {
        let parent = self.rows.len() as u64;
        for item in &q.items {
            let (line, value) = (item.line, bit_child(&item.kind, byte));
            if value.is_some() {
                self.push(start, Row { kind: BIT_CHILD, line, parent, value, ..Row::default() });
            }
        }
    }

    /// C13, C15: the repetitions of a group: how many.
    fn take_group(&mut self, group: &VariantGroup) -> usize {
        let count = repetitions(group, &self.entries);
        let mut number = 0;
        while count.map_or(self.remaining() > 0, |count| number < count) {
            if !self.take_repetition(group, number) {
                break;
            }
            number += 1;
        }
        number as usize
    }

    /// C14: a repetition. False where it takes nothing: it has no row.
    fn take_repetition(&mut self, group: &VariantGroup, number: u64) -> bool {
        let (start, row) = (self.place, self.rows.len());
        let line = group.line;
        self.push(start, Row { kind: REPETITION, line, repetition: number, ..Row::default() });
        let mut members = Vec::new();
        for q in &group.params {
            let entry = self.take_param(q, &members, row as u64 + 1);
            if entry.is_none() {
                break;
            }
            members.push(entry);
        }
        match self.place > start {
            true => self.rows[row][4] = (BEFORE_BODY + self.place) as u64,
            false => self.rows.truncate(row),
        }
        self.place > start
    }

    /// Adds a row that starts at that place of the body and ends at the place reached.
    fn push(&mut self, start: usize, row: Row) {
        self.rows.push([
            row.kind,
            row.line as u64,
            row.parent,
            (BEFORE_BODY + start) as u64,
            (BEFORE_BODY + self.place) as u64,
            u64::from(row.value.is_some()),
            row.value.unwrap_or(0),
            row.named_by as u64,
            row.repetition,
            row.lacking as u64,
        ]);
    }
}

/// What a row has besides its place.
#[derive(Default)]
struct Row {
    kind: u64,
    line: usize,
    /// Its row + 1, or 0.
    parent: u64,
    value: Option<u64>,
    /// The line of a K, or 0.
    named_by: usize,
    repetition: u64,
    /// Bytes wanted but not there.
    lacking: usize,
}

/// C8: the length of a Q, if it exists.
pub fn length_if_it_exists(q: &Param, entries: &[Found], remaining: usize) -> Option<usize> {
    let length = length(q, entries, remaining);
    (remaining > 0 && condition_holds(q, entries) && length > 0).then_some(length)
}

/// C3: does the condition hold?
fn condition_holds(q: &Param, entries: &[Found]) -> bool {
    let (Some(offset), Some(mask)) = (q.optional_offset, q.optional_mask) else {
        return true;
    };
    let value = found(entries, offset).flatten();
    value.is_some_and(|value| low_byte(value) & mask != 0)
}

/// C7: the length, cut to what is left.
fn length(q: &Param, entries: &[Found], remaining: usize) -> usize {
    wanted(q, entries).map_or(remaining, |length| length.min(remaining))
}

/// L2: how many bytes are wanted but not there; of the rest none.
fn lacking(q: &Param, entries: &[Found], remaining: usize) -> usize {
    wanted(q, entries).map_or(0, |length| length.saturating_sub(remaining))
}

/// C4 to C6, L1: how many bytes a Q wants. `None`: the rest.
fn wanted(q: &Param, entries: &[Found]) -> Option<usize> {
    match q.param_type {
        ParamType::Byte | ParamType::StructByte | ParamType::Const | ParamType::Marker => Some(1),
        ParamType::Word => Some(2),
        ParamType::Bit24 => Some(3),
        ParamType::Dword => Some(4),
        ParamType::Array => first_a(q).map(|(length, _)| usize::from(length)),
        ParamType::Variant | ParamType::Bitmask | ParamType::MultiArray => {
            first_m(q).flatten().map(usize::from).or_else(|| length_by_r(q, entries))
        }
    }
}

/// C6: the length by the first R. `None`: the rest.
fn length_by_r(q: &Param, entries: &[Found]) -> Option<usize> {
    let (offset, mask, shift, _) = first_r(q)?;
    if offset == 255 || mask == 0 {
        return None;
    }
    let entry = found(entries, offset)?;
    Some(usize::from((entry.map_or(0, low_byte) & mask) >> shift))
}

/// C13: how often a group repeats. `None`: to the end.
pub fn repetitions(group: &VariantGroup, entries: &[Found]) -> Option<u64> {
    if group.offset == 255 || group.mask == 0 {
        return None;
    }
    let entry = found(entries, group.offset).flatten();
    Some(entry.map_or(0, |value| u64::from((low_byte(value) & group.mask) >> group.shift)))
}

/// C2, D1: what an offset finds.
pub fn found(entries: &[Found], offset: u8) -> Found {
    entries.get(usize::from(offset)).copied().flatten()
}

fn low_byte(value: u64) -> u8 {
    value.to_le_bytes()[0]
}

/// C10: the value of bytes, if they have one.
fn value(bytes: &[u8]) -> Option<u64> {
    let mut all = [0; 8];
    let place = all.len().checked_sub(bytes.len())?;
    all[place..].copy_from_slice(bytes);
    (!bytes.is_empty()).then_some(u64::from_be_bytes(all))
}

/// C11: the value of a T, S or U.
fn bit_child(kind: &ItemKind, byte: u8) -> Option<u64> {
    match *kind {
        ItemKind::BitFlag { mask, .. } => Some(u64::from(byte & mask != 0)),
        ItemKind::BitField { mask, shift, .. } | ItemKind::FieldEnum { mask, shift, .. } => {
            Some(u64::from((byte & mask) >> shift))
        }
        _ => None,
    }
}

/// C12: the line of the K that names the value, or 0.
fn named_by(q: &Param, value: Option<u64>) -> usize {
    let is_ascii = first_a(q).is_some_and(|(_, is_ascii)| is_ascii)
        || first_r(q).is_some_and(|(_, _, _, is_ascii)| is_ascii);
    let low_byte = value.map(low_byte);
    let names =
        |kind: &ItemKind| matches!(*kind, ItemKind::Const { value, .. } if Some(value) == low_byte);
    match q.param_type {
        ParamType::Const if !is_ascii => {
            q.items.iter().find(|item| names(&item.kind)).map_or(0, |item| item.line)
        }
        _ => 0,
    }
}

/// The first A's length and ascii.
pub fn first_a(q: &Param) -> Option<(u8, bool)> {
    q.items.iter().find_map(|item| match item.kind {
        ItemKind::ArrayAttrib { length, is_ascii } => Some((length, is_ascii)),
        _ => None,
    })
}

/// The first R's offset, mask, shift and ascii.
pub fn first_r(q: &Param) -> Option<(u8, u8, u8, bool)> {
    q.items.iter().find_map(|item| match item.kind {
        ItemKind::Variant { offset, mask, shift, is_ascii } => {
            Some((offset, mask, shift, is_ascii))
        }
        _ => None,
    })
}

/// The first M's length, which may be missing.
pub fn first_m(q: &Param) -> Option<Option<u8>> {
    q.items.iter().find_map(|item| match item.kind {
        ItemKind::BitMask { length } => Some(length),
        _ => None,
    })
}
