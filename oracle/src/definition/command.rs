//! The command text: Q and G lines, and R, A, T, S, U, K and M lines under a Q.

use zniff_core::decoder::command_class::schema::ParamType;

use super::Definition;
use super::field::{Fields, bit, byte, letter, name, one_of, optional};
use crate::limits;

/// T30: the types.
pub const TYPES: &[(&str, ParamType)] = &[
    ("BYTE", ParamType::Byte),
    ("WORD", ParamType::Word),
    ("DWORD", ParamType::Dword),
    ("BIT_24", ParamType::Bit24),
    ("STRUCT_BYTE", ParamType::StructByte),
    ("VARIANT", ParamType::Variant),
    ("CONST", ParamType::Const),
    ("BITMASK", ParamType::Bitmask),
    ("ARRAY", ParamType::Array),
    ("MARKER", ParamType::Marker),
    ("MULTI_ARRAY", ParamType::MultiArray),
];

/// What a command text stands for: level 0 Qs, and Gs with their members, in text order.
#[derive(Debug, Clone, Default, PartialEq)]
pub struct CommandDefinition {
    pub items: Vec<CmdItem>,
}

#[derive(Debug, Clone, PartialEq)]
pub enum CmdItem {
    Param(Param),
    VariantGroup(VariantGroup),
}

/// G, with the level 1 Qs that are its members.
#[derive(Debug, Clone, PartialEq)]
pub struct VariantGroup {
    pub line: usize,
    pub name: String,
    pub offset: u8,
    pub mask: u8,
    pub shift: u8,
    pub params: Vec<Param>,
}

/// Q, with the lines under it.
#[derive(Debug, Clone, PartialEq)]
pub struct Param {
    pub line: usize,
    pub param_type: ParamType,
    pub name: String,
    pub optional_offset: Option<u8>,
    pub optional_mask: Option<u8>,
    pub items: Vec<ParamItem>,
}

/// A line under a Q.
#[derive(Debug, Clone, PartialEq)]
pub struct ParamItem {
    pub line: usize,
    pub kind: ItemKind,
}

/// What stands on it. A shift that is missing is 0 (T31).
#[derive(Debug, Clone, PartialEq)]
pub enum ItemKind {
    /// R.
    Variant { offset: u8, mask: u8, shift: u8, is_ascii: bool },
    /// A.
    ArrayAttrib { length: u8, is_ascii: bool },
    /// T.
    BitFlag { mask: u8, name: String },
    /// S.
    BitField { mask: u8, shift: u8, name: String },
    /// U.
    FieldEnum { mask: u8, shift: u8, name: String },
    /// K.
    Const { value: u8, name: String },
    /// M.
    BitMask { length: Option<u8> },
}

/// What a line stands for.
pub enum Record {
    Param { is_member: bool, param: Param },
    VariantGroup(VariantGroup),
    ParamItem(ParamItem),
}

impl Definition for CommandDefinition {
    type Record = Record;

    fn record(line: usize, fields: &mut Fields) -> Option<Record> {
        let kind = match fields.take(letter)? {
            b"Q" => {
                return Some(Record::Param {
                    is_member: fields.take(bit)?,
                    param: Param {
                        line,
                        param_type: fields.take(one_of(TYPES))?,
                        name: fields.take(name)?,
                        optional_offset: fields.take(optional(byte))?,
                        optional_mask: fields.take(optional(byte))?,
                        items: Vec::new(),
                    },
                });
            }
            b"G" => {
                return Some(Record::VariantGroup(VariantGroup {
                    line,
                    name: fields.take(name)?,
                    offset: fields.take(byte)?,
                    mask: fields.take(byte)?,
                    shift: fields.take(byte)?,
                    params: Vec::new(),
                }));
            }
            b"R" => ItemKind::Variant {
                offset: fields.take(byte)?,
                mask: fields.take(byte)?,
                shift: fields.take(optional(byte))?.unwrap_or(0),
                is_ascii: fields.take(bit)?,
            },
            b"A" => {
                ItemKind::ArrayAttrib { length: fields.take(byte)?, is_ascii: fields.take(bit)? }
            }
            b"T" => ItemKind::BitFlag { mask: fields.take(byte)?, name: fields.take(name)? },
            b"S" => ItemKind::BitField {
                mask: fields.take(byte)?,
                shift: fields.take(optional(byte))?.unwrap_or(0),
                name: fields.take(name)?,
            },
            b"U" => ItemKind::FieldEnum {
                mask: fields.take(byte)?,
                shift: fields.take(optional(byte))?.unwrap_or(0),
                name: fields.take(name)?,
            },
            b"K" => ItemKind::Const { value: fields.take(byte)?, name: fields.take(name)? },
            b"M" => ItemKind::BitMask { length: fields.take(optional(byte))? },
            _ => return None,
        };
        Some(Record::ParamItem(ParamItem { line, kind }))
    }

    /// T33: does it pass a limit? A line without owner is under nothing.
    fn passes_a_limit(&mut self, record: &Record) -> bool {
        match record {
            Record::Param { .. } | Record::VariantGroup(_) => self.count() == limits::CMD_ITEMS,
            Record::ParamItem(_) => {
                self.last_param().is_some_and(|q| q.items.len() == limits::PARAM_ITEMS)
            }
        }
    }

    /// R3: `None` without the Q or the G that it needs, and with a shift over 7 (T31).
    fn place(&mut self, record: Record) -> Option<()> {
        if record.shift() > limits::SHIFT {
            return None;
        }
        match record {
            Record::Param { is_member: false, param } => self.items.push(CmdItem::Param(param)),
            Record::Param { is_member: true, param } => self.last_group()?.params.push(param),
            Record::VariantGroup(group) => self.items.push(CmdItem::VariantGroup(group)),
            Record::ParamItem(item) => self.last_param()?.items.push(item),
        }
        Some(())
    }
}

impl Record {
    /// Its shift, 0 where it has none.
    fn shift(&self) -> u8 {
        match self {
            Record::VariantGroup(VariantGroup { shift, .. }) => *shift,
            Record::ParamItem(ParamItem { kind, .. }) => match kind {
                ItemKind::Variant { shift, .. }
                | ItemKind::BitField { shift, .. }
                | ItemKind::FieldEnum { shift, .. } => *shift,
                _ => 0,
            },
            Record::Param { .. } => 0,
        }
    }
}

impl CommandDefinition {
    /// How many Q and G lines there are.
    fn count(&self) -> usize {
        let lines_of = |item: &CmdItem| match item {
            CmdItem::Param(_) => 1,
            CmdItem::VariantGroup(group) => 1 + group.params.len(),
        };
        self.items.iter().map(lines_of).sum()
    }

    /// T32: the G of a level 1 Q.
    fn last_group(&mut self) -> Option<&mut VariantGroup> {
        match self.items.last_mut()? {
            CmdItem::VariantGroup(group) => Some(group),
            CmdItem::Param(_) => None,
        }
    }

    /// T32: the Q of an item.
    fn last_param(&mut self) -> Option<&mut Param> {
        match self.items.last_mut()? {
            CmdItem::VariantGroup(group) => group.params.last_mut(),
            CmdItem::Param(param) => Some(param),
        }
    }
}
