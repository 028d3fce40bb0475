//! `decode`, which calls `decode_params`: the public way to it.

use zniff_core::decoder::command_class::decode::{self, Decoded, DecodedCommand, DecodedParam};
use zniff_core::decoder::command_class::schema;

use super::number;
use crate::definition::command::{
    CmdItem, CommandDefinition, ItemKind, Param, ParamItem, VariantGroup,
};
use crate::refusal::Refusal;
use crate::rows::{self, CommandRow};

/// The Rust's answer, refusal by 5 among them. It does not tell what a row lacks: that number is 0.
pub fn decode_params(
    definition: &CommandDefinition,
    payload: &[u8],
) -> Result<rows::Command, Refusal> {
    decoded(definition, payload, marked).map(|command| answer(&command, payload))
}

/// The Rust's own string for each row, in the order of the rows. The name of a K is its own here.
pub fn displays(
    definition: &CommandDefinition,
    payload: &[u8],
) -> Result<Vec<String>, Refusal> {
    let command = decoded(definition, payload, own)?;
    let mut values = Vec::new();
    push_displays(&command.params, &mut values);
    Ok(values)
}

fn push_displays(params: &[DecodedParam], values: &mut Vec<String>) {
    for param in params {
        values.push(param.display.clone());
        push_displays(&param.children, values);
    }
}

/// How a K is named, by its line and its own name.
type Naming = fn(usize, &str) -> String;

/// Its line and a zero byte, with which nothing else ends that the Rust displays: it trims ascii of them.
fn marked(line: usize, _: &str) -> String {
    format!("{line}\0")
}

fn own(_: usize, name: &str) -> String {
    name.to_string()
}

fn decoded(
    definition: &CommandDefinition,
    payload: &[u8],
    naming: Naming,
) -> Result<Box<DecodedCommand>, Refusal> {
    let (class, command) = (byte_at(payload, 0), byte_at(payload, 1));
    match decode::decode(&named(definition, class, command, naming), payload) {
        Decoded::Command(command) => Ok(command),
        Decoded::Raw { .. } => Err(Refusal { number: 5, carried: payload.len() }),
    }
}

fn byte_at(payload: &[u8], place: usize) -> u8 {
    payload.get(place).copied().unwrap_or(0)
}

/// The Rust's own structs: one class with one command. The name of a Q, a G and a line under a Q
/// is its line.
pub fn classes(definition: &CommandDefinition, class: u8, command: u8) -> schema::ZwClasses {
    named(definition, class, command, marked)
}

/// The same, with the name of each K its own.
pub fn named_classes(definition: &CommandDefinition, class: u8, command: u8) -> schema::ZwClasses {
    named(definition, class, command, own)
}

fn named(
    definition: &CommandDefinition,
    class: u8,
    command: u8,
    naming: Naming,
) -> schema::ZwClasses {
    let command = schema::Cmd {
        key: command,
        name: String::new(),
        help: String::new(),
        items: definition.items.iter().map(|item| cmd_item(item, naming)).collect(),
    };
    let class = schema::CmdClass {
        key: class,
        version: 1,
        name: String::new(),
        help: String::new(),
        cmds: vec![command],
    };
    schema::ZwClasses { version: String::new(), cmd_classes: vec![class] }
}

fn cmd_item(item: &CmdItem, naming: Naming) -> schema::CmdItem {
    match item {
        CmdItem::Param(q) => schema::CmdItem::Param(param(q, naming)),
        CmdItem::VariantGroup(group) => schema::CmdItem::VariantGroup(variant_group(group, naming)),
    }
}

fn variant_group(group: &VariantGroup, naming: Naming) -> schema::VariantGroup {
    schema::VariantGroup {
        key: 0,
        name: group.line.to_string(),
        param_offs: group.offset,
        size_mask: group.mask,
        size_offs: group.shift,
        params: group.params.iter().map(|q| param(q, naming)).collect(),
    }
}

fn param(param: &Param, naming: Naming) -> schema::Param {
    schema::Param {
        key: 0,
        name: param.line.to_string(),
        param_type: param.param_type,
        optional_offs: param.optional_offset,
        optional_mask: param.optional_mask,
        encap_type: None,
        items: param.items.iter().map(|item| param_item(item, naming)).collect(),
    }
}

fn param_item(item: &ParamItem, naming: Naming) -> schema::ParamItem {
    let line = item.line.to_string();
    match item.kind {
        ItemKind::Variant { offset, mask, shift, is_ascii } => {
            let (param_offs, size_mask, size_offs) = (offset, mask, Some(shift));
            schema::ParamItem::Variant(schema::Variant {
                param_offs,
                size_mask,
                size_offs,
                is_ascii,
            })
        }
        ItemKind::ArrayAttrib { length, is_ascii } => {
            schema::ParamItem::ArrayAttrib(schema::ArrayAttrib { len: length, is_ascii })
        }
        ItemKind::BitFlag { mask, .. } => {
            schema::ParamItem::BitFlag(schema::BitFlag { flag_name: line, flag_mask: mask })
        }
        ItemKind::BitField { mask, shift, .. } => schema::ParamItem::BitField(schema::BitField {
            field_name: line,
            field_mask: mask,
            shifter: Some(shift),
        }),
        ItemKind::FieldEnum { mask, shift, .. } => {
            schema::ParamItem::FieldEnum(schema::FieldEnum {
                field_name: line,
                field_mask: mask,
                shifter: Some(shift),
            })
        }
        ItemKind::Const { value, ref name } => schema::ParamItem::Const(schema::Const {
            flag_name: naming(item.line, name),
            flag_mask: value,
        }),
        ItemKind::BitMask { length } => schema::ParamItem::BitMask(schema::BitMask {
            param_offs: 0,
            len_mask: 0,
            len: length,
            len_offs: None,
        }),
    }
}

fn answer(command: &DecodedCommand, payload: &[u8]) -> rows::Command {
    let mut rows = Vec::new();
    push_params(&command.params, 0, &mut rows);
    rows::Command { remainder: payload.len() - command.remainder.len(), rows }
}

/// Parameters and repetitions. The Rust names a repetition `NAME [NUMBER]`.
fn push_params(params: &[DecodedParam], parent: u64, rows: &mut Vec<CommandRow>) {
    for param in params {
        match param.name.strip_suffix(']').and_then(|name| name.split_once(" [")) {
            Some((line, repetition)) => {
                rows.push(row(2, number(line), parent, param, number(repetition)));
                push_params(&param.children, rows.len() as u64, rows);
            }
            None => {
                rows.push(row(0, number(&param.name), parent, param, 0));
                push_bits(&param.children, rows.len() as u64, rows);
            }
        }
    }
}

fn push_bits(bits: &[DecodedParam], parent: u64, rows: &mut Vec<CommandRow>) {
    for bit in bits {
        rows.push(row(1, number(&bit.name), parent, bit, 0));
    }
}

fn row(kind: u64, line: u64, parent: u64, param: &DecodedParam, repetition: u64) -> CommandRow {
    [
        kind,
        line,
        parent,
        param.range.start as u64,
        param.range.end as u64,
        u64::from(param.value.is_some()),
        param.value.unwrap_or(0),
        param.display.strip_suffix('\0').map_or(0, number),
        repetition,
        0,
    ]
}
