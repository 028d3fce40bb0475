//! The second reading of W-206: VT1 to VT7 of docs/RULES.md. Text that is replaced is the library's:
//! `String::from_utf8_lossy`.

use zniff_core::decoder::command_class::schema::ParamType as ParameterType;
use zniff_core::decoder::frame_definition::schema::ParamType;

use super::command::{Offsets, decode_params, first_a, first_r};
use super::header::decode_header;
use super::nodes::param_at;
use crate::definition::command::{CmdItem, CommandDefinition, ItemKind, Param};
use crate::definition::frame::FrameDefinition;
use crate::refusal::Refusal;
use crate::rows::{CommandRow, HeaderRow};

/// VT1, VT9: every row of a header.
pub fn header_values(
    definition: &FrameDefinition,
    mpdu: &[u8],
    region: u64,
    speed: u64,
) -> Result<Vec<String>, Refusal> {
    let header = decode_header(definition, mpdu, region, speed)?;
    Ok(header.rows.iter().map(|row| header_value(definition, mpdu, row)).collect())
}

/// VT2, VT11: every row of a command.
pub fn command_values(
    definition: &CommandDefinition,
    payload: &[u8],
    offsets: Offsets,
) -> Result<Vec<String>, Refusal> {
    let command = decode_params(definition, payload, offsets)?;
    Ok(command.rows.iter().map(|row| command_value(definition, payload, row)).collect())
}

/// VT1: a row of a header.
fn header_value(definition: &FrameDefinition, mpdu: &[u8], row: &HeaderRow) -> String {
    let &[number, _, start, bits, valued, value, symbol] = row;
    let line = definition.param_lines()[number as usize];
    let param = param_at(definition, line).expect("a row has its P line");
    if symbol > 0 {
        let name = param.defines.as_deref().expect("a symbol has its set");
        let set = definition.define_sets.iter().find(|set| set.name == name);
        return set.expect("the set is there").defines[symbol as usize - 1].text.clone();
    }
    let is_hex = matches!(param.param_type, ParamType::Hex | ParamType::Bitmask);
    if is_hex && bits > 64 && start % 8 == 0 && bits % 8 == 0 {
        return pairs(&mpdu[(start / 8) as usize..((start + bits) / 8) as usize]);
    }
    if valued == 0 {
        return String::new();
    }
    match param.param_type {
        ParamType::Boolean => (value != 0).to_string(),
        ParamType::Number | ParamType::NodeNumber => value.to_string(),
        ParamType::NumberSigned => match value % 256 {
            low @ 0..=127 => low.to_string(),
            low => format!("-{}", 256 - low),
        },
        ParamType::Hex | ParamType::Bitmask => {
            let digits = format!("{value:X}");
            format!("0x{}{digits}", if digits.len() < 2 { "0" } else { "" })
        }
    }
}

/// VT2: a row of a command.
fn command_value(definition: &CommandDefinition, payload: &[u8], row: &CommandRow) -> String {
    let &[kind, line, _, start, end, _, value, named, ..] = row;
    let item = |line: u64| {
        let items = params(definition).flat_map(|param| &param.items);
        items.clone().find(|item| item.line as u64 == line).map(|item| &item.kind)
    };
    match kind {
        0 => {
            let param = params(definition).find(|param| param.line as u64 == line);
            let param = param.expect("a row has its Q line");
            let bytes = &payload[start as usize..end as usize];
            if first_a(param).is_some_and(|a| a.1) || first_r(param).is_some_and(|r| r.3) {
                return String::from_utf8_lossy(bytes).trim_end_matches('\0').to_string();
            }
            if matches!(param.param_type, ParameterType::Const)
                && let Some(ItemKind::Const { name, .. }) = item(named)
            {
                return name.clone();
            }
            let mark = if bytes.len() <= 4 { "0x" } else { "" };
            format!("{mark}{}", pairs(bytes))
        }
        1 => match item(line) {
            Some(ItemKind::BitFlag { .. }) => (value != 0).to_string(),
            _ => value.to_string(),
        },
        _ => String::new(),
    }
}

/// VT4: two capital digits a byte.
fn pairs(bytes: &[u8]) -> String {
    bytes.iter().map(|byte| format!("{byte:02X}")).collect()
}

/// The Qs of a command, those of groups too.
pub fn params(definition: &CommandDefinition) -> impl Iterator<Item = &Param> + Clone {
    definition.items.iter().flat_map(|item| match item {
        CmdItem::Param(param) => std::slice::from_ref(param),
        CmdItem::VariantGroup(group) => &group.params[..],
    })
}
