//! A command definition as a text.

use crate::definition::command::{CmdItem, CommandDefinition, ItemKind, Param, TYPES};
use crate::generate::texts::push_line;
use crate::random::Random;

/// A text that stands for this.
pub fn text(random: &mut Random, definition: &CommandDefinition) -> Vec<u8> {
    let mut text = Vec::new();
    for item in &definition.items {
        match item {
            CmdItem::Param(q) => push_param(random, q, "0", &mut text),
            CmdItem::VariantGroup(group) => {
                let [offset, mask, shift] =
                    [group.offset, group.mask, group.shift].map(|number| number.to_string());
                push_line(&["G", &group.name, &offset, &mask, &shift], &mut text);
                group.params.iter().for_each(|q| push_param(random, q, "1", &mut text));
            }
        }
    }
    text
}

fn push_param(random: &mut Random, q: &Param, level: &str, text: &mut Vec<u8>) {
    let is_type = |(_, meant): &&(&str, _)| *meant == q.param_type;
    let (word, _) = TYPES.iter().find(is_type).expect("a word for every type");
    let (offset, mask) = (or_missing(q.optional_offset), or_missing(q.optional_mask));
    push_line(&["Q", level, word, &q.name, &offset, &mask], text);
    q.items.iter().for_each(|item| push_item(random, &item.kind, text));
}

fn push_item(random: &mut Random, kind: &ItemKind, text: &mut Vec<u8>) {
    let decimal = |number: &u8| number.to_string();
    let ascii = |is_ascii: &bool| if *is_ascii { "1" } else { "0" };
    // T31: a shift that is missing is 0.
    let mut shift = |shift: &u8| match shift {
        0 => random.pick(&["-", "0"]).to_string(),
        _ => shift.to_string(),
    };
    match kind {
        ItemKind::Variant { offset, mask, shift: by, is_ascii } => {
            push_line(&["R", &decimal(offset), &decimal(mask), &shift(by), ascii(is_ascii)], text);
        }
        ItemKind::ArrayAttrib { length, is_ascii } => {
            push_line(&["A", &decimal(length), ascii(is_ascii)], text);
        }
        ItemKind::BitFlag { mask, name } => push_line(&["T", &decimal(mask), name], text),
        ItemKind::BitField { mask, shift: by, name } => {
            push_line(&["S", &decimal(mask), &shift(by), name], text);
        }
        ItemKind::FieldEnum { mask, shift: by, name } => {
            push_line(&["U", &decimal(mask), &shift(by), name], text);
        }
        ItemKind::Const { value, name } => push_line(&["K", &decimal(value), name], text),
        ItemKind::BitMask { length } => push_line(&["M", &or_missing(*length)], text),
    }
}

fn or_missing(number: Option<u8>) -> String {
    number.map_or("-".into(), |number| number.to_string())
}
