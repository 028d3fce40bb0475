//! A reader of definition texts, written from document 01, 'Definition text' and 'Refusal
//! numbers', alone (T and R of docs/RULES.md): the Rust has no such texts, so it is not asked. What
//! it reads is plain data under the names of the source's two `schema` modules, each record with
//! the number of its line.

pub mod command;
mod field;
pub mod frame;

use crate::limits;
use crate::refusal::Refusal;
use field::Fields;

/// What a text stands for, as far as it has been read: all lines of it were good.
pub trait Definition: Default {
    /// What a single line stands for.
    type Record;

    /// R1: what a line says, `None` if it has none of the forms. `line` is its number, to be kept.
    fn record(line: usize, fields: &mut Fields) -> Option<Self::Record>;

    /// R2: is a limit passed, once this record comes too?
    fn passes_a_limit(&mut self, record: &Self::Record) -> bool;

    /// R3: puts a record where it belongs; `None` where it may not stand here.
    fn place(&mut self, record: Self::Record) -> Option<()>;
}

/// R10: what a text stands for, or why it is refused.
pub fn read<D: Definition>(text: &[u8]) -> Result<D, Refusal> {
    if text.len() > limits::TEXT {
        return Err(Refusal { number: 2, carried: 0 });
    }
    let mut definition = D::default();
    for (number, line) in (1..).zip(text.split_inclusive(|&byte| byte == b'\n')) {
        take_line(&mut definition, number, line)
            .map_err(|refused_by| Refusal { number: refused_by, carried: number })?;
    }
    Ok(definition)
}

/// Takes a line with its 0x0A; the last one may lack it, and then it is none.
fn take_line<D: Definition>(definition: &mut D, number: usize, line: &[u8]) -> Result<(), u8> {
    let record = line.strip_suffix(b"\n").and_then(|line| whole_record::<D>(number, line));
    let record = record.ok_or(1)?;
    if definition.passes_a_limit(&record) {
        return Err(2);
    }
    definition.place(record).ok_or(3)
}

/// The record of a line, if it has no field too many.
fn whole_record<D: Definition>(number: usize, line: &[u8]) -> Option<D::Record> {
    let mut fields = Fields::of(line);
    let record = D::record(number, &mut fields)?;
    fields.end()?;
    Some(record)
}
