//! The frame text: F, B, H, P, V, D and E lines.

use zniff_core::decoder::frame_definition::schema::ParamType;

use super::Definition;
use super::field::{
    Fields, byte, four_bits, letter, name, name_without_dot, number, one_of, optional, path, word,
};
use crate::limits;

/// T16: the types.
pub const TYPES: &[(&str, ParamType)] = &[
    ("HEX", ParamType::Hex),
    ("NUMBER", ParamType::Number),
    ("NUMBER_SIGNED", ParamType::NumberSigned),
    ("NODE_NUMBER", ParamType::NodeNumber),
    ("BOOLEAN", ParamType::Boolean),
    ("BITMASK", ParamType::Bitmask),
];

/// What a frame text stands for: each kind in text order.
#[derive(Debug, Clone, Default, PartialEq)]
pub struct FrameDefinition {
    pub radio_frequencies: Vec<RadioFrequency>,
    pub base_headers: Vec<BaseHeader>,
    pub headers: Vec<Header>,
    pub define_sets: Vec<DefineSet>,
}

/// F.
#[derive(Debug, Clone, PartialEq)]
pub struct RadioFrequency {
    pub line: usize,
    pub code: u8,
    pub base_key: u8,
}

/// B.
#[derive(Debug, Clone, PartialEq)]
pub struct BaseHeader {
    pub line: usize,
    pub key: u8,
    pub params: Vec<Param>,
}

/// H.
#[derive(Debug, Clone, PartialEq)]
pub struct Header {
    pub line: usize,
    pub key: u8,
    pub base_key: Option<u8>,
    pub is_ack: bool,
    pub is_routed: bool,
    pub is_multicast: bool,
    pub is_error: bool,
    pub name: String,
    pub params: Vec<Param>,
    pub validations: Vec<Validation>,
}

/// P, with the P lines that are inside it.
#[derive(Debug, Clone, PartialEq)]
pub struct Param {
    pub line: usize,
    pub order: u16,
    pub bits: u8,
    pub param_type: ParamType,
    pub name: String,
    pub defines: Option<String>,
    pub optional_path: Option<String>,
    pub size_path: Option<String>,
    pub params: Vec<Param>,
}

/// V.
#[derive(Debug, Clone, PartialEq)]
pub struct Validation {
    pub line: usize,
    pub path: String,
    pub value: u16,
}

/// D.
#[derive(Debug, Clone, PartialEq)]
pub struct DefineSet {
    pub line: usize,
    pub name: String,
    pub defines: Vec<Define>,
}

/// E.
#[derive(Debug, Clone, PartialEq)]
pub struct Define {
    pub line: usize,
    pub key: u16,
    pub text: String,
}

/// What a line stands for.
pub enum Record {
    RadioFrequency(RadioFrequency),
    BaseHeader(BaseHeader),
    Header(Header),
    /// Its level is a number of any size: too large a one passes a limit.
    Param(u64, Param),
    Validation(Validation),
    DefineSet(DefineSet),
    Define(Define),
}

impl Definition for FrameDefinition {
    type Record = Record;

    fn record(line: usize, fields: &mut Fields) -> Option<Record> {
        Some(match fields.take(letter)? {
            b"F" => Record::RadioFrequency(RadioFrequency {
                line,
                code: fields.take(byte)?,
                base_key: fields.take(byte)?,
            }),
            b"B" => {
                Record::BaseHeader(BaseHeader { line, key: fields.take(byte)?, params: Vec::new() })
            }
            b"H" => {
                let key = fields.take(byte)?;
                let base_key = fields.take(optional(byte))?;
                let [is_ack, is_routed, is_multicast, is_error] = fields.take(four_bits)?;
                let name = fields.take(name)?;
                let (params, validations) = (Vec::new(), Vec::new());
                Record::Header(Header {
                    line,
                    key,
                    base_key,
                    is_ack,
                    is_routed,
                    is_multicast,
                    is_error,
                    name,
                    params,
                    validations,
                })
            }
            b"P" => Record::Param(
                fields.take(number)?,
                Param {
                    line,
                    order: fields.take(word)?,
                    bits: fields.take(byte)?,
                    param_type: fields.take(one_of(TYPES))?,
                    name: fields.take(name_without_dot)?,
                    defines: fields.take(optional(name))?,
                    optional_path: fields.take(optional(path))?,
                    size_path: fields.take(optional(path))?,
                    params: Vec::new(),
                },
            ),
            b"V" => Record::Validation(Validation {
                line,
                path: fields.take(path)?,
                value: fields.take(word)?,
            }),
            b"D" => {
                Record::DefineSet(DefineSet { line, name: fields.take(name)?, defines: Vec::new() })
            }
            b"E" => {
                Record::Define(Define { line, key: fields.take(word)?, text: fields.take(name)? })
            }
            _ => return None,
        })
    }

    /// T33: does it pass a limit? A line without owner is under nothing.
    fn passes_a_limit(&mut self, record: &Record) -> bool {
        match record {
            Record::RadioFrequency(_) => self.radio_frequencies.len() == limits::RADIO_FREQUENCIES,
            Record::BaseHeader(_) => self.base_headers.len() == limits::BASE_HEADERS,
            Record::Header(_) => self.headers.len() == limits::HEADERS,
            Record::Param(level, _) => {
                let params = self.owner().and_then(Owner::params);
                *level > limits::LEVEL || params.is_some_and(|p| count(p) == limits::PARAMS)
            }
            Record::Validation(_) => {
                let validations = self.owner().and_then(Owner::validations);
                validations.is_some_and(|v| v.len() == limits::VALIDATIONS)
            }
            Record::DefineSet(_) => self.define_sets.len() == limits::DEFINE_SETS,
            Record::Define(_) => {
                let defines = self.owner().and_then(Owner::defines);
                defines.is_some_and(|d| d.len() == limits::DEFINES)
            }
        }
    }

    /// R3: `None` without owner or parent, and with a size path below level 0 (T19).
    fn place(&mut self, record: Record) -> Option<()> {
        match record {
            Record::RadioFrequency(frequency) => self.radio_frequencies.push(frequency),
            Record::BaseHeader(base) => self.base_headers.push(base),
            Record::Header(header) => self.headers.push(header),
            Record::Param(level, param) => {
                let siblings = inside(self.owner()?.params()?, level)?;
                if level > 0 && param.size_path.is_some() {
                    return None;
                }
                siblings.push(param);
            }
            Record::Validation(validation) => self.owner()?.validations()?.push(validation),
            Record::DefineSet(set) => self.define_sets.push(set),
            Record::Define(define) => self.owner()?.defines()?.push(define),
        }
        Some(())
    }
}

/// T17: the owner of what comes.
enum Owner<'a> {
    RadioFrequency,
    BaseHeader(&'a mut BaseHeader),
    Header(&'a mut Header),
    DefineSet(&'a mut DefineSet),
}

impl FrameDefinition {
    /// The lines of all P, from the first on.
    pub fn param_lines(&self) -> Vec<usize> {
        let mut lines = Vec::new();
        self.base_headers.iter().for_each(|base| push_lines(&base.params, &mut lines));
        self.headers.iter().for_each(|header| push_lines(&header.params, &mut lines));
        lines.sort_unstable();
        lines
    }

    fn owner(&mut self) -> Option<Owner<'_>> {
        let last_of_each = [
            self.radio_frequencies.last().map(|f| (f.line, Owner::RadioFrequency)),
            self.base_headers.last_mut().map(|b| (b.line, Owner::BaseHeader(b))),
            self.headers.last_mut().map(|h| (h.line, Owner::Header(h))),
            self.define_sets.last_mut().map(|d| (d.line, Owner::DefineSet(d))),
        ];
        let last = last_of_each.into_iter().flatten().max_by_key(|(line, _)| *line);
        last.map(|(_, owner)| owner)
    }
}

/// T17: what may stand under an owner.
impl<'a> Owner<'a> {
    fn params(self) -> Option<&'a mut Vec<Param>> {
        match self {
            Owner::BaseHeader(base) => Some(&mut base.params),
            Owner::Header(header) => Some(&mut header.params),
            Owner::RadioFrequency | Owner::DefineSet(_) => None,
        }
    }

    fn validations(self) -> Option<&'a mut Vec<Validation>> {
        if let Owner::Header(header) = self { Some(&mut header.validations) } else { None }
    }

    fn defines(self) -> Option<&'a mut Vec<Define>> {
        if let Owner::DefineSet(set) = self { Some(&mut set.defines) } else { None }
    }
}

/// T18: the list that a P of this level belongs to. A later P of a lower level starts a list of its
/// own, so what it parted from here is not found.
fn inside(params: &mut Vec<Param>, level: u64) -> Option<&mut Vec<Param>> {
    match level {
        0 => Some(params),
        _ => inside(&mut params.last_mut()?.params, level - 1),
    }
}

/// How many P lines there are, at all levels.
fn count(params: &[Param]) -> usize {
    params.iter().map(|param| 1 + count(&param.params)).sum()
}

fn push_lines(params: &[Param], lines: &mut Vec<usize>) {
    for param in params {
        lines.push(param.line);
        push_lines(&param.params, lines);
    }
}
