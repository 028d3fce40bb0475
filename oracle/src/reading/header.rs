//! The lawful reading of a header.

use crate::definition::frame::{BaseHeader, FrameDefinition, Header, Param};
use crate::limits;
use crate::refusal::Refusal;
use crate::rows::{self, HeaderRow};

/// A field that was read, and the fields inside it.
#[derive(Debug)]
pub struct Field<'a> {
    pub param: &'a Param,
    pub start: usize,
    pub bits: usize,
    pub value: Option<u64>,
    pub inner: Vec<Field<'a>>,
}

impl Field<'_> {
    pub fn end(&self) -> usize {
        self.start + self.bits
    }
}

/// H20, R10: the answer, or the refusal, but for 8.
pub fn decode_header(
    definition: &FrameDefinition,
    mpdu: &[u8],
    region: u64,
    speed: u64,
) -> Result<rows::Header, Refusal> {
    let refused = |number, carried| Err(Refusal { number, carried });
    if mpdu.len() > limits::MPDU {
        return refused(4, mpdu.len());
    }
    if mpdu.len() < 2 {
        return refused(5, mpdu.len());
    }
    let key = base_key(definition, region, speed);
    let Some(base) = definition.base_headers.iter().find(|base| base.key == key) else {
        return refused(6, usize::from(key));
    };
    let readings = candidates(definition, key).map(|(number, h)| (number, h, read(base, h, mpdu)));
    let Some((number, header, fields)) = readings.into_iter().find(|(_, h, f)| holds(h, f)) else {
        return refused(7, 0);
    };
    Ok(rows::Header {
        number,
        key: header.key,
        flags: [header.is_ack, header.is_routed, header.is_multicast, header.is_error],
        payload_offset: covered(&fields).div_ceil(8),
        checksum_is_right: checksum_is_right(mpdu, speed),
        rows: Rows::of(definition, &fields),
    })
}

/// LS4: the rows of the candidate of that number, whether it holds or not.
pub fn candidate_rows(
    definition: &FrameDefinition,
    mpdu: &[u8],
    region: u64,
    speed: u64,
    number: u64,
) -> Option<Vec<HeaderRow>> {
    let key = base_key(definition, region, speed);
    let base = definition.base_headers.iter().find(|base| base.key == key)?;
    let (_, header) = candidates(definition, key).find(|(at, _)| *at as u64 == number)?;
    Some(Rows::of(definition, &read(base, header, mpdu)))
}

/// H1: the base key.
pub fn base_key(definition: &FrameDefinition, region: u64, speed: u64) -> u8 {
    let mut frequencies = definition.radio_frequencies.iter();
    match speed {
        3 => 2,
        _ => frequencies.find(|f| u64::from(f.code) == region).map_or(0, |f| f.base_key),
    }
}

/// H3: the candidates.
fn candidates(definition: &FrameDefinition, key: u8) -> impl Iterator<Item = (usize, &Header)> {
    let is_candidate = move |h: &Header| h.base_key == Some(key) && !h.validations.is_empty();
    definition.headers.iter().enumerate().filter(move |(_, h)| is_candidate(h))
}

/// H14: does each V find its value?
fn holds(header: &Header, fields: &[Field]) -> bool {
    header.validations.iter().all(|v| value(fields, &v.path) == Some(u64::from(v.value)))
}

/// H11: the base's outer fields, and behind them the candidate's.
fn read<'a>(base: &'a BaseHeader, header: &'a Header, mpdu: &[u8]) -> Vec<Field<'a>> {
    let mut fields = Vec::new();
    read_outer(&base.params, mpdu, &mut fields);
    read_outer(&header.params, mpdu, &mut fields);
    fields
}

/// H10: outer fields, each where the one before ended: one that doesn't exist, for any reason, ends
/// its list.
pub fn read_outer<'a>(params: &'a [Param], mpdu: &[u8], fields: &mut Vec<Field<'a>>) {
    for param in in_order(params) {
        let Some(field) = read_field(param, covered(fields), fields, mpdu) else {
            return;
        };
        fields.push(field);
    }
}

/// H16: the bits that outer fields cover: they lie one behind the other.
pub fn covered(fields: &[Field]) -> usize {
    fields.last().map_or(0, Field::end)
}

/// H4: by order, equal ones as they stand in the text.
fn in_order(params: &[Param]) -> Vec<&Param> {
    let mut ordered: Vec<&Param> = params.iter().collect();
    ordered.sort_by_key(|param| (param.order, param.line));
    ordered
}

/// H9: the field, if it exists at that bit.
pub fn read_field<'a>(
    param: &'a Param,
    place: usize,
    earlier: &[Field],
    mpdu: &[u8],
) -> Option<Field<'a>> {
    let is_nonzero = |path: &String| value(earlier, path).is_some_and(|value| value != 0);
    let is_wanted = param.optional_path.as_ref().is_none_or(is_nonzero);
    let width = width(param, earlier);
    let ends_within = place as u128 + width <= 8 * mpdu.len() as u128;
    (is_wanted && width > 0 && ends_within).then(|| {
        let bits = width as usize;
        let inner = read_inner(&param.params, place, bits, mpdu);
        Field { param, start: place, bits, value: value_of_bits(mpdu, place, bits), inner }
    })
}

/// H8: the width.
fn width(param: &Param, earlier: &[Field]) -> u128 {
    match &param.size_path {
        Some(path) => 8 * u128::from(value(earlier, path).unwrap_or(0)),
        None => u128::from(param.bits),
    }
}

/// H12: the fields inside a field.
pub fn read_inner<'a>(
    params: &'a [Param],
    parent: usize,
    parent_bits: usize,
    mpdu: &[u8],
) -> Vec<Field<'a>> {
    let mut fields = Vec::new();
    let mut widths = 0;
    for param in in_order(params) {
        widths += usize::from(param.bits);
        if widths > parent_bits {
            break;
        }
        let place = parent + parent_bits - widths;
        fields.extend(read_field(param, place, &fields, mpdu));
    }
    fields
}

/// H6: the field that a path means.
pub fn find<'f, 'a>(fields: &'f [Field<'a>], path: &str) -> Option<&'f Field<'a>> {
    let mut names = path.split('.');
    let first = named(fields, names.next()?)?;
    names.try_fold(first, |field, name| named(&field.inner, name))
}

fn named<'f, 'a>(fields: &'f [Field<'a>], name: &str) -> Option<&'f Field<'a>> {
    fields.iter().find(|field| field.param.name == name)
}

/// H6: the value that a path finds: a field without one is none.
pub fn value(fields: &[Field], path: &str) -> Option<u64> {
    find(fields, path)?.value
}

/// H5: the value of some bits. Nine bytes hold them.
fn value_of_bits(mpdu: &[u8], start: usize, bits: usize) -> Option<u64> {
    if bits > 64 {
        return None;
    }
    let (first, end) = (start / 8, (start + bits).div_ceil(8));
    let bytes = mpdu[first..end].iter().fold(0u128, |all, byte| all << 8 | u128::from(*byte));
    let from_the_first = bytes >> (8 * end - start - bits);
    Some((from_the_first % (1 << bits)) as u64)
}

/// H21, H23: is the checksum or the CRC right?
pub fn checksum_is_right(mpdu: &[u8], speed: u64) -> bool {
    let length = if speed > 1 { 2 } else { 1 };
    let Some((message, checksum)) = mpdu.split_at_checked(mpdu.len().wrapping_sub(length)) else {
        return false;
    };
    match checksum {
        _ if message.is_empty() => false,
        [byte] => *byte == message.iter().fold(0xFF, |sum, byte| sum ^ byte),
        _ => checksum == crc(message).to_be_bytes(),
    }
}

/// H22: the remainder of the message's bits, first bit highest, with 0x1D0F over the first sixteen
/// and sixteen zeros behind them, divided by x^16 + x^12 + x^5 + 1.
fn crc(message: &[u8]) -> u16 {
    let bits_of = |bytes: &[u8]| -> Vec<bool> {
        bytes.iter().flat_map(|byte| (0..8).rev().map(move |at| byte >> at & 1 == 1)).collect()
    };
    let mut bits = bits_of(&[message, &[0, 0]].concat());
    for (bit, initial) in bits.iter_mut().zip(bits_of(&[0x1D, 0x0F])) {
        *bit ^= initial;
    }
    for at in 0..8 * message.len() {
        if bits[at] {
            for power in [16, 12, 5, 0] {
                bits[at + 16 - power] ^= true;
            }
        }
    }
    bits[8 * message.len()..].iter().fold(0, |rest, &bit| rest << 1 | u16::from(bit))
}

/// H18: the rows of fields.
struct Rows<'a> {
    definition: &'a FrameDefinition,
    param_lines: Vec<usize>,
    rows: Vec<HeaderRow>,
}

impl Rows<'_> {
    fn of(definition: &FrameDefinition, fields: &[Field]) -> Vec<HeaderRow> {
        let mut rows = Rows { definition, param_lines: definition.param_lines(), rows: Vec::new() };
        rows.push(fields, 0);
        rows.rows
    }

    /// H19: a row, and behind it those of what is inside. `parent`: its row + 1, or 0.
    fn push(&mut self, fields: &[Field], parent: u64) {
        for field in fields {
            self.rows.push([
                self.number(field.param),
                parent,
                field.start as u64,
                field.bits as u64,
                u64::from(field.value.is_some()),
                field.value.unwrap_or(0),
                self.symbol(field).map_or(0, |number| number as u64 + 1),
            ]);
            self.push(&field.inner, self.rows.len() as u64);
        }
    }

    /// H18: which of all P lines it is.
    fn number(&self, param: &Param) -> u64 {
        self.param_lines.iter().filter(|&&line| line < param.line).count() as u64
    }

    /// H17: the number of the symbol's E.
    fn symbol(&self, field: &Field) -> Option<usize> {
        let name = field.param.defines.as_ref()?;
        let set = self.definition.define_sets.iter().find(|set| set.name == *name)?;
        set.defines.iter().position(|define| Some(u64::from(define.key)) == field.value)
    }
}
