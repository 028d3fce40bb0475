//! `decode_header`.

use zniff_core::decoder::frame_definition::decode::{
    self, DecodeError, DecodedHeader, DecodedParam,
};
use zniff_core::decoder::frame_definition::schema;

use super::{asked, number};
use crate::definition::frame::{
    BaseHeader, DefineSet, FrameDefinition, Header, Param, RadioFrequency, Validation,
};
use crate::refusal::Refusal;
use crate::rows;

/// The Rust's answer, refusals by 5, 6 and 7 among them; `None` where a number passes 64 bits.
pub fn decode_header(
    definition: &FrameDefinition,
    mpdu: &[u8],
    region: u64,
    speed: u64,
) -> Option<Result<rows::Header, Refusal>> {
    let decoded = decoded(definition, &schema(definition), mpdu, region, speed)?;
    Some(decoded.map(|header| answer(&header)))
}

/// The Rust's own string for each row, in the order of the rows. The label of an E is its text here.
pub fn display_values(
    definition: &FrameDefinition,
    mpdu: &[u8],
    region: u64,
    speed: u64,
) -> Option<Result<Vec<String>, Refusal>> {
    let mut schema = schema(definition);
    for (set, ours) in schema.define_sets.iter_mut().zip(&definition.define_sets) {
        for (define, ours) in set.defines.iter_mut().zip(&ours.defines) {
            define.text.clone_from(&ours.text);
        }
    }
    let decoded = decoded(definition, &schema, mpdu, region, speed)?;
    Some(decoded.map(|header| {
        let mut values = Vec::new();
        push_values(&header.params, &mut values);
        values
    }))
}

fn push_values(params: &[DecodedParam], values: &mut Vec<String>) {
    for param in params {
        values.push(param.display_value());
        push_values(&param.children, values);
    }
}

fn decoded(
    definition: &FrameDefinition,
    schema: &schema::FrameDefinition,
    mpdu: &[u8],
    region: u64,
    speed: u64,
) -> Option<Result<DecodedHeader, Refusal>> {
    let (region, speed) = (region_of(definition, region), speed_of(speed));
    let decoded = asked(|| decode::decode_header(schema, mpdu, region, speed))?;
    Some(match decoded {
        Ok(header) => Ok(header),
        Err(DecodeError::TooShort) => Err(Refusal { number: 5, carried: mpdu.len() }),
        Err(DecodeError::UnknownBaseHeader(key)) => {
            Err(Refusal { number: 6, carried: usize::from(key) })
        }
        Err(DecodeError::NoMatchingHeader) => Err(Refusal { number: 7, carried: 0 }),
    })
}

/// A region that the Rust's `u8` cannot hold has no F: it becomes one that no F has.
fn region_of(definition: &FrameDefinition, region: u64) -> u8 {
    let has_no_f = |code: &u8| definition.radio_frequencies.iter().all(|f| f.code != *code);
    let free = || (0..=u8::MAX).find(has_no_f).expect("fewer F than codes");
    u8::try_from(region).unwrap_or_else(|_| free())
}

/// Speeds over 3 are all alike: they become 4.
fn speed_of(speed: u64) -> u8 {
    speed.min(4) as u8
}

/// The Rust's own structs. The labels (`text`) of a P, an H and an E are their numbers; the names
/// by which fields and sets are found are the text's.
pub fn schema(definition: &FrameDefinition) -> schema::FrameDefinition {
    let numbers = definition.param_lines();
    let headers = definition.headers.iter().enumerate();
    schema::FrameDefinition {
        radio_frequencies: definition.radio_frequencies.iter().map(radio_frequency).collect(),
        base_headers: definition.base_headers.iter().map(|b| base_header(b, &numbers)).collect(),
        headers: headers.map(|(number, h)| header(number, h, &numbers)).collect(),
        define_sets: definition.define_sets.iter().map(define_set).collect(),
    }
}

fn radio_frequency(frequency: &RadioFrequency) -> schema::RadioFrequency {
    schema::RadioFrequency {
        name: String::new(),
        code: frequency.code,
        base_header: frequency.base_key,
        text: String::new(),
    }
}

fn base_header(base: &BaseHeader, numbers: &[usize]) -> schema::BaseHeader {
    schema::BaseHeader {
        key: base.key,
        name: String::new(),
        text: String::new(),
        params: params(&base.params, numbers),
        home_id: None,
        source: None,
        header_type: None,
        is_ltx: None,
        sequence_number: None,
    }
}

fn header(number: usize, header: &Header, numbers: &[usize]) -> schema::Header {
    schema::Header {
        key: header.key,
        name: header.name.clone(),
        text: number.to_string(),
        base_header_key: header.base_key,
        is_ack: header.is_ack,
        is_error: header.is_error,
        is_multicast: header.is_multicast,
        is_routed: header.is_routed,
        params: params(&header.params, numbers),
        validations: header.validations.iter().map(validation).collect(),
    }
}

fn params(params: &[Param], numbers: &[usize]) -> Vec<schema::Param> {
    params.iter().map(|p| param(p, numbers)).collect()
}

fn param(param: &Param, numbers: &[usize]) -> schema::Param {
    let number = numbers.binary_search(&param.line).expect("a line of a P");
    schema::Param {
        order: param.order,
        name: param.name.clone(),
        text: number.to_string(),
        param_type: param.param_type,
        bits: param.bits,
        defines: param.defines.clone(),
        opt_ref: param.optional_path.clone(),
        size_ref: param.size_path.clone(),
        params: params(&param.params, numbers),
    }
}

fn validation(validation: &Validation) -> schema::Validation {
    schema::Validation {
        param_name: validation.path.clone(),
        param_hex_value: u32::from(validation.value),
    }
}

fn define_set(set: &DefineSet) -> schema::DefineSet {
    let define = |(number, define): (usize, &crate::definition::frame::Define)| schema::Define {
        key: u32::from(define.key),
        name: String::new(),
        text: number.to_string(),
    };
    schema::DefineSet {
        name: set.name.clone(),
        defines: set.defines.iter().enumerate().map(define).collect(),
    }
}

fn answer(header: &DecodedHeader) -> rows::Header {
    let mut rows = Vec::new();
    push_rows(&header.params, 0, &mut rows);
    rows::Header {
        number: number(&header.header_text),
        key: header.header_key,
        flags: [header.is_ack, header.is_routed, header.is_multicast, header.is_error],
        payload_offset: header.payload_offset,
        checksum_is_right: header.crc_ok,
        rows,
    }
}

/// H19: a row, and behind it those of what is inside. `parent`: its row + 1, or 0.
fn push_rows(params: &[DecodedParam], parent: u64, rows: &mut Vec<rows::HeaderRow>) {
    for param in params {
        rows.push([
            number(&param.text),
            parent,
            param.span.start_bit as u64,
            param.span.bits as u64,
            u64::from(param.value.is_some()),
            param.value.unwrap_or(0),
            param.symbol.as_deref().map_or(0, |symbol| number::<u64>(symbol) + 1),
        ]);
        push_rows(&param.children, rows.len() as u64, rows);
    }
}
