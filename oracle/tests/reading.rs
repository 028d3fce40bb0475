//! The Rust against the second reading of document 01, and where the Rust has no answer.

use oracle::answer::full_answer;
use oracle::compare::agree;
use oracle::definition::command::CommandDefinition;
use oracle::definition::frame::{FrameDefinition, Param};
use oracle::definition::read;
use oracle::generate::Generator;
use oracle::reading::command::{Offsets, decode_params};
use oracle::reading::header::{Field, base_key, covered, decode_header, read_outer, value};
use oracle::request::Request;
use oracle::sample::OFFSETS;

#[test]
fn the_rust_answers_as_the_second_reading() {
    assert!(agree(
        &Generator::new(2, "header,command,commandby,record,recordby,frames,framesby,headervalue,commandvalue").unwrap(),
        100_000
    ));
}

/// Demand 2's domain ends where a size or a bit place does not fit into 64 bits: elsewhere the Rust
/// answers.
#[test]
fn the_rust_has_no_answer_where_a_size_passes_64_bits() {
    let generator = Generator::new(3, "header").unwrap();
    let mut past = 0;
    for index in 0..40_000 {
        let line = generator.request(index).1;
        let Some(Request::Header { region, speed, text, mpdu, .. }) = Request::read(&line) else {
            panic!("another request");
        };
        let definition = read::<FrameDefinition>(&text);
        let is_past = definition.is_ok_and(|d| passes_64_bits(&d, &mpdu, region, speed));
        assert_eq!(is_past, full_answer(&line).is_past_the_rust, "{}", line.escape_ascii());
        past += usize::from(is_past);
    }
    assert!(past > 200, "{past}");
}

/// Some field that is looked at would end past 2^64 - 1. Candidates behind the one that is answered
/// are not looked at.
fn passes_64_bits(definition: &FrameDefinition, mpdu: &[u8], region: u64, speed: u64) -> bool {
    let key = base_key(definition, region, speed);
    let base = definition.base_headers.iter().find(|base| base.key == key);
    let Some(base) = base.filter(|_| (2..=2_048).contains(&mpdu.len())) else {
        return false;
    };
    let mut fields = Vec::new();
    read_outer(&base.params, mpdu, &mut fields);
    let looked_at = match decode_header(definition, mpdu, region, speed) {
        Ok(answered) => answered.number + 1,
        Err(_) => definition.headers.len(),
    };
    let headers = definition.headers[..looked_at].iter();
    let mut candidates = headers.filter(|h| h.base_key == Some(key) && !h.validations.is_empty());
    ends_past_64_bits(&base.params, &fields, 0)
        || candidates.any(|header| {
            let mut fields = Vec::new();
            read_outer(&base.params, mpdu, &mut fields);
            let base_fields = fields.len();
            read_outer(&header.params, mpdu, &mut fields);
            ends_past_64_bits(&header.params, &fields, base_fields)
        })
}

/// The field that ends a list would itself end past 2^64 - 1. Those that were read before the list
/// are the first `before` of `fields`.
fn ends_past_64_bits(params: &[Param], fields: &[Field], before: usize) -> bool {
    let mut ordered: Vec<&Param> = params.iter().collect();
    ordered.sort_by_key(|param| param.order);
    let Some(param) = ordered.get(fields.len() - before) else {
        return false;
    };
    let is_wanted =
        param.optional_path.as_ref().is_none_or(|path| value(fields, path).unwrap_or(0) > 0);
    let size = param.size_path.as_ref().and_then(|path| value(fields, path)).unwrap_or(0);
    is_wanted && covered(fields) as u128 + 8 * u128::from(size) > u128::from(u64::MAX)
}

/// D1 to D3, worked out by hand: the line, start and end of each row of the first six texts of `OFFSETS`, by
/// position. An absent Q, then a group, before a length, a condition and a count.
#[test]
fn offsets_by_position_survive_what_is_absent() {
    type Rows = &'static [[u64; 3]];
    const ROWS: [Rows; 6] = [
        &[[1, 2, 3], [3, 3, 4], [4, 4, 6]],
        &[[1, 2, 3], [3, 3, 4], [4, 4, 5]],
        &[[1, 2, 3], [3, 3, 4], [4, 4, 5], [5, 4, 5], [4, 5, 6], [5, 5, 6]],
        &[[1, 2, 3], [2, 3, 4], [3, 3, 4], [2, 4, 5], [3, 4, 5], [4, 5, 6], [5, 6, 7]],
        &[[1, 2, 3], [2, 3, 4], [3, 3, 4], [2, 4, 5], [3, 4, 5], [4, 5, 6], [5, 6, 7]],
        &[[1, 2, 3], [2, 3, 4], [3, 3, 4], [2, 4, 5], [3, 4, 5], [4, 5, 6], [5, 6, 7], [6, 6, 7]],
    ];
    for ((text, payload), rows) in OFFSETS.iter().zip(ROWS) {
        let text = text.replace('|', "\t").into_bytes();
        let definition = read::<CommandDefinition>(&text).expect("an accepted text");
        let command = decode_params(&definition, payload, Offsets::Position).expect("an answer");
        let told: Vec<[u64; 3]> = command.rows.iter().map(|row| [row[1], row[3], row[4]]).collect();
        assert_eq!(rows, told, "{}", text.escape_ascii());
    }
}
