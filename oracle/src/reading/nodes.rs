//! The second reading of W-202: BM1 to BM6 of docs/RULES.md.

use std::fmt::Write;

use zniff_core::decoder::command_class::schema::ParamType as ParameterType;
use zniff_core::decoder::frame_definition::schema::ParamType;

use crate::definition::command::CommandDefinition;
use crate::definition::frame::{FrameDefinition, Param};
use crate::reading;
use crate::reading::command::Offsets;
use crate::reading::values::params;
use crate::refusal::Refusal;
use crate::rows::CommandRow;

/// BM1: the nodes whose bits are set, the lowest bit of the first byte being node 1.
pub fn nodes(mask: &[u8]) -> Vec<usize> {
    (0..8 * mask.len()).filter(|bit| mask[bit / 8] & (1 << (bit % 8)) != 0).map(|bit| bit + 1).collect()
}

/// BM2: the bytes of row `row` of a header, if it is a BITMASK of whole bytes at a whole byte.
pub fn header_mask<'a>(
    definition: &FrameDefinition,
    mpdu: &'a [u8],
    region: u64,
    speed: u64,
    row: u64,
) -> Result<&'a [u8], Refusal> {
    let header = reading::header::decode_header(definition, mpdu, region, speed)?;
    let is_mask = |field: &[u64; 7]| {
        let line = definition.param_lines()[field[0] as usize];
        let param = param_at(definition, line).expect("a row has its P line");
        matches!(param.param_type, ParamType::Bitmask) && field[2] % 8 == 0 && field[3] % 8 == 0
    };
    let field = usize::try_from(row).ok().and_then(|row| header.rows.get(row));
    let field = field.filter(|field| is_mask(field)).ok_or(no_such_field(row))?;
    Ok(&mpdu[(field[2] / 8) as usize..((field[2] + field[3]) / 8) as usize])
}

/// BM2, BM6: the bytes of row `row` of a command, if it is a parameter of type BITMASK.
pub fn command_mask<'a>(
    definition: &CommandDefinition,
    payload: &'a [u8],
    offsets: Offsets,
    row: u64,
) -> Result<&'a [u8], Refusal> {
    let command = reading::command::decode_params(definition, payload, offsets)?;
    let is_mask = |row: &&CommandRow| {
        let param = params(definition).find(|param| param.line as u64 == row[1]);
        row[0] == 0 && param.is_some_and(|param| matches!(param.param_type, ParameterType::Bitmask))
    };
    let found = usize::try_from(row).ok().and_then(|row| command.rows.get(row));
    let found = found.filter(is_mask).ok_or(no_such_field(row))?;
    Ok(&payload[found[3] as usize..found[4] as usize])
}

/// BM3.
pub fn no_such_field(row: u64) -> Refusal {
    Refusal { number: 11, carried: row as usize }
}

/// BM4: the nodes, if a table of `cap` has room for them.
pub fn listed(word: &str, mask: &[u8], cap: u64) -> Result<String, Refusal> {
    let nodes = nodes(mask);
    if nodes.len() as u64 > cap {
        return Err(Refusal { number: 8, carried: nodes.len() });
    }
    let mut answer = format!("{word} {}", nodes.len());
    for node in nodes {
        write!(answer, " {node}").expect("a string takes all");
    }
    Ok(answer)
}

/// The P on a line.
pub fn param_at(definition: &FrameDefinition, line: usize) -> Option<&Param> {
    let bases = definition.base_headers.iter().map(|base| &base.params);
    let headers = definition.headers.iter().map(|header| &header.params);
    bases.chain(headers).find_map(|params| on_line(params, line))
}

fn on_line(params: &[Param], line: usize) -> Option<&Param> {
    params.iter().find_map(|param| {
        if param.line == line { Some(param) } else { on_line(&param.params, line) }
    })
}
