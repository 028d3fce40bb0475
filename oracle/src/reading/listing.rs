//! The second reading of W-211: LS1 to LS7 of docs/RULES.md, by numbers where the calls compare bytes.

use crate::definition::frame::FrameDefinition;
use crate::reading::header::{candidate_rows, decode_header};
use crate::refusal::Refusal;
use crate::rows::HeaderRow;

/// LS2: the rows of a listing, and the number on its last line; or the first line that is not of the form.
fn read(listing: &[u8]) -> Result<(Vec<HeaderRow>, u64), Refusal> {
    let wrong = |line: usize| Refusal { number: 16, carried: line };
    let mut lines: Vec<&[u8]> = listing.split(|&byte| byte == b'\n').collect();
    let behind = lines.pop().expect("what is split has a part");
    let ended = if behind.is_empty() { lines.pop() } else { None };
    let row = |(at, line): (usize, &&[u8])| {
        numbers(line).and_then(|numbers| numbers.try_into().ok()).ok_or(wrong(at + 1))
    };
    let rows: Vec<HeaderRow> = lines.iter().enumerate().map(row).collect::<Result<_, _>>()?;
    match ended.and_then(numbers).as_deref() {
        Some(&[number]) => Ok((rows, number)),
        _ => Err(wrong(lines.len() + 1)),
    }
}

/// Numbers parted by tabs, up to 2^64 - 1 and without leading zeros.
fn numbers(line: &[u8]) -> Option<Vec<u64>> {
    line.split(|&byte| byte == b'\t').map(number).collect()
}

fn number(field: &[u8]) -> Option<u64> {
    let is_plain = field.iter().all(u8::is_ascii_digit) && (field.len() == 1 || field.first() != Some(&b'0'));
    str::from_utf8(field).ok().filter(|_| is_plain)?.parse().ok()
}

/// LS4 to LS6: the first line that differs, if one does.
pub fn judge(
    definition: &FrameDefinition,
    mpdu: &[u8],
    region: u64,
    speed: u64,
    listing: &[u8],
) -> Result<Option<usize>, Refusal> {
    let ours = decode_header(definition, mpdu, region, speed)?;
    let (rows, number) = read(listing)?;
    let last = rows.len() + 1;
    let Some(lawful) = candidate_rows(definition, mpdu, region, speed, number) else {
        return Ok(Some(last));
    };
    let differing = (0..rows.len()).find(|&at| lawful.get(at) != Some(&rows[at]));
    let is_whole = rows.len() == lawful.len() && ours.number as u64 == number;
    Ok(differing.map(|at| at + 1).or((!is_whole).then_some(last)))
}

/// LS1: the listing of rows and of a header's number.
pub fn written(rows: &[HeaderRow], number: u64) -> Vec<u8> {
    let line = |row: &HeaderRow| row.map(|number| number.to_string()).join("\t") + "\n";
    (rows.iter().map(line).collect::<String>() + &format!("{number}\n")).into_bytes()
}
