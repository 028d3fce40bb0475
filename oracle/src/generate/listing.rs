//! Listings of headers that are drawn for `header`: our own, another candidate's, and most of them damaged in one
//! number, one row, the last line or the form.

use super::header;
use crate::definition;
use crate::definition::frame::FrameDefinition;
use crate::random::Random;
use crate::reading::header::{candidate_rows, decode_header};
use crate::reading::listing::written;
use crate::request::Request;
use crate::rows::HeaderRow;

pub fn listing(random: &mut Random) -> Vec<u8> {
    let line = header::header(random);
    let Some(Request::Header { region, speed, text, mpdu, .. }) = Request::read(&line) else {
        unreachable!("a drawn request has the form of one");
    };
    let definition: FrameDefinition = definition::read(&text).unwrap_or_default();
    let rows_of = |number: u64| candidate_rows(&definition, &mpdu, region, speed, number);
    let ours = decode_header(&definition, &mpdu, region, speed).map(|ours| (ours.rows, ours.number as u64));
    let named = random.below(definition.headers.len() + 1) as u64;
    let (mut rows, mut number) = match (ours, random.below(6)) {
        (_, 0) => (rows_of(named).unwrap_or_default(), named),
        (Ok((_, number)), 1) => (rows_of(named).unwrap_or_default(), number),
        (Ok((rows, _)), 2) => (rows, named),
        (Ok(ours), _) => ours,
        (Err(_), _) => (rows_of(named).unwrap_or_default(), named),
    };
    match random.below(8) {
        0 | 1 => damage_number(random, &mut rows),
        2 => damage_rows(random, &mut rows),
        3 => number = random.pick(&[number + 1, number.wrapping_sub(1), 0, 63, 64, 256 + number, (1 << 32) + number, u64::MAX]),
        _ => {}
    }
    let mut listing = written(&rows, number);
    if random.one_in(4) {
        damage_form(random, &mut listing);
    }
    Request::Listing { region, speed, text, mpdu, listing }.line()
}

/// Another number in one column of one row.
fn damage_number(random: &mut Random, rows: &mut [HeaderRow]) {
    if rows.is_empty() {
        return;
    }
    let row = random.below(rows.len());
    let row = if random.one_in(3) { rows.len() - 1 } else { row };
    let number = &mut rows[row][random.below(7)];
    let bit = 1 << random.below(64);
    *number = random.pick(&[number.wrapping_add(1), number.wrapping_sub(1), *number ^ bit, 0, u64::MAX, number.wrapping_mul(10)]);
}

/// A row too few, too many, twice, or two of them the other way round.
fn damage_rows(random: &mut Random, rows: &mut Vec<HeaderRow>) {
    let at = random.below(rows.len() + 1);
    match random.below(6) {
        0 => {
            rows.pop();
        }
        1 => rows.truncate(at),
        2 => rows.push(std::array::from_fn(|_| random.pick(&[0, 1, 8, 64]))),
        3 if at < rows.len() => rows.insert(at, rows[at]),
        4 if at < rows.len() => {
            rows.remove(at);
        }
        _ if rows.len() > 1 => {
            let last = rows.len() - 1;
            rows.swap(at.min(last), last);
        }
        _ => {}
    }
}

/// One thing that is not of the form, mostly.
fn damage_form(random: &mut Random, listing: &mut Vec<u8>) {
    const NUMBERS: &[&str] = &["00", "01", "18446744073709551616", "99999999999999999999", "4 ", "+1", "-", "", "0x1", "1\t1", "1\r"];
    let at = random.below(listing.len() + 1);
    let starts: Vec<usize> = (0..listing.len()).filter(|&at| at == 0 || matches!(listing[at - 1], b'\t' | b'\n')).collect();
    match random.below(10) {
        0 => {
            listing.pop();
        }
        1 => listing.clear(),
        2 => listing.truncate(at),
        3 => listing.insert(at, b'\n'),
        4 => listing.insert(at, random.pick(b"\t\n 0 19-a\r\0")),
        5 if at < listing.len() => {
            listing.remove(at);
        }
        6 if at < listing.len() => listing[at] = random.byte(),
        7 => {
            let line = listing.iter().position(|&byte| byte == b'\n').map_or(0, |end| end + 1);
            listing.drain(..line);
        }
        _ => {
            let start = random.pick(&starts);
            let digits = listing[start..].iter().take_while(|byte| byte.is_ascii_digit()).count();
            listing.splice(start..start + digits, random.pick(NUMBERS).bytes());
        }
    }
}
