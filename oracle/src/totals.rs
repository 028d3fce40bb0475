//! The totals of a capture (TO of docs/RULES.md): the Rust parses each payload and decodes each frame, and this adds.

use std::collections::BTreeMap;

use crate::answer::{Answer, source_frames};
use crate::definition;
use crate::definition::frame::FrameDefinition;
use crate::limits::{self, within};
use crate::reading;
use crate::reading::pti::{By, Frame, region_bits};
use crate::refusal::Refusal;
use crate::request::push_hex;
use crate::rows::Header;
use crate::source;

/// TO5: the greatest total.
const MOST: u128 = (1 << 63) - 1;

/// TO1: what is counted, in the order of TO6.
#[derive(Debug, Clone, Copy, PartialEq, Eq, PartialOrd, Ord)]
enum Count {
    Key(u8, u8),
    Wrong,
    Beams,
    Repeats,
    Bytes,
    Refused(u8),
}

type Totals = BTreeMap<Count, u128>;

/// A run of payloads.
pub struct Run<'a> {
    pub start: u64,
    pub by: By,
    pub region: u64,
    pub text: &'a [u8],
    pub payloads: &'a [Vec<u8>],
}

/// Who parses and decodes.
#[derive(Clone, Copy, PartialEq, Eq)]
pub enum Reader {
    /// The Rust, where it can.
    Source,
    Reading,
}

impl Run<'_> {
    pub fn answer(&self, reader: Reader) -> Answer {
        let mut totals = all_at(self.start);
        let (mut line, mut is_past_the_rust) = ("totals".to_string(), false);
        for payload in self.payloads {
            let added = self.counts(payload, reader).and_then(|(counts, is_past)| {
                is_past_the_rust |= is_past;
                add(&mut totals, &counts)
            });
            line += &match added {
                Ok(()) => " ok".to_string(),
                Err(refusal) => format!(" {}:{}", refusal.number, refusal.carried),
            };
        }
        line.push(' ');
        push_hex(text(&totals).as_bytes(), &mut line);
        Answer { line, is_past_the_rust }
    }

    /// What the frames of a payload count, and whether the Rust has no answer for one of them; 13, 1 to 4.
    fn counts(&self, payload: &[u8], reader: Reader) -> Result<(Vec<(Count, u128)>, bool), Refusal> {
        region_bits(self.by.firmware)?;
        let definition: FrameDefinition = definition::read(self.text)?;
        within(limits::PAYLOAD, payload)?;
        let frames = match reader {
            Reader::Source if self.by == By::SOURCE => source_frames(u64::MAX, payload)?,
            _ => reading::pti::parse_payload(self.by, payload, u64::MAX)?,
        };
        let (mut counts, mut is_past) = (Vec::new(), false);
        for frame in frames {
            counts.push((Count::Bytes, frame.length as u128));
            match frame.beams {
                Some(repeats) => {
                    counts.extend([(Count::Beams, 1), (Count::Repeats, repeats as u128)]);
                }
                None => {
                    let mpdu = &payload[frame.start..frame.start + frame.length];
                    let (decoded, past) = self.decode(&definition, mpdu, &frame, reader);
                    is_past |= past;
                    counts.extend(of_header(decoded, frame.rate));
                }
            }
        }
        Ok((counts, is_past))
    }

    fn decode(
        &self,
        definition: &FrameDefinition,
        mpdu: &[u8],
        frame: &Frame,
        reader: Reader,
    ) -> (Result<Header, Refusal>, bool) {
        let rate = u64::from(frame.rate);
        let decoded = match reader {
            Reader::Source => source::header::decode_header(definition, mpdu, self.region, rate),
            Reader::Reading => None,
        };
        let is_past = reader == Reader::Source && decoded.is_none();
        let read = || reading::header::decode_header(definition, mpdu, self.region, rate);
        (decoded.unwrap_or_else(read), is_past)
    }
}

/// TO3: what a header counts, or its refusal.
fn of_header(decoded: Result<Header, Refusal>, rate: u8) -> Vec<(Count, u128)> {
    match decoded {
        Ok(header) if header.checksum_is_right => vec![(Count::Key(header.key, rate), 1)],
        Ok(header) => vec![(Count::Key(header.key, rate), 1), (Count::Wrong, 1)],
        Err(refusal) => vec![(Count::Refused(refusal.number), 1)],
    }
}

fn all_at(start: u64) -> Totals {
    let keys = (0..=u8::MAX).flat_map(|key| (0..4).map(move |rate| Count::Key(key, rate)));
    let others = [Count::Wrong, Count::Beams, Count::Repeats, Count::Bytes];
    let refused = (5..=7).map(Count::Refused);
    keys.chain(others).chain(refused).map(|count| (count, u128::from(start))).collect()
}

/// TO5: all counts, or none.
fn add(totals: &mut Totals, counts: &[(Count, u128)]) -> Result<(), Refusal> {
    let mut sums = totals.clone();
    for &(count, amount) in counts {
        *sums.get_mut(&count).expect("a total") += amount;
    }
    if sums.values().any(|&total| total > MOST) {
        return Err(Refusal { number: 10, carried: 0 });
    }
    *totals = sums;
    Ok(())
}

/// TO6: the page.
fn text(totals: &Totals) -> String {
    let line = |(&count, &total): (&Count, &u128)| match count {
        Count::Key(..) if total == 0 => String::new(),
        Count::Key(key, rate) => format!("key {key} {rate} {total}\n"),
        Count::Wrong => format!("wrong {total}\n"),
        Count::Beams => format!("beams {total}\n"),
        Count::Repeats => format!("repeats {total}\n"),
        Count::Bytes => format!("bytes {total}\n"),
        Count::Refused(number) => format!("refused {number} {total}\n"),
    };
    totals.iter().map(line).collect()
}
