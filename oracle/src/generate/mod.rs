//! Requests that follow from a seed: request `i` of a seed is always the same, whatever was drawn
//! before it.

mod bad;
mod bits;
mod cap;
mod command;
mod header;
mod listing;
mod nodes;
mod pti;
mod texts;
mod totals;
mod values;
mod xml;

use crate::random::Random;

pub use pti::{FAULTS, spoil};
pub use texts::{good_command_text, good_frame_text};

/// A kind of request, and how it is drawn.
pub struct Kind {
    pub name: &'static str,
    /// How often it comes, against the others.
    weight: usize,
    draw: fn(&mut Random) -> Vec<u8>,
}

/// Every kind: the request words, and lines that are no request.
pub const KINDS: &[Kind] = &[
    Kind { name: "rate", weight: 5, draw: pti::rate },
    Kind { name: "count", weight: 15, draw: pti::count },
    Kind { name: "body", weight: 15, draw: pti::body },
    Kind { name: "record", weight: 30, draw: pti::record },
    Kind { name: "frames", weight: 20, draw: pti::frames },
    Kind { name: "frametable", weight: 10, draw: pti::frametable },
    Kind { name: "recordby", weight: 30, draw: pti::recordby },
    Kind { name: "framesby", weight: 20, draw: pti::framesby },
    Kind { name: "frametableby", weight: 10, draw: pti::frametableby },
    Kind { name: "frametext", weight: 30, draw: texts::frametext },
    Kind { name: "commandtext", weight: 30, draw: texts::commandtext },
    Kind { name: "header", weight: 30, draw: header::header },
    Kind { name: "command", weight: 30, draw: command::command },
    Kind { name: "commandby", weight: 30, draw: command::commandby },
    Kind { name: "bits", weight: 15, draw: bits::bits },
    Kind { name: "checksum", weight: 15, draw: bits::checksum },
    Kind { name: "tidy", weight: 20, draw: texts::tidy },
    Kind { name: "headernodes", weight: 30, draw: nodes::headernodes },
    Kind { name: "commandnodes", weight: 30, draw: nodes::commandnodes },
    Kind { name: "listing", weight: 30, draw: listing::listing },
    Kind { name: "headervalue", weight: 30, draw: values::headervalue },
    Kind { name: "commandvalue", weight: 30, draw: values::commandvalue },
    Kind { name: "totals", weight: 30, draw: totals::totals },
    Kind { name: "xml", weight: 30, draw: xml::xml },
    Kind { name: "unxml", weight: 30, draw: xml::unxml },
    Kind { name: "bad", weight: 5, draw: bad::line },
];

/// What `today` stands for: what the replay program answers so far.
pub const TODAY: &str = "rate,count,body,record,frames,frametable,recordby,framesby,frametableby,frametext,commandtext,header,command,commandby,bits,checksum,tidy,headernodes,commandnodes,listing,headervalue,commandvalue,totals,xml,unxml,bad";

/// Draws requests of some kinds under a seed.
#[derive(Clone)]
pub struct Generator {
    seed: u64,
    kinds: Vec<&'static Kind>,
}

impl Generator {
    /// `names`: kinds parted by commas, or `today`.
    pub fn new(seed: u64, names: &str) -> Result<Generator, String> {
        let names = if names == "today" { TODAY } else { names };
        let kind_of = |name: &str| {
            KINDS.iter().find(|kind| kind.name == name).ok_or(format!("no kind of request: {name}"))
        };
        Ok(Generator { seed, kinds: names.split(',').map(kind_of).collect::<Result<_, _>>()? })
    }

    pub fn kinds(&self) -> &[&'static Kind] {
        &self.kinds
    }

    /// Request `index`: the place of its kind in `kinds`, and its line without its 0x0A.
    pub fn request(&self, index: u64) -> (usize, Vec<u8>) {
        let mut random = Random::new(self.seed, index);
        let mut left = random.below(self.kinds.iter().map(|kind| kind.weight).sum());
        let mut place = 0;
        while left >= self.kinds[place].weight {
            left -= self.kinds[place].weight;
            place += 1;
        }
        (place, (self.kinds[place].draw)(&mut random))
    }
}

/// Bytes that are often small, since some will be counts and sizes.
fn small_bytes(random: &mut Random, length: usize) -> Vec<u8> {
    let byte = |random: &mut Random| match random.below(8) {
        0..=3 => random.below(9) as u8,
        4 => random.pick(&[0, 1, 0x80, 0xFF]),
        _ => random.byte(),
    };
    (0..length).map(|_| byte(random)).collect()
}
