//! Answers that have rows, as H18, C16 and L3 of docs/RULES.md number them.

use std::fmt::{self, Display};

use crate::refusal::Refusal;

/// H18: the numbers of a field's row.
pub type HeaderRow = [u64; 7];

/// C16, L3: the numbers of a row. The Rust has the first nine.
pub type CommandRow = [u64; 10];

/// L3: which of them says how many bytes are lacking.
pub const LACKING: usize = 9;

/// H20: the answer, with its rows.
#[derive(Debug, Clone, PartialEq, Eq)]
pub struct Header {
    pub number: usize,
    pub key: u8,
    /// Ack, routed, multicast, error.
    pub flags: [bool; 4],
    pub payload_offset: usize,
    pub checksum_is_right: bool,
    pub rows: Vec<HeaderRow>,
}

/// C18: the answer, with its rows. It is shown without its word.
#[derive(Debug, Clone, PartialEq, Eq)]
pub struct Command {
    pub remainder: usize,
    pub rows: Vec<CommandRow>,
}

impl Display for Header {
    fn fmt(&self, f: &mut fmt::Formatter<'_>) -> fmt::Result {
        write!(f, "header {} {} ", self.number, self.key)?;
        for flag in self.flags {
            write!(f, "{}", u8::from(flag))?;
        }
        let check = u8::from(self.checksum_is_right);
        write!(f, " {} {check} {}", self.payload_offset, self.rows.len())?;
        write_rows(f, &self.rows)
    }
}

impl Display for Command {
    fn fmt(&self, f: &mut fmt::Formatter<'_>) -> fmt::Result {
        write!(f, "{} {}", self.rows.len(), self.remainder)?;
        write_rows(f, &self.rows)
    }
}

fn write_rows<const N: usize>(f: &mut fmt::Formatter<'_>, rows: &[[u64; N]]) -> fmt::Result {
    rows.iter().flatten().try_for_each(|number| write!(f, " {number}"))
}

/// R8: the answer does not fit into the table.
pub fn within_table<const N: usize>(rows: &[[u64; N]], cap: u64) -> Result<(), Refusal> {
    let needed = rows.len();
    if needed as u64 <= cap { Ok(()) } else { Err(Refusal { number: 8, carried: needed }) }
}
