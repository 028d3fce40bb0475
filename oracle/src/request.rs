//! The form of a request: words parted by one space. Numbers are plain decimal up to 2^64 - 1,
//! without leading zeros; bytes are pairs of lower-case hex digits, or `-` for none.

use crate::limits;
use crate::reading::command::Offsets;
use crate::reading::pti::{Beams, By};

/// A request that has the form of one.
#[derive(Debug, Clone, PartialEq, Eq)]
pub enum Request {
    Rate { channel: u64, region: u64 },
    Count { payload: Vec<u8> },
    Body { k: u64, payload: Vec<u8> },
    Record { body: Vec<u8> },
    Frames { cap: u64, payload: Vec<u8> },
    Frametable { cap: u64, payload: Vec<u8> },
    Recordby { by: By, body: Vec<u8> },
    Framesby { by: By, cap: u64, payload: Vec<u8> },
    Frametableby { by: By, cap: u64, payload: Vec<u8> },
    Frametext { text: Vec<u8> },
    Commandtext { text: Vec<u8> },
    Header { cap: u64, region: u64, speed: u64, text: Vec<u8>, mpdu: Vec<u8> },
    Command { cap: u64, text: Vec<u8>, payload: Vec<u8> },
    Commandby { offsets: Offsets, cap: u64, text: Vec<u8>, payload: Vec<u8> },
    Bits { place: u64, width: u64, bytes: Vec<u8> },
    Checksum { speed: u64, mpdu: Vec<u8> },
    Tidy { cap: u64, text: Vec<u8> },
    Headernodes { cap: u64, row: u64, region: u64, speed: u64, text: Vec<u8>, mpdu: Vec<u8> },
    Commandnodes { offsets: Offsets, cap: u64, row: u64, text: Vec<u8>, payload: Vec<u8> },
    Listing { region: u64, speed: u64, text: Vec<u8>, mpdu: Vec<u8>, listing: Vec<u8> },
    Headervalue { cap: u64, row: u64, region: u64, speed: u64, text: Vec<u8>, mpdu: Vec<u8> },
    Commandvalue { offsets: Offsets, cap: u64, row: u64, text: Vec<u8>, payload: Vec<u8> },
    Totals { start: u64, by: By, region: u64, text: Vec<u8>, payloads: Vec<Vec<u8>> },
    Xml { cap: u64, text: Vec<u8> },
    Unxml { cap: u64, xml: Vec<u8> },
}

impl Request {
    /// Reads a line, without its 0x0A; `None` where it is no request.
    pub fn read(line: &[u8]) -> Option<Request> {
        let mut words = Words(line.split(|&b| b == b' '));
        let request = match words.word()? {
            b"rate" => Request::Rate { channel: words.number()?, region: words.number()? },
            b"count" => Request::Count { payload: words.bytes()? },
            b"body" => Request::Body { k: words.number()?, payload: words.bytes()? },
            b"record" => Request::Record { body: words.bytes()? },
            b"frames" => Request::Frames { cap: words.cap()?, payload: words.bytes()? },
            b"frametable" => Request::Frametable { cap: words.cap()?, payload: words.bytes()? },
            b"recordby" => Request::Recordby { by: words.by()?, body: words.bytes()? },
            b"framesby" => Request::Framesby {
                by: words.by()?,
                cap: words.cap()?,
                payload: words.bytes()?,
            },
            b"frametableby" => Request::Frametableby {
                by: words.by()?,
                cap: words.cap()?,
                payload: words.bytes()?,
            },
            b"frametext" => Request::Frametext { text: words.bytes()? },
            b"commandtext" => Request::Commandtext { text: words.bytes()? },
            b"header" => Request::Header {
                cap: words.cap()?,
                region: words.number()?,
                speed: words.number()?,
                text: words.bytes()?,
                mpdu: words.bytes()?,
            },
            b"command" => Request::Command {
                cap: words.cap()?,
                text: words.bytes()?,
                payload: words.bytes()?,
            },
            b"commandby" => Request::Commandby {
                offsets: words.offsets()?,
                cap: words.cap()?,
                text: words.bytes()?,
                payload: words.bytes()?,
            },
            b"bits" => Request::Bits {
                place: words.number()?,
                width: words.number()?,
                bytes: words.bytes()?,
            },
            b"checksum" => Request::Checksum { speed: words.number()?, mpdu: words.bytes()? },
            b"tidy" => Request::Tidy { cap: words.buffer()?, text: words.bytes()? },
            b"headernodes" => Request::Headernodes {
                cap: words.cap()?,
                row: words.number()?,
                region: words.number()?,
                speed: words.number()?,
                text: words.bytes()?,
                mpdu: words.bytes()?,
            },
            b"commandnodes" => Request::Commandnodes {
                offsets: words.offsets()?,
                cap: words.cap()?,
                row: words.number()?,
                text: words.bytes()?,
                payload: words.bytes()?,
            },
            b"listing" => Request::Listing {
                region: words.number()?,
                speed: words.number()?,
                text: words.bytes()?,
                mpdu: words.bytes()?,
                listing: words.bytes()?,
            },
            b"headervalue" => Request::Headervalue {
                cap: words.buffer()?,
                row: words.number()?,
                region: words.number()?,
                speed: words.number()?,
                text: words.bytes()?,
                mpdu: words.bytes()?,
            },
            b"commandvalue" => Request::Commandvalue {
                offsets: words.offsets()?,
                cap: words.buffer()?,
                row: words.number()?,
                text: words.bytes()?,
                payload: words.bytes()?,
            },
            b"totals" => Request::Totals {
                start: words.number()?,
                by: words.by()?,
                region: words.number()?,
                text: words.bytes()?,
                payloads: words.all_bytes()?,
            },
            b"xml" => Request::Xml { cap: words.buffer()?, text: words.bytes()? },
            b"unxml" => Request::Unxml { cap: words.buffer()?, xml: words.bytes()? },
            _ => return None,
        };
        words.end()?;
        Some(request)
    }

    /// Its word, its numbers and its bytes, in the order of the line.
    fn parts(&self) -> (&'static str, Vec<u64>, Vec<&[u8]>) {
        match self {
            Request::Rate { channel, region } => ("rate", vec![*channel, *region], vec![]),
            Request::Count { payload } => ("count", vec![], vec![payload]),
            Request::Body { k, payload } => ("body", vec![*k], vec![payload]),
            Request::Record { body } => ("record", vec![], vec![body]),
            Request::Frames { cap, payload } => ("frames", vec![*cap], vec![payload]),
            Request::Frametable { cap, payload } => ("frametable", vec![*cap], vec![payload]),
            Request::Recordby { by, body } => ("recordby", by.numbers(), vec![body]),
            Request::Framesby { by, cap, payload } => {
                ("framesby", [by.numbers(), vec![*cap]].concat(), vec![payload])
            }
            Request::Frametableby { by, cap, payload } => {
                ("frametableby", [by.numbers(), vec![*cap]].concat(), vec![payload])
            }
            Request::Frametext { text } => ("frametext", vec![], vec![text]),
            Request::Commandtext { text } => ("commandtext", vec![], vec![text]),
            Request::Header { cap, region, speed, text, mpdu } => {
                ("header", vec![*cap, *region, *speed], vec![text, mpdu])
            }
            Request::Command { cap, text, payload } => ("command", vec![*cap], vec![text, payload]),
            Request::Commandby { offsets, cap, text, payload } => {
                ("commandby", vec![*offsets as u64, *cap], vec![text, payload])
            }
            Request::Bits { place, width, bytes } => ("bits", vec![*place, *width], vec![bytes]),
            Request::Checksum { speed, mpdu } => ("checksum", vec![*speed], vec![mpdu]),
            Request::Tidy { cap, text } => ("tidy", vec![*cap], vec![text]),
            Request::Headernodes { cap, row, region, speed, text, mpdu } => {
                ("headernodes", vec![*cap, *row, *region, *speed], vec![text, mpdu])
            }
            Request::Commandnodes { offsets, cap, row, text, payload } => {
                ("commandnodes", vec![*offsets as u64, *cap, *row], vec![text, payload])
            }
            Request::Listing { region, speed, text, mpdu, listing } => {
                ("listing", vec![*region, *speed], vec![text, mpdu, listing])
            }
            Request::Headervalue { cap, row, region, speed, text, mpdu } => {
                ("headervalue", vec![*cap, *row, *region, *speed], vec![text, mpdu])
            }
            Request::Commandvalue { offsets, cap, row, text, payload } => {
                ("commandvalue", vec![*offsets as u64, *cap, *row], vec![text, payload])
            }
            Request::Totals { start, by, region, text, payloads } => {
                let numbers = [vec![*start], by.numbers(), vec![*region]].concat();
                let texts = std::iter::once(text).chain(payloads).map(Vec::as_slice);
                ("totals", numbers, texts.collect())
            }
            Request::Xml { cap, text } => ("xml", vec![*cap], vec![text]),
            Request::Unxml { cap, xml } => ("unxml", vec![*cap], vec![xml]),
        }
    }

    /// The word that this request starts with.
    pub fn word(&self) -> &'static str {
        self.parts().0
    }

    /// The line of this request, without its 0x0A.
    pub fn line(&self) -> Vec<u8> {
        let (word, numbers, bytes) = self.parts();
        let mut line = word.to_string();
        for number in numbers {
            line.push(' ');
            line.push_str(&number.to_string());
        }
        for bytes in bytes {
            line.push(' ');
            push_hex(bytes, &mut line);
        }
        line.into_bytes()
    }
}

/// Writes bytes as a request and an answer have them.
pub fn push_hex(bytes: &[u8], out: &mut String) {
    const DIGITS: &[u8; 16] = b"0123456789abcdef";
    if bytes.is_empty() {
        out.push('-');
    }
    for byte in bytes {
        out.push(char::from(DIGITS[usize::from(byte >> 4)]));
        out.push(char::from(DIGITS[usize::from(byte & 15)]));
    }
}

/// The words of a line, taken one by one.
struct Words<W>(W);

impl<'a, W: Iterator<Item = &'a [u8]>> Words<W> {
    fn word(&mut self) -> Option<&'a [u8]> {
        self.0.next()
    }

    fn number(&mut self) -> Option<u64> {
        let word = self.word()?;
        if word.is_empty() || (word[0] == b'0' && word.len() > 1) {
            return None;
        }
        word.iter().try_fold(0u64, |value, digit| match digit {
            b'0'..=b'9' => value.checked_mul(10)?.checked_add(u64::from(digit - b'0')),
            _ => None,
        })
    }

    fn cap(&mut self) -> Option<u64> {
        self.number().filter(|&cap| cap <= limits::CAP)
    }

    /// `FIRMWARE READING`: the reading is 0 or 1.
    fn by(&mut self) -> Option<By> {
        let firmware = self.number()?;
        let beams = match self.number()? {
            0 => Beams::Marker,
            1 => Beams::Family,
            _ => return None,
        };
        Some(By { firmware, beams })
    }

    /// `MODE`: 0 or 1.
    fn offsets(&mut self) -> Option<Offsets> {
        match self.number()? {
            0 => Some(Offsets::Answered),
            1 => Some(Offsets::Position),
            _ => None,
        }
    }

    /// The length of a byte buffer.
    fn buffer(&mut self) -> Option<u64> {
        self.number().filter(|&cap| cap <= limits::BUFFER)
    }

    fn bytes(&mut self) -> Option<Vec<u8>> {
        bytes_of(self.word()?)
    }

    /// Those of all words that are left, of which there is one or more.
    fn all_bytes(&mut self) -> Option<Vec<Vec<u8>>> {
        let mut all = vec![self.bytes()?];
        while let Some(word) = self.word() {
            all.push(bytes_of(word)?);
        }
        Some(all)
    }

    fn end(&mut self) -> Option<()> {
        self.word().is_none().then_some(())
    }
}

fn bytes_of(word: &[u8]) -> Option<Vec<u8>> {
    if word == b"-" {
        return Some(Vec::new());
    }
    let (pairs, odd) = word.as_chunks::<2>();
    if pairs.is_empty() || !odd.is_empty() {
        return None;
    }
    pairs.iter().map(|&[high, low]| Some(digit(high)? << 4 | digit(low)?)).collect()
}

/// The value of a lower-case hex digit.
fn digit(byte: u8) -> Option<u8> {
    match byte {
        b'0'..=b'9' => Some(byte - b'0'),
        b'a'..=b'f' => Some(byte - b'a' + 10),
        _ => None,
    }
}
