//! Records and payloads as they are built up, part by part.

/// Some channels with some regions, by the rate of the pair. A pair in no list has rate 0.
pub const PAIRS_BY_RATE: [&[(u8, u8)]; 4] = [
    &[(2, 1), (2, 2), (2, 12), (2, 15), (2, 14), (0, 0), (3, 1), (15, 15)],
    &[(1, 1), (1, 2), (1, 8), (1, 12), (1, 15)],
    &[(0, 1), (0, 15), (0, 7), (1, 7), (2, 7), (0, 10), (1, 10), (2, 10)],
    &[(3, 12), (3, 13), (3, 15), (0, 14), (1, 14)],
];

/// Channels with regions that take five bits to say, of every rate.
pub const PAIRS_OF_FIVE_BITS: &[(u8, u8)] =
    &[(2, 16), (1, 16), (0, 16), (3, 16), (0, 17), (1, 17), (2, 17), (3, 17), (0, 31)];

/// The longest body that a record can hold: its length byte counts two bytes more.
pub const LONGEST_BODY: usize = 253;

/// A record's body that is a frame, as long as nothing in it is spoilt.
#[derive(Debug, Clone)]
pub struct Body {
    pub version: u8,
    pub is_tx: bool,
    pub middle: Vec<u8>,
    pub tag: u8,
    pub rssi: u8,
    pub region: u8,
    pub channel: u8,
    pub protocol: u8,
    /// What stands where no rule looks: in the header, and as the trailer's last byte.
    pub filler: [u8; 18],
}

impl Body {
    pub fn new(version: u8, is_tx: bool, middle: Vec<u8>) -> Body {
        Body {
            version,
            is_tx,
            middle,
            tag: if is_tx { 0xFD } else { 0xF9 },
            rssi: 0x16,
            region: 1,
            channel: 0,
            protocol: 6,
            filler: [0x51; 18],
        }
    }

    pub fn header_length(&self) -> usize {
        if self.version == 2 { 12 } else { 19 }
    }

    pub fn trailer_length(&self) -> usize {
        if self.is_tx { 5 } else { 6 }
    }

    pub fn bytes(&self) -> Vec<u8> {
        let mut bytes = vec![self.version];
        bytes.extend(&self.filler[..self.header_length() - 2]);
        bytes.push(if self.is_tx { 0xFC } else { 0xF8 });
        bytes.extend(&self.middle);
        bytes.push(self.tag);
        if !self.is_tx {
            bytes.push(self.rssi);
        }
        bytes.extend([self.region, self.channel, self.protocol, self.filler[17]]);
        bytes
    }
}

/// A record: brackets, length byte, one byte that no rule looks at, and the body.
pub fn enclose(body: &[u8]) -> Vec<u8> {
    let n = u8::try_from(body.len() + 2).expect("a body of at most 253 bytes");
    let mut record = vec![0x5B, n, 0];
    record.extend(body);
    record.push(0x5D);
    record
}
