//! Requests about bits and checksums.

use crate::random::Random;
use crate::request::Request;

pub fn bits(random: &mut Random) -> Vec<u8> {
    let length = random.pick(&[0, 1, 2, 3, 8, 9, 10, 17, 40]);
    let bytes = random.bytes(length);
    let all = 8 * length;
    let place = match random.below(10) {
        0 => all as u64 + random.below(3) as u64,
        1 => u64::MAX - random.below(70) as u64,
        _ => random.below(all + 1) as u64,
    };
    let left = (all as u64).saturating_sub(place);
    let width = match random.below(10) {
        0 => random.pick(&[0, 1, 63, 64, 65, u64::MAX]),
        1..=2 => left + random.below(2) as u64,
        _ => random.below(left.clamp(1, 66) as usize) as u64,
    };
    Request::Bits { place, width, bytes }.line()
}

pub fn checksum(random: &mut Random) -> Vec<u8> {
    let length = random.pick(&[0, 1, 2, 3, 4, 12, 40]);
    let mut mpdu = random.bytes(length);
    let speed = random.pick(&[0, 1, 2, 3, 4, 255, u64::MAX]);
    if random.below(4) > 0 {
        mpdu.extend(checksum_of(speed, &mpdu));
    }
    if random.one_in(4) && !mpdu.is_empty() {
        let place = random.below(mpdu.len());
        mpdu[place] ^= 1 << random.below(8);
    }
    Request::Checksum { speed, mpdu }.line()
}

/// The bytes that make a message right at a speed.
pub fn checksum_of(speed: u64, message: &[u8]) -> Vec<u8> {
    match speed {
        0 | 1 => vec![message.iter().fold(0xFF, |sum, byte| sum ^ byte)],
        _ => crc(message).to_be_bytes().to_vec(),
    }
}

/// The checksum of two bytes: polynomial 0x1021 from 0x1D0F.
fn crc(bytes: &[u8]) -> u16 {
    bytes.iter().fold(0x1D0F, |crc, &byte| {
        (0..8).fold(crc ^ u16::from(byte) << 8, |crc, _| {
            if crc & 0x8000 == 0 { crc << 1 } else { crc << 1 ^ 0x1021 }
        })
    })
}
