/// Appended by the oracle's build: doors to what is private above.
pub mod oracle {
    pub fn read_bits(data: &[u8], start_bit: usize, bits: usize) -> Option<u64> {
        super::read_bits(data, start_bit, bits)
    }

    pub fn check_crc(mpdu: &[u8], crc_bytes: usize) -> bool {
        super::check_crc(mpdu, crc_bytes)
    }
}
