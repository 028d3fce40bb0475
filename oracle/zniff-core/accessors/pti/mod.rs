/// Appended by the oracle's build: doors to what is private above.
pub mod oracle {
    /// Where the MPDU starts in the body of a record that is a frame.
    pub fn mpdu_start(data: &[u8]) -> usize {
        match data[0] {
            2 => super::DCH_LENGTH_VER2 + 1,
            _ => super::DCH_LENGTH_VER3 + 1,
        }
    }

    pub fn beam_count(frame_length: usize, data: &[u8]) -> u16 {
        super::beam_count(frame_length, data)
    }
}
