/// Appended by the oracle's build: doors to what is private above.
pub mod oracle {
    pub fn decode_params(cmd: &super::Cmd, data: &[u8]) -> (Vec<super::DecodedParam>, usize) {
        super::decode_params(cmd, data)
    }
}
