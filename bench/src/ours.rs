//! The static library's calls, as Rust sees them.

use zniff_core::pti::{Direction, PtiFrame};

use crate::frames;

/// The numbers of a frame's row.
const WIDTH: usize = 13;

/// More rows than a payload can need: a record with a frame has 22 bytes or more.
const ROWS: usize = 3_000;

/// More bytes than the XML of any text here has.
pub const XML: usize = 1 << 20;

/// How many totals there are.
pub const TOTALS: usize = 1_031;

/// `refusal` is 0 and `value` how many rows there are, or `refusal` is one of R1 to R9 of
/// docs/RULES.md and `value` what it carries.
#[repr(C)]
pub struct TapAnswer {
    refusal: u64,
    value: u64,
}

/// `is_read` says whether there is a value.
#[repr(C)]
pub struct TapBits {
    is_read: bool,
    value: u64,
}

unsafe extern "C" {
    /// A slice passes as its pointer and its length.
    pub fn tap_parse_payload(
        payload: *const u8,
        payload_length: usize,
        firmware: usize,
        family: bool,
        table: *mut u16,
        table_length: usize,
    ) -> TapAnswer;
    pub fn tap_add_payload(
        text: *const u8,
        text_length: usize,
        region: u64,
        firmware: usize,
        family: bool,
        payload: *const u8,
        payload_length: usize,
        totals: *mut [u64; TOTALS],
    ) -> TapAnswer;
    pub fn tap_frame_text_to_xml(text: *const u8, text_length: usize, buffer: *mut u8, buffer_length: usize) -> TapAnswer;
    pub fn tap_xml_to_frame_text(xml: *const u8, xml_length: usize, buffer: *mut u8, buffer_length: usize) -> TapAnswer;
    pub fn tap_check_frame_text(text: *const u8, text_length: usize) -> TapAnswer;
    pub fn tap_check_command_text(text: *const u8, text_length: usize) -> TapAnswer;
    fn tap_mask_nodes(mask: *const u8, mask_length: usize, nodes: *mut u16, nodes_length: usize) -> TapAnswer;
    fn tap_judge_listing(
        text: *const u8,
        text_length: usize,
        mpdu: *const u8,
        mpdu_length: usize,
        region: u64,
        speed: u64,
        listing: *const u8,
        listing_length: usize,
    ) -> TapAnswer;
    fn tap_write_listing(
        text: *const u8,
        text_length: usize,
        mpdu: *const u8,
        mpdu_length: usize,
        region: u64,
        speed: u64,
        buffer: *mut u8,
        buffer_length: usize,
    ) -> TapAnswer;
    fn tap_read_bits(data: *const u8, data_length: usize, start: u64, width: u64) -> TapBits;
}

/// Where a walk over loaded lines ends, and its rows.
#[repr(C)]
pub struct BenchWalked {
    pub bit: u64,
    pub rows: u64,
}

// The crate `bench_walks`: each call is made so many times. An answer is a number of rows, or 1,000
// and the refusal's number.
unsafe extern "C" {
    pub fn bench_decode_header(
        text: *const u8,
        text_length: usize,
        mpdu: *const u8,
        mpdu_length: usize,
        region: u64,
        speed: u64,
        rows: *mut u64,
        rows_length: usize,
        times: u64,
    ) -> u64;
    pub fn bench_decode_accepted(
        text: *const u8,
        text_length: usize,
        mpdu: *const u8,
        mpdu_length: usize,
        region: u64,
        speed: u64,
        rows: *mut u64,
        rows_length: usize,
        times: u64,
    ) -> u64;
    fn bench_find(
        text: *const u8,
        text_length: usize,
        region: u64,
        speed: u64,
        many: u64,
        times: u64,
    ) -> u64;
    fn bench_read_base(
        text: *const u8,
        text_length: usize,
        mpdu: *const u8,
        mpdu_length: usize,
        region: u64,
        speed: u64,
        times: u64,
    ) -> u64;
    fn bench_walk(
        text: *const u8,
        text_length: usize,
        mpdu: *const u8,
        mpdu_length: usize,
        fields: *const u64,
        fields_length: usize,
        first: usize,
        start: u64,
        scratch: *mut u64,
        scratch_length: usize,
        n: usize,
        times: u64,
    ) -> BenchWalked;
}

// The crate `bench_commands`: an answer is a number of rows, or a million and the refusal's number.
unsafe extern "C" {
    pub fn bench_decode_params(
        text: *const u8,
        text_length: usize,
        payload: *const u8,
        payload_length: usize,
        rows: *mut u64,
        rows_length: usize,
        times: u64,
    ) -> u64;
    pub fn bench_decode_params_accepted(
        text: *const u8,
        text_length: usize,
        payload: *const u8,
        payload_length: usize,
        rows: *mut u64,
        rows_length: usize,
        times: u64,
    ) -> u64;
}

// The crate `bench_values`: an answer is a text's length, or 100,000 and the refusal's number.
unsafe extern "C" {
    fn bench_header_value(
        text: *const u8,
        text_length: usize,
        mpdu: *const u8,
        mpdu_length: usize,
        region: u64,
        speed: u64,
        row: usize,
        buffer: *mut u8,
        buffer_length: usize,
        times: u64,
    ) -> u64;
}

unsafe extern "C" {
    fn bench_command_value(
        text: *const u8,
        text_length: usize,
        payload: *const u8,
        payload_length: usize,
        row: usize,
        buffer: *mut u8,
        buffer_length: usize,
        times: u64,
    ) -> u64;
}

/// A row of a command as people read it, so many times, into a buffer.
pub fn command_value(text: &[u8], payload: &[u8], row: usize, buffer: &mut [u8], times: u32) -> u64 {
    let (to, room) = (buffer.as_mut_ptr(), buffer.len());
    let (text, length) = (text.as_ptr(), text.len());
    let (payload, size, times) = (payload.as_ptr(), payload.len(), u64::from(times));
    // SAFETY: the slices are valid for the call, which writes inside the buffer alone.
    unsafe { bench_command_value(text, length, payload, size, row, to, room, times) }
}

/// A row of a header as people read it, so many times, into a buffer.
pub fn header_value(
    text: &[u8],
    mpdu: &[u8],
    region: u64,
    speed: u64,
    row: usize,
    buffer: &mut [u8],
    times: u32,
) -> u64 {
    let (to, room) = (buffer.as_mut_ptr(), buffer.len());
    let (text, length) = (text.as_ptr(), text.len());
    let (mpdu, size, times) = (mpdu.as_ptr(), mpdu.len(), u64::from(times));
    // SAFETY: the slices are valid for the call, which writes inside the buffer alone.
    unsafe { bench_header_value(text, length, mpdu, size, region, speed, row, to, room, times) }
}

/// A call for a command's parameters.
pub type DecodeParams =
    unsafe extern "C" fn(*const u8, usize, *const u8, usize, *mut u64, usize, u64) -> u64;

/// The parameters of a command, so many times, into a table.
pub fn decode_params(
    call: DecodeParams,
    text: &[u8],
    payload: &[u8],
    table: &mut [u64],
    times: u32,
) -> u64 {
    let (rows, room) = (table.as_mut_ptr(), table.len());
    let (text, length) = (text.as_ptr(), text.len());
    // SAFETY: the slices are valid for the call, which writes inside the table alone.
    unsafe { call(text, length, payload.as_ptr(), payload.len(), rows, room, u64::from(times)) }
}

/// A call for a header.
pub type Decode =
    unsafe extern "C" fn(*const u8, usize, *const u8, usize, u64, u64, *mut u64, usize, u64) -> u64;

/// What a call is made with: a text, an MPDU, its region and speed.
#[derive(Clone, Copy)]
pub struct Asked<'a> {
    pub text: &'a [u8],
    pub mpdu: &'a [u8],
    pub region: u64,
    pub speed: u64,
}

impl Asked<'_> {
    /// The header, so many times, into a table.
    pub fn decode(self, call: Decode, table: &mut [u64], times: u32) -> u64 {
        let Asked { text, mpdu, region, speed } = self;
        let (rows, room) = (table.as_mut_ptr(), table.len());
        let (text, length) = (text.as_ptr(), text.len());
        let times = u64::from(times);
        // SAFETY: the slices are valid for the call, which writes inside the table alone.
        unsafe { call(text, length, mpdu.as_ptr(), mpdu.len(), region, speed, rows, room, times) }
    }

    /// Finds the base header and so many candidates. Answers how many there are.
    pub fn find(self, many: usize, times: u32) -> u64 {
        let Asked { text, region, speed, .. } = self;
        // SAFETY: the slice is valid for the call, which only reads it.
        unsafe {
            bench_find(text.as_ptr(), text.len(), region, speed, many as u64, u64::from(times))
        }
    }

    /// Loads and walks the base header. Answers its rows.
    pub fn read_base(self, times: u32) -> u64 {
        let Asked { text, mpdu, region, speed } = self;
        let (text, length) = (text.as_ptr(), text.len());
        let times = u64::from(times);
        // SAFETY: the slices are valid for the call, which only reads them.
        unsafe { bench_read_base(text, length, mpdu.as_ptr(), mpdu.len(), region, speed, times) }
    }

    /// Walks loaded lines from the line `first` on, from where another walk ended.
    pub fn walk(
        self,
        fields: &[u64],
        first: usize,
        from: &BenchWalked,
        scratch: &mut [u64],
        times: u32,
    ) -> BenchWalked {
        // SAFETY: the slices are valid for the call, which writes inside the scratch table alone.
        unsafe {
            bench_walk(
                self.text.as_ptr(),
                self.text.len(),
                self.mpdu.as_ptr(),
                self.mpdu.len(),
                fields.as_ptr(),
                fields.len(),
                first,
                from.bit,
                scratch.as_mut_ptr(),
                scratch.len(),
                from.rows as usize,
                u64::from(times),
            )
        }
    }
}

/// A check of definition texts.
pub type Check = unsafe extern "C" fn(*const u8, usize) -> TapAnswer;

/// What the check says of a text: 0 and 0, or the refusal's number and the line.
#[inline]
pub fn verdict(check: Check, text: &[u8]) -> (u64, u64) {
    // SAFETY: the slice is valid for the call, which only reads it.
    let answer = unsafe { check(text.as_ptr(), text.len()) };
    (answer.refusal, answer.value)
}

/// The number that so many bits form from the bit `start` on, if they are read.
#[inline]
pub fn read_bits(data: &[u8], start: u64, width: u64) -> Option<u64> {
    // SAFETY: the slice is valid for the call, which only reads it.
    let bits = unsafe { tap_read_bits(data.as_ptr(), data.len(), start, width) };
    bits.is_read.then_some(bits.value)
}

/// What is said of a listing: 0 and the line that differs, 0 for none, or the refusal's number and what it carries.
#[inline]
pub fn judge_listing(asked: Asked, listing: &[u8]) -> (u64, u64) {
    let Asked { text, mpdu, region, speed } = asked;
    let (text, length) = (text.as_ptr(), text.len());
    let (listing, listed) = (listing.as_ptr(), listing.len());
    // SAFETY: the slices are valid for the call, which only reads them.
    let answer = unsafe {
        tap_judge_listing(text, length, mpdu.as_ptr(), mpdu.len(), region, speed, listing, listed)
    };
    (answer.refusal, answer.value)
}

/// Our own listing into a buffer with room for it. Answers its length.
#[inline]
pub fn write_listing(asked: Asked, buffer: &mut [u8]) -> usize {
    let Asked { text, mpdu, region, speed } = asked;
    let (text, length) = (text.as_ptr(), text.len());
    let (buffer, room) = (buffer.as_mut_ptr(), buffer.len());
    // SAFETY: the slices are valid for the call, which writes inside the buffer alone.
    let answer = unsafe {
        tap_write_listing(text, length, mpdu.as_ptr(), mpdu.len(), region, speed, buffer, room)
    };
    answer.value as usize
}

/// How many nodes a mask addresses: all that a table of none is told.
#[inline]
pub fn count_nodes(mask: &[u8]) -> usize {
    // SAFETY: the slices are valid for the call, which writes nothing into a table of no nodes.
    let answer = unsafe { tap_mask_nodes(mask.as_ptr(), mask.len(), [].as_mut_ptr(), 0) };
    answer.value as usize
}

/// The nodes of a mask into a table with room for them. Answers how many.
#[inline]
pub fn mask_nodes(mask: &[u8], nodes: &mut [u16]) -> usize {
    // SAFETY: both slices are valid for the call, which writes inside the table alone.
    let answer = unsafe { tap_mask_nodes(mask.as_ptr(), mask.len(), nodes.as_mut_ptr(), nodes.len()) };
    answer.value as usize
}

/// The firmware whose payloads zniff-rs reads.
pub const FIRMWARE: usize = 2;

/// A table for any payload.
pub fn table() -> Vec<u16> {
    vec![0; ROWS * WIDTH]
}

/// Every frame of a payload into the table, with beams as a family of their own or, as zniff-rs has them, not.
#[inline]
pub fn parse_payload(payload: &[u8], family: bool, table: &mut [u16]) -> TapAnswer {
    let (at, length) = (payload.as_ptr(), payload.len());
    // SAFETY: both slices are valid for the call, which writes inside the table alone.
    unsafe { tap_parse_payload(at, length, FIRMWARE, family, table.as_mut_ptr(), table.len()) }
}

/// Adds a payload to totals, by the text of `frames`.
pub fn add_payload(payload: &[u8], totals: &mut [u64; TOTALS]) {
    let (text, region) = (frames::TEXT, u64::from(frames::REGION));
    let (at, length) = (payload.as_ptr(), payload.len());
    // SAFETY: text, payload and totals are valid for the call, which writes to the totals alone.
    let answer = unsafe { tap_add_payload(text.as_ptr(), text.len(), region, FIRMWARE, false, at, length, totals) };
    assert_eq!(0, answer.refusal, "refused, carrying {}", answer.value);
}

/// Writes a text as XML, and tells its length.
pub fn write_xml(text: &[u8], buffer: &mut [u8]) -> usize {
    // SAFETY: text and buffer are valid for the call, which writes to the buffer alone.
    let answer = unsafe { tap_frame_text_to_xml(text.as_ptr(), text.len(), buffer.as_mut_ptr(), buffer.len()) };
    assert_eq!(0, answer.refusal, "refused, carrying {}", answer.value);
    answer.value as usize
}

/// Writes the text that an XML says, and tells its length.
pub fn read_xml(xml: &str, buffer: &mut [u8]) -> usize {
    // SAFETY: as above.
    let answer = unsafe { tap_xml_to_frame_text(xml.as_ptr(), xml.len(), buffer.as_mut_ptr(), buffer.len()) };
    assert_eq!(0, answer.refusal, "refused, carrying {}", answer.value);
    answer.value as usize
}

/// The XML of a text.
pub fn xml_of(text: &[u8]) -> String {
    let mut xml = vec![0; XML];
    let length = write_xml(text, &mut xml);
    String::from_utf8(xml[..length].to_vec()).expect("names are ASCII")
}

/// The text of an XML.
pub fn text_of(xml: &str) -> Vec<u8> {
    let mut text = vec![0; XML];
    let length = read_xml(xml, &mut text);
    text[..length].to_vec()
}

/// Every frame of a payload, as zniff-rs has it.
pub fn frames(payload: &[u8]) -> Vec<PtiFrame> {
    let mut table = table();
    let answer = parse_payload(payload, false, &mut table);
    assert_eq!(0, answer.refusal, "refused, carrying {}", answer.value);
    let (rows, _) = table.as_chunks();
    rows[..answer.value as usize].iter().map(|row| frame(payload, *row)).collect()
}

fn frame(payload: &[u8], row: [u16; WIDTH]) -> PtiFrame {
    let [direction, region, channel, speed, rssi, beams, start, length, ..] = row;
    let byte = |number| u8::try_from(number).expect("a byte's number");
    PtiFrame {
        direction: if direction == 0 { Direction::Rx } else { Direction::Tx },
        region: byte(region),
        channel: byte(channel),
        speed: byte(speed),
        rssi: byte(rssi) as i8,
        beam_count: (beams != 0).then_some(beams),
        mpdu: payload[usize::from(start)..][..usize::from(length)].to_vec(),
    }
}
