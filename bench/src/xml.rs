//! `frame_text_to_xml` and `xml_to_frame_text` against zniff-rs's own schema, read by quick-xml with serde. The schema is not written by anything, so
//! what writing costs is held against that reading too.

use std::hint::black_box;

use oracle::limits;
use oracle::source::xml::text_of;
use zniff_core::decoder::frame_definition::schema;

use crate::clock::{self, Side};
use crate::{frames, ours, stack, texts};

/// The lengths of texts, by which their time is seen to grow.
const LENGTHS: [usize; 4] = [1_000, 4_000, 16_000, limits::TEXT];

pub fn run() {
    let text = plain(frames::TEXT);
    let xml = ours::xml_of(&text);
    assert_eq!(text, ours::text_of(&xml), "another text comes back");
    assert_eq!(Some(&text), text_of(xml.as_bytes()).as_ref(), "zniff-rs reads another text");
    println!("\nBoth sides read the same text out of the XML.");
    println!("\n{} of a text of {} bytes, an XML of {}", clock::unit(), text.len(), xml.len());
    let [read, written, rust] = clock::time([reading(&xml), writing(&text), rust(&xml)]);
    println!("quick-xml with serde: {:.0}", rust.median());
    println!("XML to text: {:.0}, of that {:.2}", read.median(), read.ratio_to(&rust));
    println!("text to XML: {:.0}, of that {:.2}", written.median(), written.ratio_to(&rust));
    grow();
    let most = [stack_taken(ours::tap_xml_to_frame_text as *const (), xml.as_bytes()), stack_taken(ours::tap_frame_text_to_xml as *const (), &text)];
    println!("\nstack of tap_xml_to_frame_text: {} bytes, of tap_frame_text_to_xml: {}", most[0], most[1]);
}

/// The lines of an accepted text in plain form.
fn plain(text: &[u8]) -> Vec<u8> {
    let mut blocks: Vec<Vec<&[u8]>> = Vec::new();
    for line in text.split_inclusive(|&byte| byte == b'\n') {
        if b"FBHD".contains(&line[0]) {
            blocks.push(Vec::new());
        }
        blocks.last_mut().expect("an owner").push(line);
    }
    blocks.sort_by_key(|block| b"FBHD".iter().position(|letter| *letter == block[0][0]));
    blocks.iter_mut().for_each(|block| block.sort_by_key(|line| line[0] == b'V'));
    blocks.concat().concat()
}

/// How our time grows with the text.
fn grow() {
    let texts = LENGTHS.map(|length| plain(&texts::frame(length, 0)));
    let xmls = texts.each_ref().map(|text| ours::xml_of(text));
    let read = clock::time(xmls.each_ref().map(|xml| reading(xml)));
    let written = clock::time(texts.each_ref().map(|text| writing(text)));
    println!("\n bytes of text, of XML  XML to text, a byte of XML against the first  text to XML, a byte of text against the first");
    for i in 0..LENGTHS.len() {
        let grown = |lengths: [usize; 2]| lengths[1] as f64 / lengths[0] as f64;
        let reading = read[i].ratio_to(&read[0]) / grown([xmls[0].len(), xmls[i].len()]);
        let writing = written[i].ratio_to(&written[0]) / grown([texts[0].len(), texts[i].len()]);
        println!("{:14}  {:6}  {reading:44.2}  {writing:45.2}", texts[i].len(), xmls[i].len());
    }
}

fn reading(xml: &str) -> Side<'_> {
    let mut text = vec![0; limits::TEXT];
    clock::side(move || _ = black_box(ours::read_xml(black_box(xml), &mut text)))
}

fn writing(text: &[u8]) -> Side<'_> {
    let mut xml = vec![0; ours::XML];
    clock::side(move || _ = black_box(ours::write_xml(black_box(text), &mut xml)))
}

fn rust(xml: &str) -> Side<'_> {
    clock::side(move || _ = black_box(schema::oracle::read(black_box(xml))))
}

fn stack_taken(call: *const (), bytes: &[u8]) -> usize {
    let mut buffer = vec![0u8; ours::XML];
    let arguments = [bytes.as_ptr() as usize, bytes.len(), buffer.as_mut_ptr() as usize, buffer.len()];
    // SAFETY: as in `ours::read_xml` and `ours::write_xml`.
    unsafe { stack::taken(call, &arguments) }
}
