//! Frame texts to be written as XML, and XML to be read: the elements of a text in plain form as another maker may write
//! them, within what is read, and most of them with one thing that is not.

use super::texts::{damaged_frame_text, frametext, good_frame_text};
use super::values::room;
use crate::random::Random;
use crate::reading::xml::{escaped, text_of, xml_of};
use crate::request::Request;

/// A text that is mostly in plain form, and a buffer that mostly has room for its XML.
pub fn xml(random: &mut Random) -> Vec<u8> {
    let text = match random.below(20) {
        0..=11 => plain_text(random),
        12..=13 => good_frame_text(random),
        14..=15 => {
            let plain = plain_text(random);
            damaged_frame_text(random, &plain)
        }
        16..=18 => moved(random),
        _ => match Request::read(&frametext(random)) {
            Some(Request::Frametext { text }) => text,
            _ => unreachable!("a drawn request has the form of one"),
        },
    };
    let length = xml_of(&text).map_or(text.len(), |xml| xml.len());
    Request::Xml { cap: room(random, length), text }.line()
}

/// An XML that is mostly within what is read, and a buffer that mostly has room for its text.
pub fn unxml(random: &mut Random) -> Vec<u8> {
    let text = if random.one_in(4) { good_frame_text(random) } else { plain_text(random) };
    let mut root = tree(&text);
    let mistakes = random.pick(&[0, 0, 0, 1, 1, 2]);
    (0..mistakes).for_each(|_| mistake(random, &mut root));
    let mut xml = Vec::new();
    if random.one_in(2) {
        let declarations: &[&str] = &[
            "<?xml version=\"1.0\" encoding=\"utf-8\"?>",
            "<?xml version=\"1.0\"?>\r\n",
            "<?xml\tversion=\"1.0\" standalone=\"yes\" ?>",
        ];
        xml.extend(random.pick(declarations).bytes());
    }
    write(random, &root, &mut xml);
    xml.extend(blanks(random));
    if random.one_in(4) {
        damage(random, &mut xml);
    }
    let length = text_of(&xml).map_or(text.len(), |text| text.len());
    Request::Unxml { cap: room(random, length), xml }.line()
}

/// A good text with its lines in plain form, and some bytes in its names that XML has names for.
fn plain_text(random: &mut Random) -> Vec<u8> {
    let text = good_frame_text(random);
    let mut plain = Vec::new();
    for first in *b"FBHD" {
        let mut is_in = false;
        let mut block: Vec<&[u8]> = Vec::new();
        for line in text.split_inclusive(|&byte| byte == b'\n').chain([b"F".as_slice()]) {
            if b"FBHD".contains(&line[0]) {
                block.sort_by_key(|line| line[0] == b'V');
                block.drain(..).for_each(|line| plain.extend(line));
                is_in = line[0] == first && line.ends_with(b"\n");
                if is_in {
                    plain.extend(line);
                }
            } else if is_in {
                block.push(line);
            }
        }
    }
    for byte in &mut plain {
        if b"abc".contains(byte) && random.one_in(4) {
            *byte = random.pick(b"&<>\"'");
        }
    }
    plain
}

/// A text in plain form but for one line.
fn moved(random: &mut Random) -> Vec<u8> {
    let text = plain_text(random);
    let mut lines: Vec<&[u8]> = text.split_inclusive(|&byte| byte == b'\n').collect();
    if !lines.is_empty() {
        let line = lines.remove(random.below(lines.len()));
        lines.insert(random.below(lines.len() + 1), line);
    }
    lines.concat()
}

/// An element, its attributes as they will be written, and what it holds.
struct Element {
    name: Vec<u8>,
    attributes: Vec<(Vec<u8>, Vec<u8>)>,
    inside: Vec<Element>,
}

impl Element {
    fn new(name: &str) -> Element {
        Element { name: name.into(), attributes: Vec::new(), inside: Vec::new() }
    }

    fn with(mut self, name: &str, value: impl Into<Vec<u8>>) -> Element {
        self.attributes.push((name.into(), value.into()));
        self
    }

    /// It and all elements in it.
    fn count(&self) -> usize {
        1 + self.inside.iter().map(Element::count).sum::<usize>()
    }

    /// The element of that number among them.
    fn at(&mut self, number: usize) -> &mut Element {
        let mut left = number;
        if left == 0 {
            return self;
        }
        left -= 1;
        let mut place = 0;
        while left >= self.inside[place].count() {
            left -= self.inside[place].count();
            place += 1;
        }
        self.inside[place].at(left)
    }
}

/// The elements of a text of lines of the forms.
fn tree(text: &[u8]) -> Element {
    let mut root = Element::new("FrameDefinition");
    for line in text.split(|&byte| byte == b'\n').filter(|line| !line.is_empty()) {
        let fields: Vec<String> =
            line.split(|&byte| byte == b'\t').map(|field| String::from_utf8_lossy(field).into_owned()).collect();
        let field = |place: usize| escaped(&fields[place]);
        match line[0] {
            b'F' => root.inside.push(
                Element::new("RadioFrequency")
                    .with("Code", field(1))
                    .with("BaseHeader", field(2))
                    .with("Name", field(1))
                    .with("Text", field(1)),
            ),
            b'B' => root.inside.push(
                Element::new("BaseHeader").with("Key", field(1)).with("Name", field(1)).with("Text", ""),
            ),
            b'H' => {
                let mut header = Element::new("Header").with("Key", field(1)).with("Name", field(4)).with("Text", field(4));
                if fields[2] != "-" {
                    header = header.with("BaseHeaderKey", field(2));
                }
                for (name, flag) in ["IsAck", "IsRouted", "IsMulticast", "IsError"].iter().zip(fields[3].bytes()) {
                    header = header.with(name, [flag]);
                }
                root.inside.push(header);
            }
            b'P' => {
                let mut param = Element::new("Param").with("Order", field(2)).with("Bits", field(3));
                param = param.with("Type", field(4)).with("Name", field(5)).with("Text", field(5));
                for (name, place) in [("Defines", 6), ("OptRef", 7), ("SizeRef", 8)] {
                    if fields[place] != "-" {
                        param = param.with(name, field(place));
                    }
                }
                let mut owner = root.inside.last_mut().expect("an owner");
                for _ in 0..fields[1].parse().unwrap_or(0) {
                    let params = owner.inside.iter().rposition(|element| element.name == b"Param");
                    owner = &mut owner.inside[params.expect("a parent")];
                }
                owner.inside.push(param);
            }
            b'V' => {
                let validation = Element::new("Validation").with("ParamName", field(1)).with("ParamHexValue", field(2));
                root.inside.last_mut().expect("an owner").inside.push(validation);
            }
            b'D' => root.inside.push(Element::new("DefineSet").with("Name", field(1))),
            _ => {
                let define = Element::new("Define").with("Key", field(1)).with("Name", field(2)).with("Text", field(2));
                root.inside.last_mut().expect("an owner").inside.push(define);
            }
        }
    }
    root
}

const BLANKS: &[&str] = &["", "", "\n", "\n  ", " ", "\t", "\r\n", "\n\n    "];

fn blanks(random: &mut Random) -> Vec<u8> {
    random.pick(BLANKS).into()
}

/// Writes an element in one of the ways in which it may be written.
fn write(random: &mut Random, element: &Element, xml: &mut Vec<u8>) {
    xml.extend(blanks(random));
    xml.push(b'<');
    xml.extend(&element.name);
    let mut attributes: Vec<&(Vec<u8>, Vec<u8>)> = element.attributes.iter().collect();
    if random.one_in(2) {
        shuffle(random, &mut attributes);
    }
    for (name, value) in attributes {
        let is_flag = matches!(name.as_slice(), b"IsAck" | b"IsRouted" | b"IsMulticast" | b"IsError");
        if is_flag && value == b"0" && random.one_in(3) {
            continue;
        }
        xml.extend(random.pick(&[" ", " ", " ", "  ", "\n\t", "\r\n "]).bytes());
        xml.extend(name);
        xml.extend(random.pick(&["=", "=", "=", " =", "= ", "\t=\n"]).bytes());
        xml.push(b'"');
        xml.extend(respelled(random, name, value, &element.name));
        xml.push(b'"');
    }
    xml.extend(random.pick(&["", "", "", " ", "\n"]).bytes());
    let mut inside: Vec<Element> = Vec::new();
    if element.name == b"BaseHeader" {
        for name in ["HomeId", "Source", "HeaderType", "IsLTX", "SequenceNumber"] {
            if random.one_in(6) {
                inside.push(Element::new(name).with("Ref", random.pick(&["", "HomeId", "a.b", "&lt;", "\u{e9}"])));
            }
        }
    }
    let mut inside: Vec<&Element> = element.inside.iter().chain(&inside).collect();
    match random.below(4) {
        0 => shuffle(random, &mut inside),
        1 => inside.sort_by_key(|element| element.name.clone()),
        _ => {}
    }
    if inside.is_empty() && random.one_in(2) {
        xml.extend(b"/>");
        return;
    }
    xml.push(b'>');
    inside.into_iter().for_each(|element| write(random, element, xml));
    xml.extend(blanks(random));
    xml.extend(b"</");
    xml.extend(&element.name);
    xml.extend(random.pick(&["", "", "", " "]).bytes());
    xml.push(b'>');
}

fn shuffle<T>(random: &mut Random, all: &mut [T]) {
    for place in 1..all.len() {
        all.swap(place, random.below(place + 1));
    }
}

/// The value in another spelling that says the same, or another value of an attribute that is dropped.
fn respelled(random: &mut Random, name: &[u8], value: &[u8], element: &[u8]) -> Vec<u8> {
    let number: Option<u64> = std::str::from_utf8(value).ok().and_then(|value| value.parse().ok());
    match (name, number) {
        (b"IsAck" | b"IsRouted" | b"IsMulticast" | b"IsError", _) => match value {
            b"1" => random.pick(&["true", "1", "True", "TRUE", "t", "Yes", "YES", "yes", "y"]).into(),
            b"0" => random.pick(&["false", "0", "False", "FALSE", "f", "No", "NO", "no", "n"]).into(),
            other => other.to_vec(),
        },
        (b"ParamHexValue", Some(number)) => in_hex(random, number),
        (b"Key", Some(number)) if element == b"Define" => in_hex(random, number),
        (b"Code" | b"BaseHeader" | b"Key" | b"BaseHeaderKey" | b"Order" | b"Bits", Some(number)) => {
            let spelling = random.pick(&["", "", "", "0", "+", "+00"]);
            format!("{spelling}{number}").into_bytes()
        }
        (b"Text", _) if element != b"Define" && random.one_in(3) => dropped(random),
        (b"Name", _) if matches!(element, b"RadioFrequency" | b"BaseHeader" | b"Define") && random.one_in(3) => {
            dropped(random)
        }
        _ if random.one_in(2) => {
            // A raw `>` or `'` may stand in a value.
            let text = String::from_utf8_lossy(value).replace("&gt;", ">").replace("&apos;", "'");
            text.into_bytes()
        }
        _ => value.to_vec(),
    }
}

fn in_hex(random: &mut Random, number: u64) -> Vec<u8> {
    let spelled = match random.below(8) {
        0..=2 => format!("0x{number:X}"),
        3 => format!("0x{number:02x}"),
        4 => format!("0X{number:04X}"),
        5 => format!("0x+{number:x}"),
        6 => format!("{number}"),
        _ => format!("+0{number}"),
    };
    let (before, behind) = (random.pick(&["", "", "", " ", "\n\t"]), random.pick(&["", "", "", " ", "\r\n"]));
    format!("{before}{spelled}{behind}").into_bytes()
}

fn dropped(random: &mut Random) -> Vec<u8> {
    random.pick(&["", "-", "908.4 MHz (US)", "a\tb", "\u{e9}", ">", "&quot;&amp;", "/"]).into()
}

/// Something that is not read, or says what no line may, mostly.
fn mistake(random: &mut Random, root: &mut Element) {
    let number = random.below(root.count());
    let other = random.below(root.count());
    let element = root.at(number);
    let place = random.below(element.attributes.len() + 1);
    match random.below(12) {
        0 if place < element.attributes.len() => drop(element.attributes.remove(place)),
        1 if place < element.attributes.len() => {
            let again = element.attributes[place].clone();
            element.attributes.push(again);
        }
        2 => {
            let names = ["Foo", "Name", "Key", "xmlns", "Text", "Ref", "Defines", "name", "Order1"];
            element.attributes.push((random.pick(&names).into(), b"1".to_vec()));
        }
        3 => element.name = random.pick(&["Param", "Header", "Foo", "Define", "HomeId", "FrameDefinition", "a:b"]).into(),
        4 => {
            // Params inside one another, about as many as there may be.
            let mut inner = Vec::new();
            for _ in 0..random.from_to(6, 9) {
                let param = Element::new("Param").with("Order", "1").with("Bits", "8").with("Type", "HEX");
                let mut param = param.with("Name", "n").with("Text", "");
                param.inside = inner;
                inner = vec![param];
            }
            element.inside.extend(inner);
        }
        5 => {
            let inner = Element::new(random.pick(&["Param", "Header", "Validation", "Define", "HomeId", "Foo"]));
            element.inside.push(inner);
        }
        6 => {
            let moved = std::mem::take(&mut element.inside);
            root.at(other.min(number)).inside.extend(moved);
        }
        _ if place < element.attributes.len() => {
            let values: &[&[u8]] = &[
                b"", b"-", b"--", b"a&b", b"&nbsp;", b"&#65;", b"&amp", b"a<b", b"a\tb", b"\x7f", b"\xc3\xa9", b"\xff", b"256",
                b"255", b"65535", b"65536", b"4294967295", b"4294967296", b"0xFFFFFFFF", b"0x100000000", b"0x", b"+", b"-0",
                b"0xg", b" 1", b"1 ", b"\x0b1", b"tRue", b"true ", b"HEX", b"hex", b"a.b", b"a..b", b"00000000000000000000000001",
                b"99999999999999999999", b"0x00000000000000001", b"this name has more than forty bytes, that is forty-one",
            ];
            element.attributes[place].1 = random.pick(values).to_vec();
        }
        _ => element.attributes.push((b"Name".to_vec(), b"n".to_vec())),
    }
}

/// One damage to the XML as bytes.
fn damage(random: &mut Random, xml: &mut Vec<u8>) {
    const PIECES: &[&str] = &[
        "<!-- a -->", "<![CDATA[a]]>", "<!DOCTYPE a>", "<?a?>", "a", "\"", "'", "<", ">", "/", "&", "=", " ", "</Param>", "<Param/>",
        "</FrameDefinition>", "<FrameDefinition/>", "\u{feff}", "\0", "\u{e9}", "&amp;", "<?xml ?>",
    ];
    let at = random.below(xml.len() + 1);
    // About half of the places are the ends of tags.
    let ends: Vec<usize> = (0..xml.len()).filter(|&place| xml[place] == b'>').map(|place| place + 1).collect();
    let at = if random.one_in(2) && !ends.is_empty() { random.pick(&ends) } else { at };
    match random.below(8) {
        0 => xml.truncate(at),
        1 if at < xml.len() => drop(xml.remove(at)),
        2 if at < xml.len() => xml[at] = random.pick(b"\"'<>/&= aP\0\xff"),
        3 if at < xml.len() => xml[at] ^= 1 << random.below(8),
        4 => xml.insert(at, random.byte()),
        5 => xml.iter_mut().filter(|byte| **byte == b'"').take(2).for_each(|byte| *byte = b'\''),
        _ => drop(xml.splice(at..at, random.pick(PIECES).bytes())),
    }
}
