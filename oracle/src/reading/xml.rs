//! FrameDefinition XML (X of docs/RULES.md and docs/XML.md): what is written for a frame text, as a tree, and what is
//! read of an XML, tag by tag.

use std::fmt::Write;

use crate::definition;
use crate::definition::frame::{Define, FrameDefinition, Param, TYPES};
use crate::refusal::Refusal;

/// X2: the XML of a text that is accepted and in plain form.
pub fn xml_of(text: &[u8]) -> Result<String, Refusal> {
    let definition: FrameDefinition = definition::read(text)?;
    if let Some(line) = out_of_order(text) {
        return Err(Refusal { number: 15, carried: line });
    }
    Ok(printed(&definition))
}

/// X2: the number of the first line that is out of plain form: an F, B, H or D behind a later one of these letters, a P
/// behind a V of the same H.
fn out_of_order(text: &[u8]) -> Option<usize> {
    let (mut group, mut after_validation) = (0, false);
    for (number, line) in (1..).zip(text.split_inclusive(|&byte| byte == b'\n')) {
        let own = b"FBHD".iter().position(|letter| *letter == line[0]);
        if own.is_some_and(|own| own < group) || line[0] == b'P' && after_validation {
            return Some(number);
        }
        group = own.unwrap_or(group);
        after_validation = line[0] == b'V';
    }
    None
}

/// An element: its name, its attributes and what it holds, none where it holds nothing ever.
struct Element {
    name: &'static str,
    attributes: Vec<(&'static str, String)>,
    inside: Option<Vec<Element>>,
}

fn printed(definition: &FrameDefinition) -> String {
    let mut elements = Vec::new();
    for frequency in &definition.radio_frequencies {
        let code = frequency.code.to_string();
        elements.push(Element {
            name: "RadioFrequency",
            attributes: vec![
                ("Code", code.clone()),
                ("BaseHeader", frequency.base_key.to_string()),
                ("Name", code.clone()),
                ("Text", code),
            ],
            inside: None,
        });
    }
    for base in &definition.base_headers {
        let key = base.key.to_string();
        elements.push(Element {
            name: "BaseHeader",
            attributes: vec![("Key", key.clone()), ("Name", key.clone()), ("Text", key)],
            inside: Some(params(&base.params)),
        });
    }
    for header in &definition.headers {
        let mut attributes = vec![("Key", header.key.to_string())];
        attributes.extend(header.base_key.map(|key| ("BaseHeaderKey", key.to_string())));
        attributes.push(("IsAck", header.is_ack.to_string()));
        attributes.push(("IsRouted", header.is_routed.to_string()));
        attributes.push(("IsMulticast", header.is_multicast.to_string()));
        attributes.push(("IsError", header.is_error.to_string()));
        attributes.push(("Name", header.name.clone()));
        attributes.push(("Text", header.name.clone()));
        let mut inside = params(&header.params);
        inside.extend(header.validations.iter().map(|validation| Element {
            name: "Validation",
            attributes: vec![
                ("ParamName", validation.path.clone()),
                ("ParamHexValue", format!("0x{:X}", validation.value)),
            ],
            inside: None,
        }));
        elements.push(Element { name: "Header", attributes, inside: Some(inside) });
    }
    for set in &definition.define_sets {
        let attributes = vec![("Name", set.name.clone())];
        let inside = Some(set.defines.iter().map(define).collect());
        elements.push(Element { name: "DefineSet", attributes, inside });
    }
    let mut xml = "<?xml version=\"1.0\" encoding=\"utf-8\"?>\n".to_string();
    let root = Element { name: "FrameDefinition", attributes: Vec::new(), inside: Some(elements) };
    print(&root, 0, &mut xml);
    xml
}

fn params(params: &[Param]) -> Vec<Element> {
    params.iter().map(param).collect()
}

fn param(param: &Param) -> Element {
    let of_type = |(_, meant): &&(&str, _)| *meant == param.param_type;
    let (word, _) = TYPES.iter().find(of_type).expect("every type has its word");
    let mut attributes = vec![
        ("Order", param.order.to_string()),
        ("Bits", param.bits.to_string()),
        ("Type", word.to_string()),
        ("Name", param.name.clone()),
    ];
    attributes.extend(param.defines.clone().map(|name| ("Defines", name)));
    attributes.extend(param.optional_path.clone().map(|path| ("OptRef", path)));
    attributes.extend(param.size_path.clone().map(|path| ("SizeRef", path)));
    attributes.push(("Text", param.name.clone()));
    Element { name: "Param", attributes, inside: Some(params(&param.params)) }
}

fn define(define: &Define) -> Element {
    let attributes = vec![
        ("Key", format!("0x{:X}", define.key)),
        ("Text", define.text.clone()),
        ("Name", define.text.clone()),
    ];
    Element { name: "Define", attributes, inside: None }
}

fn print(element: &Element, depth: usize, xml: &mut String) {
    let (blanks, name) = ("  ".repeat(depth), element.name);
    write!(xml, "{blanks}<{name}").expect("a string takes all");
    for (name, value) in &element.attributes {
        write!(xml, " {name}=\"{}\"", escaped(value)).expect("a string takes all");
    }
    match &element.inside {
        None => xml.push_str("/>\n"),
        Some(inside) => {
            xml.push_str(">\n");
            inside.iter().for_each(|element| print(element, depth + 1, xml));
            writeln!(xml, "{blanks}</{name}>").expect("a string takes all");
        }
    }
}

const ESCAPES: [(char, &str); 5] =
    [('&', "&amp;"), ('<', "&lt;"), ('>', "&gt;"), ('"', "&quot;"), ('\'', "&apos;")];

pub fn escaped(value: &str) -> String {
    let name_of = |byte| ESCAPES.iter().find(|(meant, _)| *meant == byte);
    value.chars().map(|byte| name_of(byte).map_or(byte.to_string(), |(_, name)| name.to_string())).collect()
}

// ---- reading

/// What an attribute of an element may say, and what becomes of it.
#[derive(Clone, Copy, PartialEq)]
enum Form {
    Words,
    Decimal,
    /// In hexadecimal or decimal, up to 2^32 - 1.
    Number,
    Flag,
    /// No line has a place for it.
    Dropped,
}

/// An attribute's name, its form, and whether it must be there.
type Attribute = (&'static str, Form, bool);

/// An element's name, its line's letter (0 where it has none), the elements that it stands in and its attributes, in the
/// order of the line's fields.
struct Kind {
    name: &'static str,
    letter: u8,
    owners: &'static [&'static str],
    attributes: &'static [Attribute],
}

const REFERENCE: &[Attribute] = &[("Ref", Form::Dropped, true)];

const fn reference(name: &'static str) -> Kind {
    Kind { name, letter: 0, owners: &["BaseHeader"], attributes: REFERENCE }
}

const ROOT: &str = "FrameDefinition";

const KINDS: &[Kind] = &[
    Kind { name: ROOT, letter: 0, owners: &[], attributes: &[] },
    Kind {
        name: "RadioFrequency",
        letter: b'F',
        owners: &[ROOT],
        attributes: &[
            ("Code", Form::Decimal, true),
            ("BaseHeader", Form::Decimal, true),
            ("Name", Form::Dropped, true),
            ("Text", Form::Dropped, true),
        ],
    },
    Kind {
        name: "BaseHeader",
        letter: b'B',
        owners: &[ROOT],
        attributes: &[
            ("Key", Form::Decimal, true),
            ("Name", Form::Dropped, true),
            ("Text", Form::Dropped, true),
        ],
    },
    Kind {
        name: "Header",
        letter: b'H',
        owners: &[ROOT],
        attributes: &[
            ("Key", Form::Decimal, true),
            ("BaseHeaderKey", Form::Decimal, false),
            ("IsAck", Form::Flag, false),
            ("IsRouted", Form::Flag, false),
            ("IsMulticast", Form::Flag, false),
            ("IsError", Form::Flag, false),
            ("Name", Form::Words, true),
            ("Text", Form::Dropped, true),
        ],
    },
    Kind {
        name: "Param",
        letter: b'P',
        owners: &["BaseHeader", "Header", "Param"],
        attributes: &[
            ("Order", Form::Decimal, true),
            ("Bits", Form::Decimal, true),
            ("Type", Form::Words, true),
            ("Name", Form::Words, true),
            ("Defines", Form::Words, false),
            ("OptRef", Form::Words, false),
            ("SizeRef", Form::Words, false),
            ("Text", Form::Dropped, true),
        ],
    },
    Kind {
        name: "Validation",
        letter: b'V',
        owners: &["Header"],
        attributes: &[("ParamName", Form::Words, true), ("ParamHexValue", Form::Number, true)],
    },
    Kind { name: "DefineSet", letter: b'D', owners: &[ROOT], attributes: &[("Name", Form::Words, true)] },
    Kind {
        name: "Define",
        letter: b'E',
        owners: &["DefineSet"],
        attributes: &[
            ("Key", Form::Number, true),
            ("Text", Form::Words, true),
            ("Name", Form::Dropped, true),
        ],
    },
    reference("HomeId"),
    reference("Source"),
    reference("HeaderType"),
    reference("IsLTX"),
    reference("SequenceNumber"),
];

/// The most Params inside one another.
const DEPTH: usize = 8;

/// An element as the line that it is: its letter, and its line.
type Line = (u8, Vec<u8>);

/// X1: the frame text that an XML says, or the place of the first byte that cannot be read on.
pub fn text_of(xml: &[u8]) -> Result<Vec<u8>, usize> {
    let mut lines: Vec<Line> = Vec::new();
    let mut open: Vec<&'static Kind> = Vec::new();
    let mut was_closed = false;
    let mut at = declaration(xml);
    while let Some(length) = tag_length(&xml[at..]) {
        let tag = &xml[at..at + length];
        let start = at + white(tag);
        match read_tag(tag).map_err(|place| at + place)? {
            Tag::End(kind) => {
                open.pop_if(|latest| latest.name == kind.name).ok_or(start)?;
                was_closed = open.is_empty();
            }
            Tag::Start(kind, fields, is_closed) => {
                let stands = match open.last() {
                    None => kind.name == ROOT && !was_closed,
                    Some(owner) => kind.owners.contains(&owner.name),
                };
                let level = open.iter().filter(|owner| owner.name == "Param").count();
                if !stands || kind.name == "Param" && level == DEPTH {
                    return Err(start);
                }
                if kind.letter != 0 {
                    lines.push((kind.letter, line(kind, level, fields)));
                }
                match is_closed {
                    false => open.push(kind),
                    true => was_closed = open.is_empty(),
                }
            }
        }
        at += length + 1;
    }
    let rest = &xml[at..];
    if was_closed && white(rest) == rest.len() { Ok(arranged(&lines)) } else { Err(at + white(rest)) }
}

/// The length of the XML declaration that the XML starts with, if it does.
fn declaration(xml: &[u8]) -> usize {
    let Some(length) = tag_length(xml) else { return 0 };
    let tag = &xml[..length];
    let is_one = tag.starts_with(b"<?xml") && tag.get(5).is_some_and(is_white) && tag.ends_with(b"?");
    if is_one { length + 1 } else { 0 }
}

/// How many bytes stand before the first `>` that is not in double quotes.
fn tag_length(rest: &[u8]) -> Option<usize> {
    let mut in_quotes = false;
    rest.iter().position(|&byte| {
        in_quotes ^= byte == b'"';
        byte == b'>' && !in_quotes
    })
}

fn is_white(byte: &u8) -> bool {
    matches!(byte, b' ' | b'\t' | b'\n' | b'\r')
}

/// How many white bytes stand at the front.
fn white(bytes: &[u8]) -> usize {
    bytes.iter().take_while(|byte| is_white(byte)).count()
}

enum Tag {
    End(&'static Kind),
    /// With what its attributes say, each in its place among the kind's, and whether it is its end too.
    Start(&'static Kind, Vec<Option<Vec<u8>>>, bool),
}

/// A tag without its `>`, or where in it the fault is.
fn read_tag(tag: &[u8]) -> Result<Tag, usize> {
    let start = white(tag);
    let body = tag[start..].strip_prefix(b"<").ok_or(start)?;
    if let Some(name) = body.strip_prefix(b"/") {
        let (kind, rest) = named(name).ok_or(start)?;
        return if white(rest) == rest.len() { Ok(Tag::End(kind)) } else { Err(start) };
    }
    let (kind, rest) = named(body).ok_or(start)?;
    let pieces: Vec<&[u8]> = rest.split(|&byte| byte == b'"').collect();
    let names: Vec<&[u8]> = pieces.iter().step_by(2).map(|piece| attribute_name(piece)).collect();
    let mut fields = vec![None; kind.attributes.len()];
    let mut at = tag.len() - rest.len();
    let (end, attributes) = pieces.split_last().expect("one piece at least");
    for (number, pair) in attributes.chunks(2).enumerate() {
        let (piece, value) = (pair[0], pair[1]);
        let place = kind.attributes.iter().position(|(name, ..)| name.as_bytes() == names[number]);
        let comes_again = names[number + 1..names.len() - 1].contains(&names[number]);
        let place = place.filter(|_| is_attribute(piece) && !comes_again).ok_or(at)?;
        let (_, form, is_required) = kind.attributes[place];
        let says = said(form, value).filter(|says| is_required || says != b"-");
        fields[place] = Some(says.ok_or(at + piece.len() + 1)?);
        at += piece.len() + value.len() + 2;
    }
    let end = &end[white(end)..];
    if !matches!(end, b"" | b"/") {
        return Err(at);
    }
    let is_missing = |(attribute, field): (&Attribute, &Option<Vec<u8>>)| attribute.2 && field.is_none();
    if kind.attributes.iter().zip(&fields).any(is_missing) {
        return Err(start);
    }
    Ok(Tag::Start(kind, fields, end == b"/"))
}

/// The element whose name stands at the front, and the rest.
fn named(bytes: &[u8]) -> Option<(&'static Kind, &[u8])> {
    let (name, rest) = bytes.split_at(letters(bytes));
    KINDS.iter().find(|kind| kind.name.as_bytes() == name).map(|kind| (kind, rest))
}

fn letters(bytes: &[u8]) -> usize {
    bytes.iter().take_while(|byte| byte.is_ascii_alphabetic()).count()
}

fn attribute_name(piece: &[u8]) -> &[u8] {
    let rest = &piece[white(piece)..];
    &rest[..letters(rest)]
}

/// White space, letters, white space, `=`, white space.
fn is_attribute(piece: &[u8]) -> bool {
    let rest = &piece[white(piece)..];
    let rest = &rest[letters(rest)..];
    let rest = &rest[white(rest)..];
    white(piece) > 0 && rest.strip_prefix(b"=").is_some_and(|rest| white(rest) == rest.len())
}

/// What a value says in a line, `None` where it is not of the form.
fn said(form: Form, value: &[u8]) -> Option<Vec<u8>> {
    match form {
        Form::Words => unescaped(value).filter(|_| value.iter().all(|&byte| byte >= 0x20)),
        Form::Dropped => unescaped(value),
        Form::Decimal => decimal(value),
        Form::Number => number(value),
        Form::Flag => match value {
            b"true" | b"1" | b"True" | b"TRUE" | b"t" | b"Yes" | b"YES" | b"yes" | b"y" => Some(b"1".to_vec()),
            b"false" | b"0" | b"False" | b"FALSE" | b"f" | b"No" | b"NO" | b"no" | b"n" => Some(b"0".to_vec()),
            _ => None,
        },
    }
}

fn unescaped(value: &[u8]) -> Option<Vec<u8>> {
    let mut says = Vec::new();
    let mut rest = value;
    while let Some(&byte) = rest.first() {
        if byte == b'<' {
            return None;
        }
        let (meant, length) = match byte {
            b'&' => {
                let of_name = |(_, name): &&(char, &str)| rest.starts_with(name.as_bytes());
                let (meant, name) = ESCAPES.iter().find(of_name)?;
                (*meant as u8, name.len())
            }
            byte => (byte, 1),
        };
        says.push(meant);
        rest = &rest[length..];
    }
    Some(says)
}

/// Digits with leading zeros or without, perhaps behind a `+`.
fn decimal(value: &[u8]) -> Option<Vec<u8>> {
    let digits = value.strip_prefix(b"+").unwrap_or(value);
    if digits.is_empty() || !digits.iter().all(u8::is_ascii_digit) {
        return None;
    }
    let zeros = digits[..digits.len() - 1].iter().take_while(|&&digit| digit == b'0').count();
    Some(digits[zeros..].to_vec())
}

fn number(value: &[u8]) -> Option<Vec<u8>> {
    let after = &value[white(value)..];
    let behind = after.iter().rev().take_while(|byte| is_white(byte)).count();
    let spelled = &after[..after.len() - behind];
    let hex = spelled.strip_prefix(b"0x").or(spelled.strip_prefix(b"0X"));
    let number = match hex {
        Some(hex) => {
            let digits = hex.strip_prefix(b"+").unwrap_or(hex);
            let all_hex = !digits.is_empty() && digits.iter().all(u8::is_ascii_hexdigit);
            let digits = std::str::from_utf8(digits).ok().filter(|_| all_hex)?;
            u32::from_str_radix(digits, 16).ok()?
        }
        None => String::from_utf8(decimal(spelled)?).ok()?.parse().ok()?,
    };
    Some(number.to_string().into_bytes())
}

fn line(kind: &Kind, level: usize, fields: Vec<Option<Vec<u8>>>) -> Vec<u8> {
    let mut line = vec![kind.letter];
    if kind.letter == b'P' {
        line.extend(format!("\t{level}").bytes());
    }
    let mut after_flag = false;
    for ((_, form, _), says) in kind.attributes.iter().zip(fields) {
        let is_flag = *form == Form::Flag;
        if *form == Form::Dropped {
            continue;
        }
        if !(is_flag && after_flag) {
            line.push(b'\t');
        }
        let none = if is_flag { b"0" } else { b"-" };
        line.extend(says.unwrap_or(none.to_vec()));
        after_flag = is_flag;
    }
    line.push(b'\n');
    line
}

/// The lines in plain form.
fn arranged(lines: &[Line]) -> Vec<u8> {
    let mut blocks: Vec<Vec<&Line>> = Vec::new();
    for line in lines {
        match line.0 {
            b'F' | b'B' | b'H' | b'D' => blocks.push(vec![line]),
            _ => blocks.last_mut().expect("it stands in something").push(line),
        }
    }
    let mut text = Vec::new();
    for first in *b"FBHD" {
        for block in blocks.iter().filter(|block| block[0].0 == first) {
            for letter in [first, b'P', b'V', b'E'] {
                text.extend(block.iter().filter(|line| line.0 == letter).flat_map(|line| &line.1));
            }
        }
    }
    text
}
