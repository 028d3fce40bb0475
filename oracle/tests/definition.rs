//! The reader of definition texts: what it reads, and what it owes to the rules for every text.
//! Single texts and their answers are in ../vectors, to which `oracle/test` holds it as well.

use oracle::definition::command::{
    self, CmdItem, CommandDefinition, ItemKind, ParamItem, VariantGroup,
};
use oracle::definition::frame::{
    self, BaseHeader, Define, DefineSet, FrameDefinition, Header, RadioFrequency, Validation,
};
use oracle::definition::{Definition, read};
use oracle::generate::{Generator, good_command_text, good_frame_text};
use oracle::random::Random;
use oracle::refusal::Refusal;
use oracle::request::Request;
use serde::Deserialize;
use serde::de::IntoDeserializer;
use serde::de::value::Error;
use zniff_core::decoder::{command_class, frame_definition};

/// The words that the source's own reader of XML takes for a type, by its complaint of another.
fn words_of_source<'de, T: Deserialize<'de> + std::fmt::Debug>() -> Vec<String> {
    let complaint = T::deserialize(IntoDeserializer::<Error>::into_deserializer("?")).unwrap_err();
    let complaint = complaint.to_string();
    let (_, expected) = complaint.split_once("expected one of ").expect("a list of words");
    expected.split(", ").map(|word| word.trim_matches('`').to_string()).collect()
}

#[test]
fn types_are_spelled_as_in_the_source() {
    let words: Vec<&str> = frame::TYPES.iter().map(|(word, _)| *word).collect();
    assert_eq!(words_of_source::<frame_definition::schema::ParamType>(), words);
    for &(word, meant) in frame::TYPES {
        let word = IntoDeserializer::<Error>::into_deserializer(word);
        assert_eq!(Ok(meant), Deserialize::deserialize(word));
    }
    let words: Vec<&str> = command::TYPES.iter().map(|(word, _)| *word).collect();
    assert_eq!(words_of_source::<command_class::schema::ParamType>(), words);
    for &(word, meant) in command::TYPES {
        let word = IntoDeserializer::<Error>::into_deserializer(word);
        assert_eq!(Ok(meant), Deserialize::deserialize(word));
    }
}

#[test]
fn a_frame_text_is_read() {
    let param = |line, order, bits, name: &str| frame::Param {
        line,
        order,
        bits,
        param_type: frame_definition::schema::ParamType::Hex,
        name: name.into(),
        defines: None,
        optional_path: None,
        size_path: None,
        params: Vec::new(),
    };
    let text = "F\t1\t2\nB\t0\n\
        P\t0\t0\t8\tHEX\tHome\t-\t-\t-\n\
        P\t0\t1\t8\tHEX\tProps\t-\t-\t-\n\
        P\t1\t0\t4\tHEX\tType\tTypes\t-\t-\n\
        P\t2\t0\t1\tHEX\tTop\t-\t-\t-\n\
        P\t1\t1\t4\tHEX\tFlags\t-\t-\t-\n\
        D\tTypes\nE\t3\tThree\n\
        H\t7\t0\t1000\tone\nV\tProps.Type\t3\n\
        P\t0\t0\t8\tHEX\tData\t-\tProps.Flags\tHome\n\
        H\t8\t-\t0101\ttwo\n";
    let mut type_field = param(5, 0, 4, "Type");
    type_field.defines = Some("Types".into());
    type_field.params = vec![param(6, 0, 1, "Top")];
    let mut props = param(4, 1, 8, "Props");
    props.params = vec![type_field, param(7, 1, 4, "Flags")];
    let mut data = param(12, 0, 8, "Data");
    data.optional_path = Some("Props.Flags".into());
    data.size_path = Some("Home".into());
    let one = Header {
        line: 10,
        key: 7,
        base_key: Some(0),
        is_ack: true,
        is_routed: false,
        is_multicast: false,
        is_error: false,
        name: "one".into(),
        params: vec![data],
        validations: vec![Validation { line: 11, path: "Props.Type".into(), value: 3 }],
    };
    let two = Header {
        line: 13,
        key: 8,
        base_key: None,
        is_ack: false,
        is_routed: true,
        is_multicast: false,
        is_error: true,
        name: "two".into(),
        params: Vec::new(),
        validations: Vec::new(),
    };
    let expected = FrameDefinition {
        radio_frequencies: vec![RadioFrequency { line: 1, code: 1, base_key: 2 }],
        base_headers: vec![BaseHeader {
            line: 2,
            key: 0,
            params: vec![param(3, 0, 8, "Home"), props],
        }],
        headers: vec![one, two],
        define_sets: vec![DefineSet {
            line: 8,
            name: "Types".into(),
            defines: vec![Define { line: 9, key: 3, text: "Three".into() }],
        }],
    };
    assert_eq!(Ok(expected), read(text.as_bytes()));
}

#[test]
fn a_command_text_is_read() {
    use command_class::schema::ParamType;
    let text = "Q\t0\tBYTE\tCount\t-\t-\nT\t128\tMore\nS\t96\t5\tMode\nU\t31\t-\tKind\n\
        G\tgroup\t0\t31\t7\n\
        Q\t1\tCONST\tWhat\t0\t128\nK\t1\tOne\n\
        Q\t1\tARRAY\tName\t-\t1\nA\t4\t1\n\
        Q\t0\tVARIANT\tRest\t-\t-\nR\t255\t0\t-\t1\nM\t-\nM\t2\n";
    let name = |name: &str| name.to_string();
    let item = |line, kind| ParamItem { line, kind };
    let param =
        |line, param_type, name: &str, optional_offset, optional_mask, items| command::Param {
            line,
            param_type,
            name: name.into(),
            optional_offset,
            optional_mask,
            items,
        };
    let count = vec![
        item(2, ItemKind::BitFlag { mask: 128, name: name("More") }),
        item(3, ItemKind::BitField { mask: 96, shift: 5, name: name("Mode") }),
        item(4, ItemKind::FieldEnum { mask: 31, shift: 0, name: name("Kind") }),
    ];
    let what = vec![item(7, ItemKind::Const { value: 1, name: name("One") })];
    let array = vec![item(9, ItemKind::ArrayAttrib { length: 4, is_ascii: true })];
    let rest = vec![
        item(11, ItemKind::Variant { offset: 255, mask: 0, shift: 0, is_ascii: true }),
        item(12, ItemKind::BitMask { length: None }),
        item(13, ItemKind::BitMask { length: Some(2) }),
    ];
    let group = VariantGroup {
        line: 5,
        name: "group".into(),
        offset: 0,
        mask: 31,
        shift: 7,
        params: vec![
            param(6, ParamType::Const, "What", Some(0), Some(128), what),
            param(8, ParamType::Array, "Name", None, Some(1), array),
        ],
    };
    let expected = CommandDefinition {
        items: vec![
            CmdItem::Param(param(1, ParamType::Byte, "Count", None, None, count)),
            CmdItem::VariantGroup(group),
            CmdItem::Param(param(10, ParamType::Variant, "Rest", None, None, rest)),
        ],
    };
    assert_eq!(Ok(expected), read(text.as_bytes()));
}

#[test]
fn texts_that_are_drawn_good_are_accepted() {
    for stream in 0..20_000 {
        let text = good_frame_text(&mut Random::new(1, stream));
        assert_eq!(None, refusal::<FrameDefinition>(&text), "{}", text.escape_ascii());
        let text = good_command_text(&mut Random::new(1, stream));
        assert_eq!(None, refusal::<CommandDefinition>(&text), "{}", text.escape_ascii());
    }
}

#[test]
fn a_refusal_names_the_first_bad_line() {
    let generator = Generator::new(1, "frametext,commandtext").unwrap();
    let mut seen = [0; 4];
    for index in 0..40_000 {
        match Request::read(&generator.request(index).1) {
            Some(Request::Frametext { text }) => {
                seen[hold_to_lines::<FrameDefinition>(&text)] += 1;
            }
            Some(Request::Commandtext { text }) => {
                seen[hold_to_lines::<CommandDefinition>(&text)] += 1;
            }
            _ => panic!("another request"),
        }
    }
    assert!(seen.iter().all(|&count| count > 400), "{seen:?}");
}

/// What stands before the bad line is accepted; what stands behind it does not matter. Answers the
/// refusal's number, or 0.
fn hold_to_lines<D: Definition>(text: &[u8]) -> usize {
    let shown = || text.escape_ascii().to_string();
    let Some(refused) = refusal::<D>(text) else {
        return 0;
    };
    if refused.carried > 0 {
        let lines: Vec<&[u8]> = text.split_inclusive(|&byte| byte == b'\n').collect();
        let before = lines[..refused.carried - 1].concat();
        let with_it = lines[..refused.carried].concat();
        assert_eq!(None, refusal::<D>(&before), "{}", shown());
        assert_eq!(Some(refused), refusal::<D>(&with_it), "{}", shown());
    } else {
        assert_eq!(2, refused.number, "{}", shown());
        assert!(text.len() > 60_000, "{}", shown());
    }
    usize::from(refused.number)
}

fn refusal<D: Definition>(text: &[u8]) -> Option<Refusal> {
    read::<D>(text).err()
}
