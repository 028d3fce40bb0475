//! The Rust's own reader of XML, by its schema.

use zniff_core::decoder::frame_definition::schema::{self, FrameDefinition, Param};

use crate::definition::frame::TYPES;

/// The text in plain form that the Rust's schema reads out of an XML; `None` where it does not take the XML.
pub fn text_of(xml: &[u8]) -> Option<Vec<u8>> {
    let definition = schema::oracle::read(std::str::from_utf8(xml).ok()?).ok()?;
    Some(printed(&definition).into_bytes())
}

fn printed(definition: &FrameDefinition) -> String {
    let mut text = String::new();
    for frequency in &definition.radio_frequencies {
        text += &format!("F\t{}\t{}\n", frequency.code, frequency.base_header);
    }
    for base in &definition.base_headers {
        text += &format!("B\t{}\n", base.key);
        print_params(&base.params, 0, &mut text);
    }
    for header in &definition.headers {
        let base = header.base_header_key.map_or("-".to_string(), |key| key.to_string());
        let flags = [header.is_ack, header.is_routed, header.is_multicast, header.is_error];
        let flags: String = flags.map(|flag| if flag { '1' } else { '0' }).iter().collect();
        text += &format!("H\t{}\t{base}\t{flags}\t{}\n", header.key, header.name);
        print_params(&header.params, 0, &mut text);
        for validation in &header.validations {
            text += &format!("V\t{}\t{}\n", validation.param_name, validation.param_hex_value);
        }
    }
    for set in &definition.define_sets {
        text += &format!("D\t{}\n", set.name);
        for define in &set.defines {
            text += &format!("E\t{}\t{}\n", define.key, define.text);
        }
    }
    text
}

fn print_params(params: &[Param], level: usize, text: &mut String) {
    let or_none = |word: &Option<String>| word.clone().unwrap_or("-".to_string());
    for param in params {
        let of_type = |(_, meant): &&(&str, _)| *meant == param.param_type;
        let (kind, _) = TYPES.iter().find(of_type).expect("every type has its word");
        let (set, optional, size) = (or_none(&param.defines), or_none(&param.opt_ref), or_none(&param.size_ref));
        *text += &format!(
            "P\t{level}\t{}\t{}\t{kind}\t{}\t{set}\t{optional}\t{size}\n",
            param.order, param.bits, param.name
        );
        print_params(&param.params, level + 1, text);
    }
}
