//! A frame definition as a text.

use crate::definition::frame::{
    BaseHeader, DefineSet, FrameDefinition, Header, Param, RadioFrequency, TYPES,
};
use crate::generate::texts::push_line;
use crate::random::Random;

/// A text that stands for this: lines of each kind in their order, the kinds mixed.
pub fn text(random: &mut Random, definition: &FrameDefinition) -> Vec<u8> {
    let mut text = Vec::new();
    let mut frequencies = definition.radio_frequencies.iter();
    let mut bases = definition.base_headers.iter();
    let mut headers = definition.headers.iter();
    let mut sets = definition.define_sets.iter();
    loop {
        let lengths = [frequencies.len(), bases.len(), headers.len(), sets.len()];
        let Some(kind) = weighted(random, &lengths) else {
            return text;
        };
        match kind {
            0 => frequencies.next().into_iter().for_each(|f| push_frequency(f, &mut text)),
            1 => bases.next().into_iter().for_each(|base| push_base(base, &mut text)),
            2 => headers.next().into_iter().for_each(|h| push_header(random, h, &mut text)),
            _ => sets.next().into_iter().for_each(|set| push_set(set, &mut text)),
        }
    }
}

/// A place, each as often as its weight says; none where all are 0.
fn weighted(random: &mut Random, weights: &[usize]) -> Option<usize> {
    let sum = weights.iter().sum();
    let mut left = if sum > 0 { random.below(sum) } else { return None };
    weights.iter().position(|&weight| {
        let is_here = left < weight;
        left = left.wrapping_sub(weight);
        is_here
    })
}

fn push_frequency(frequency: &RadioFrequency, text: &mut Vec<u8>) {
    push_line(&["F", &frequency.code.to_string(), &frequency.base_key.to_string()], text);
}

fn push_base(base: &BaseHeader, text: &mut Vec<u8>) {
    push_line(&["B", &base.key.to_string()], text);
    push_params(&base.params, 0, text, &mut |_| {});
}

/// Its V lines stand all before its P lines, or anywhere among them.
fn push_header(random: &mut Random, header: &Header, text: &mut Vec<u8>) {
    let key = header.base_key.map_or("-".to_string(), |key| key.to_string());
    let flags = [header.is_ack, header.is_routed, header.is_multicast, header.is_error];
    let flags: String = flags.map(|flag| if flag { '1' } else { '0' }).iter().collect();
    push_line(&["H", &header.key.to_string(), &key, &flags, &header.name], text);
    let mut left = header.validations.iter();
    let mut push_validation = |text: &mut Vec<u8>| {
        let validation = left.next();
        validation.inspect(|v| push_line(&["V", &v.path, &v.value.to_string()], text)).is_some()
    };
    let one_in = random.pick(&[1, 2, 4]);
    push_params(&header.params, 0, text, &mut |text| {
        while random.one_in(one_in) && push_validation(text) {}
    });
    while push_validation(text) {}
}

/// The P lines; `before` may put others before each.
fn push_params(
    params: &[Param],
    level: usize,
    text: &mut Vec<u8>,
    before: &mut impl FnMut(&mut Vec<u8>),
) {
    for param in params {
        before(text);
        let is_type = |(_, meant): &&(&str, _)| *meant == param.param_type;
        let (word, _) = TYPES.iter().find(is_type).expect("a word for every type");
        let or_missing = |field: &Option<String>| field.clone().unwrap_or("-".into());
        push_line(
            &[
                "P",
                &level.to_string(),
                &param.order.to_string(),
                &param.bits.to_string(),
                word,
                &param.name,
                &or_missing(&param.defines),
                &or_missing(&param.optional_path),
                &or_missing(&param.size_path),
            ],
            text,
        );
        push_params(&param.params, level + 1, text, before);
    }
}

fn push_set(set: &DefineSet, text: &mut Vec<u8>) {
    push_line(&["D", &set.name], text);
    set.defines.iter().for_each(|e| push_line(&["E", &e.key.to_string(), &e.text], text));
}
