//! Requests about headers. A frame text is drawn around an MPDU: each P with a look at what has been
//! read before it, each V with a look at what its candidate reads, so that most requests are
//! answered and whoever goes wrong at one field is seen at the next.

mod params;
mod text;

use super::bits::checksum_of;
use super::cap::cap;
use super::texts;
use crate::definition::frame::{
    BaseHeader, Define, DefineSet, FrameDefinition, Header, Param, RadioFrequency, Validation,
};
use crate::limits;
use crate::random::Random;
use crate::reading::header::{Field, base_key, decode_header, find, read_outer};
use crate::request::Request;
use params::{Lists, path_to};

pub fn header(random: &mut Random) -> Vec<u8> {
    let (region, speed) = (region(random), speed(random));
    let mut mpdu = mpdu(random, speed);
    let largest =
        if random.one_in(60) { start_with_a_large_number(random, &mut mpdu) } else { None };
    let definition = Drawing::new(random, &mpdu, largest).definition(region, speed);
    let mut text = text::text(random, &definition);
    let decoded = decode_header(&definition, &mpdu, region, speed);
    let cap = cap(random, decoded.map(|header| header.rows.len()));
    if random.one_in(25) {
        text = texts::damaged_frame_text(random, &text);
    }
    Request::Header { cap, region, speed, text, mpdu }.line()
}

/// Mostly a region that an F may name; else one that is such a code in too few bits.
fn region(random: &mut Random) -> u64 {
    let code = random.pick(&[0, 1, 2, 3, 7, 12, 255]);
    match random.below(40) {
        0 => 256 + code,
        1 => (1 << 32) + code,
        2 => u64::MAX,
        _ => code,
    }
}

fn speed(random: &mut Random) -> u64 {
    match random.below(40) {
        0 => random.pick(&[4, 5, 127, 255]),
        1 => random.pick(&[256, 257, 258, 259, (1 << 32) + 3, u64::MAX]),
        _ => random.pick(&[0, 0, 1, 1, 2, 2, 3]),
    }
}

/// Many bytes are small, since some will be sizes; the checksum is right in every second.
fn mpdu(random: &mut Random, speed: u64) -> Vec<u8> {
    let length = match random.below(400) {
        0..=7 => random.below(2),
        8..=39 => random.from_to(2, 8),
        40..=369 => random.from_to(9, 64),
        370..=394 => random.from_to(65, 300),
        395..=396 => limits::MPDU,
        397..=398 => limits::MPDU + 1,
        _ => random.from_to(300, 3_000),
    };
    let mut mpdu = super::small_bytes(random, length);
    if random.one_in(2) {
        let checksum_length = checksum_of(speed, &[]).len();
        mpdu.truncate(length.saturating_sub(checksum_length));
        mpdu.extend(checksum_of(speed, &mpdu));
    }
    mpdu
}

/// Puts a number of about 2^61 or 2^64 into the first 61 to 64 bits, if there are so many; answers
/// how many.
fn start_with_a_large_number(random: &mut Random, mpdu: &mut [u8]) -> Option<u8> {
    let bits = random.from_to(61, 64) as u8;
    let most = u64::MAX >> (64 - bits);
    let small = random.below(40) as u64;
    let above = random.pick(&[1 << 61, 1 << 63]) + small;
    let number = random.pick(&[most - small, (1 << 61) - 1 - small, above & most]);
    *mpdu.first_chunk_mut()? = (number << (64 - bits)).to_be_bytes();
    Some(bits)
}

/// How much there is of everything.
#[derive(Clone, Copy, PartialEq)]
enum Size {
    Small,
    Large,
    /// One of the limits is reached.
    Full(Limit),
}

#[derive(Clone, Copy, PartialEq)]
enum Limit {
    RadioFrequencies,
    BaseHeaders,
    Headers,
    Params,
    Validations,
    DefineSets,
    Defines,
}

/// What a candidate is to come to.
#[derive(Clone, Copy, PartialEq)]
enum Part {
    Holds,
    Fails,
    WithoutValidation,
    OtherBase,
    NoBase,
}

/// A definition that is being drawn around an MPDU.
struct Drawing<'a> {
    random: &'a mut Random,
    mpdu: &'a [u8],
    /// How many of the first bits are a large number, where they are one.
    largest: Option<u8>,
    size: Size,
    names: Vec<String>,
    sets: Vec<String>,
}

impl<'a> Drawing<'a> {
    fn new(random: &'a mut Random, mpdu: &'a [u8], largest: Option<u8>) -> Drawing<'a> {
        const LIMITS: &[Limit] = &[
            Limit::RadioFrequencies,
            Limit::BaseHeaders,
            Limit::Headers,
            Limit::Params,
            Limit::Validations,
            Limit::DefineSets,
            Limit::Defines,
        ];
        let size = match random.below(100) {
            0 => Size::Full(random.pick(LIMITS)),
            1..=3 => Size::Large,
            _ => Size::Small,
        };
        let count = random.pick(&[2, 4, 6, 9, 14]);
        let names = (0..count).map(|_| name(random)).collect();
        let sets = (0..3).map(|_| random.pick(&["s", "t", "Types", "a.b", "--"]).into()).collect();
        Drawing { random, mpdu, largest, size, names, sets }
    }

    /// The most of something that has this limit, else a drawn number.
    fn count(&mut self, limit: Limit, most: usize, numbers: &[usize]) -> usize {
        if self.size == Size::Full(limit) { most } else { self.random.pick(numbers) }
    }

    fn definition(mut self, region: u64, speed: u64) -> FrameDefinition {
        let mut definition = FrameDefinition::default();
        self.radio_frequencies(&mut definition, region);
        let key = base_key(&definition, region, speed);
        let base = self.base_headers(&mut definition, key);
        self.headers(&mut definition, key, &base);
        self.define_sets(&mut definition, &base);
        definition
    }

    /// Some F with the region's code, twice now and then, and some with another.
    fn radio_frequencies(&mut self, definition: &mut FrameDefinition, region: u64) {
        let most = limits::RADIO_FREQUENCIES;
        for _ in 0..self.count(Limit::RadioFrequencies, most, &[0, 0, 1, 1, 2, 3]) {
            let other = self.random.byte();
            let code = self.random.pick(&[region as u8, region as u8, other, 0, 1]);
            let base_key = self.random.pick(&[0, 1, 2, 3, 255]);
            definition.radio_frequencies.push(RadioFrequency { line: 0, code, base_key });
        }
    }

    /// The base header with the key, among others, or none; answers its fields.
    fn base_headers(&mut self, definition: &mut FrameDefinition, key: u8) -> Vec<Param> {
        let count = self.count(Limit::BaseHeaders, limits::BASE_HEADERS, &[1, 1, 1, 2, 2, 3]);
        let place = self.random.below(count);
        let is_missing = self.random.one_in(40);
        let mut fields = Vec::new();
        for at in 0..count {
            let other = key.wrapping_add(self.random.pick(&[1, 2, 255]));
            let (key, params) = if at == place && !is_missing {
                let count = self.param_count(&[1, 3, 4, 5, 6, 8, 10]);
                let largest = self.largest;
                fields = self.lists(count).base(largest);
                (key, fields.clone())
            } else {
                let key = if at > place { self.random.pick(&[key, other]) } else { other };
                let key = if is_missing { other } else { key };
                (key, self.lists(2).base(None))
            };
            definition.base_headers.push(BaseHeader { line: 0, key, params });
        }
        fields
    }

    fn param_count(&mut self, numbers: &[usize]) -> usize {
        match self.size {
            Size::Full(Limit::Params) => limits::PARAMS,
            Size::Large => self.random.from_to(8, 40),
            _ => self.random.pick(numbers),
        }
    }

    /// Lists of about so many outer fields.
    fn lists(&mut self, count: usize) -> Lists<'_> {
        Lists::new(self.random, self.mpdu, &self.names, &self.sets, count)
    }

    /// The candidates. Mostly one of them holds that comes after some that don't.
    fn headers(&mut self, definition: &mut FrameDefinition, key: u8, base: &[Param]) {
        const BEFORE: &[Part] = &[
            Part::Fails,
            Part::Fails,
            Part::Fails,
            Part::Fails,
            Part::WithoutValidation,
            Part::OtherBase,
            Part::NoBase,
        ];
        const AFTER: &[Part] = &[Part::Holds, Part::Holds, Part::Fails, Part::WithoutValidation];
        let count = match self.size {
            Size::Large => self.random.from_to(5, 20),
            _ => self.count(Limit::Headers, limits::HEADERS, &[1, 1, 2, 2, 3, 3, 5]),
        };
        let holding = if self.random.one_in(15) { count } else { self.random.below(count) };
        for at in 0..count {
            let part = match at.cmp(&holding) {
                std::cmp::Ordering::Less => self.random.pick(BEFORE),
                std::cmp::Ordering::Equal => Part::Holds,
                std::cmp::Ordering::Greater => self.random.pick(AFTER),
            };
            let header = self.header(key, base, part);
            definition.headers.push(header);
        }
    }

    fn header(&mut self, base_key: u8, base: &[Param], part: Part) -> Header {
        let count = self.param_count(&[0, 1, 2, 3, 4, 6, 8]);
        let count = if self.size == Size::Full(Limit::Headers) { count.min(2) } else { count };
        let params = self.lists(count).candidate(base);
        let mut fields = Vec::new();
        read_outer(base, self.mpdu, &mut fields);
        read_outer(&params, self.mpdu, &mut fields);
        let validations = self.validations(&fields, part);
        let [is_ack, is_routed, is_multicast, is_error] =
            std::array::from_fn(|_| self.random.one_in(3));
        Header {
            line: 0,
            key: self.random.byte(),
            base_key: match part {
                Part::NoBase => None,
                Part::OtherBase => Some(base_key ^ self.random.pick(&[1, 2, 3])),
                _ => Some(base_key),
            },
            is_ack,
            is_routed,
            is_multicast,
            is_error,
            name: self.random.pick(&["h", "Singlecast", "a.b", "--"]).into(),
            validations,
            params,
        }
    }

    /// V lines that hold, one of them not if the candidate is to fail.
    fn validations(&mut self, fields: &[Field], part: Part) -> Vec<Validation> {
        if part == Part::WithoutValidation {
            return Vec::new();
        }
        let most = limits::VALIDATIONS;
        let count = self.count(Limit::Validations, most, &[1, 1, 1, 2, 2, 3, 5]);
        let failing = if part == Part::Fails { self.random.below(count) } else { count };
        (0..count).filter_map(|at| self.validation(fields, at != failing)).collect()
    }

    fn validation(&mut self, fields: &[Field], is_to_hold: bool) -> Option<Validation> {
        let fits = |field: Option<&Field>| {
            field.and_then(|field| field.value).is_some_and(|value| value <= 65_535)
        };
        let path = path_to(self.random, &self.names, fields, fits);
        let found = find(fields, &path).and_then(|field| field.value);
        if is_to_hold {
            let value = found?.try_into().ok()?;
            return Some(Validation { line: 0, path, value });
        }
        let low = found.unwrap_or(0) as u16;
        let (path, value) = match self.random.below(8) {
            0 => (path, low ^ 1 << self.random.below(16)),
            1 => (path, low.wrapping_sub(1)),
            2 => (path_to(self.random, &self.names, fields, |field| field.is_none()), 0),
            3 => (path_to(self.random, &self.names, fields, has_no_value), 0),
            4 => {
                let path = path_to(self.random, &self.names, fields, is_over_16_bits);
                let low = find(fields, &path).and_then(|field| field.value).unwrap_or(0) as u16;
                (path, low)
            }
            _ => (path, low.wrapping_add(1)),
        };
        Some(Validation { line: 0, path, value })
    }

    /// Sets whose keys are often values of fields that name the set, and often doubled.
    fn define_sets(&mut self, definition: &mut FrameDefinition, base: &[Param]) {
        let mut seen = Vec::new();
        for header in &definition.headers {
            let mut fields = Vec::new();
            read_outer(base, self.mpdu, &mut fields);
            read_outer(&header.params, self.mpdu, &mut fields);
            push_values(&fields, &mut seen);
        }
        for _ in 0..self.count(Limit::DefineSets, limits::DEFINE_SETS, &[0, 1, 1, 2, 3]) {
            let place = self.random.below(self.sets.len());
            let name = self.sets[place].clone();
            let values: Vec<u64> =
                seen.iter().filter(|(set, _)| *set == name).map(|(_, value)| *value).collect();
            let count = self.count(Limit::Defines, limits::DEFINES, &[0, 1, 2, 3, 5, 9]);
            let defines = (0..count).map(|_| self.define(&values)).collect();
            definition.define_sets.push(DefineSet { line: 0, name, defines });
        }
    }

    fn define(&mut self, values: &[u64]) -> Define {
        let any = self.random.number() as u16;
        let key = match values {
            [] => self.random.pick(&[0, 1, 2, any]),
            _ => {
                let value = self.random.pick(values) as u16;
                self.random.pick(&[value, value, value.wrapping_add(1), any])
            }
        };
        Define { line: 0, key, text: self.random.pick(&["On", "Off", "a.b", "--"]).into() }
    }
}

fn has_no_value(field: Option<&Field>) -> bool {
    field.is_some_and(|field| field.value.is_none())
}

fn is_over_16_bits(field: Option<&Field>) -> bool {
    field.and_then(|field| field.value).is_some_and(|value| value > 65_535)
}

/// The values of fields that name a set, with the set's name.
fn push_values(fields: &[Field], values: &mut Vec<(String, u64)>) {
    for field in fields {
        if let (Some(set), Some(value)) = (&field.param.defines, field.value) {
            values.push((set.clone(), value));
        }
        push_values(&field.inner, values);
    }
}

/// A name of a field: mostly short.
fn name(random: &mut Random) -> String {
    const NAMES: &[&str] = &[
        "a",
        "b",
        "c",
        "d",
        "e",
        "Home",
        "Props",
        "Type",
        "Flags",
        "Len",
        "Size",
        "Data",
        "Hops",
        "Source ID",
        "--",
        " ",
        "a ",
        "A",
        "-1",
        "#",
        "x/y",
    ];
    match random.below(30) {
        0 => "N".repeat(random.from_to(38, 40)),
        _ => random.pick(NAMES).into(),
    }
}
