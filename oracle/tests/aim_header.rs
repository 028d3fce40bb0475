//! What drawn `header` requests reach: every feature of a frame text, in answers.

mod seen;

use oracle::definition::frame::{FrameDefinition, Header, Param};
use oracle::definition::read;
use oracle::generate::Generator;
use oracle::reading::header::{
    Field, base_key, checksum_is_right, covered, decode_header, find, read_outer, value,
};
use oracle::request::Request;
use oracle::rows;
use seen::Seen;

#[test]
fn header_requests_reach_every_feature() {
    let generator = Generator::new(1, "header").unwrap();
    let mut seen = Seen::default();
    for index in 0..40_000 {
        let request = Request::read(&generator.request(index).1);
        let Some(Request::Header { cap, region, speed, text, mpdu }) = request else {
            panic!("another request");
        };
        let Ok(definition) = read::<FrameDefinition>(&text) else {
            continue;
        };
        let Ok(header) = decode_header(&definition, &mpdu, region, speed) else {
            continue;
        };
        let rows = header.rows.len() as u64;
        seen.note("table: exact", cap == rows);
        seen.note("table: one row short", cap + 1 == rows);
        seen.note("table: none", cap == 0);
        if rows <= cap {
            note_base(&mut seen, &definition, region, speed);
            note_candidates(&mut seen, &definition, &header, region, speed, &mpdu);
            note_mpdu(&mut seen, speed, &mpdu);
        }
    }
    seen.hold(5);
}

fn note_base(seen: &mut Seen, definition: &FrameDefinition, region: u64, speed: u64) {
    let frequencies = &definition.radio_frequencies;
    let of_region = frequencies.iter().filter(|f| u64::from(f.code) == region);
    let keys: Vec<u8> = of_region.map(|f| f.base_key).collect();
    let by_region = speed != 3;
    let is_doubled = keys.len() > 1 && keys[0] != keys[1];
    seen.note("base key: by F", by_region && !keys.is_empty());
    seen.note("base key: two F of the code", by_region && is_doubled);
    seen.note("base key: default", by_region && keys.is_empty());
    seen.note(
        "base key: default, other F",
        by_region && keys.is_empty() && !frequencies.is_empty(),
    );
    seen.note("base key: speed 3", !by_region);
    seen.note("base key: speed 3, F says otherwise", !by_region && keys.first() == Some(&0));
    seen.note("region over 255", region > 255);
    seen.note("speed over 3", speed > 3);
    seen.note("speed over 255", speed > 255);

    let key = base_key(definition, region, speed);
    let bases = &definition.base_headers;
    seen.note("B: two of the key", bases.iter().filter(|base| base.key == key).count() > 1);
    seen.note("B: not the first", bases[0].key != key);
}

fn note_mpdu(seen: &mut Seen, speed: u64, mpdu: &[u8]) {
    let is_right = checksum_is_right(mpdu, speed);
    seen.note("checksum: right, one byte", is_right && speed < 2);
    seen.note("checksum: right, two bytes", is_right && speed > 1);
    seen.note("MPDU: 2 bytes", mpdu.len() == 2);
    seen.note("MPDU: 2048 bytes", mpdu.len() == 2_048);
}

/// The candidates up to the one that is answered, and those behind it that hold too.
fn note_candidates(
    seen: &mut Seen,
    definition: &FrameDefinition,
    answered: &rows::Header,
    region: u64,
    speed: u64,
    mpdu: &[u8],
) {
    let key = base_key(definition, region, speed);
    let base = definition.base_headers.iter().find(|base| base.key == key).expect("a base header");
    let mut base_fields = Vec::new();
    read_outer(&base.params, mpdu, &mut base_fields);
    note_list(seen, &base.params, &base_fields, 0, mpdu);
    seen.note("B: 64 P", count(&base.params) == 64);

    let answered_fields = answered.rows.iter().filter(|row| row[1] == 0).count();
    let mut holding = 0;
    for (number, header) in definition.headers.iter().enumerate() {
        let mut fields = Vec::new();
        read_outer(&base.params, mpdu, &mut fields);
        read_outer(&header.params, mpdu, &mut fields);
        let is_candidate = header.base_key == Some(key) && !header.validations.is_empty();
        holding += usize::from(is_candidate && all_hold(header, &fields));
        if number < answered.number {
            let has_more = fields.len() > answered_fields;
            note_passed_over(seen, header, &fields, key, has_more);
        }
        if number == answered.number {
            note_answered(seen, header, &fields, base_fields.len());
            note_list(seen, &header.params, &fields, base_fields.len(), mpdu);
            note_fields(seen, &fields, mpdu);
            note_symbols(seen, definition, &fields);
        }
    }
    seen.note("H: two hold", holding > 1);
    seen.note("H: 64 of them", definition.headers.len() == 64);
    seen.note("H: not the first", answered.number > 0);
}

fn all_hold(header: &Header, fields: &[Field]) -> bool {
    header.validations.iter().all(|v| value(fields, &v.path) == Some(v.value.into()))
}

fn count(params: &[Param]) -> usize {
    params.iter().map(|param| 1 + count(&param.params)).sum()
}

/// An H before the one that is answered.
fn note_passed_over(seen: &mut Seen, header: &Header, fields: &[Field], key: u8, has_more: bool) {
    let (all_hold, has_v) = (all_hold(header, fields), !header.validations.is_empty());
    let is_on_base = header.base_key == Some(key);
    let would_hold = all_hold && has_v;
    seen.note("passed over: without V", is_on_base && !has_v);
    seen.note("passed over: other base", would_hold && header.base_key.is_some());
    seen.note("passed over: no base", would_hold && header.base_key.is_none());
    if !is_on_base || all_hold {
        return;
    }
    let holds = |place: usize| {
        let v = &header.validations[place];
        value(fields, &v.path) == Some(v.value.into())
    };
    let last = header.validations.len() - 1;
    seen.note("passed over: a V fails", true);
    seen.note("passed over: a V fails, more fields", has_more);
    seen.note("passed over: the last V alone fails", last > 0 && (0..last).all(holds));
    seen.note("passed over: the first V alone fails", last > 0 && (1..=last).all(holds));
    for v in &header.validations {
        let found = find(fields, &v.path);
        let is_low = |value: u64| value > 65_535 && value as u16 == v.value;
        let has_no_value = found.is_some_and(|field| field.value.is_none());
        seen.note("V: low bits alone", found.and_then(|f| f.value).is_some_and(is_low));
        seen.note("V: 0 of a field without value", v.value == 0 && has_no_value);
        seen.note("V: 0 of no field", v.value == 0 && found.is_none());
    }
}

/// The H that is answered; `base`: how many of the fields are its base's.
fn note_answered(seen: &mut Seen, header: &Header, fields: &[Field], base: usize) {
    let validations = &header.validations;
    let is_own = |path: &str| find(&fields[..base], path).is_none();
    seen.note("V: of an own field", validations.iter().any(|v| is_own(&v.path)));
    seen.note("V: of an inner field", validations.iter().any(|v| v.path.contains('.')));
    seen.note("V: three or more", validations.len() > 2);
    seen.note("V: sixteen", validations.len() == 16);
    seen.note("H: 64 P", count(&header.params) == 64);
    seen.note("payload offset: rounded", !covered(fields).is_multiple_of(8));
}

/// A list of outer fields. Those that were read before it are the first `before` of `fields`.
fn note_list(seen: &mut Seen, params: &[Param], fields: &[Field], before: usize, mpdu: &[u8]) {
    let read = &fields[before..];
    note_order(seen, read);
    let mut ordered: Vec<&Param> = params.iter().collect();
    ordered.sort_by_key(|param| param.order);
    if let Some(ends_it) = ordered.get(read.len()) {
        seen.note("outer list: fields behind its end", read.len() + 1 < ordered.len());
        note_end(seen, ends_it, fields, mpdu);
    }
    for field in read {
        if let Some(path) = &field.param.optional_path {
            let is_of_base = before > 0 && find(&fields[..before], path).is_some();
            seen.note("outer field: optional", true);
            seen.note("outer field: optional by an inner one", path.contains('.'));
            seen.note("outer field: optional by the base's", is_of_base);
        }
        note_inner(seen, field, 1);
    }
}

/// Why a field ends its list.
fn note_end(seen: &mut Seen, param: &Param, fields: &[Field], mpdu: &[u8]) {
    let found = |path: &String| find(fields, path).map(|field| field.value);
    let mut note = |why: &str, is_it: bool| seen.note(format!("outer list: ended, {why}"), is_it);
    if let Some(path) = &param.optional_path {
        note("optional finds 0", found(path) == Some(Some(0)));
        note("optional finds nothing", found(path).is_none());
        note("optional has no value", found(path) == Some(None));
        if found(path).flatten().unwrap_or(0) == 0 {
            return;
        }
    }
    match &param.size_path {
        Some(path) => {
            let size = found(path).flatten().unwrap_or(0);
            note("size 0", found(path) == Some(Some(0)));
            note("size finds nothing", found(path).is_none());
            note("size has no value", found(path) == Some(None));
            note("size past the MPDU", size > mpdu.len() as u64);
            note("size past 64 bits", size >= 1 << 61);
        }
        None => {
            note("width 0", param.bits == 0);
            note("past the MPDU", param.bits > 0);
        }
    }
}

/// The list inside a field: it is of that level.
fn note_inner(seen: &mut Seen, field: &Field, level: usize) {
    note_order(seen, &field.inner);
    let mut ordered: Vec<&Param> = field.param.params.iter().collect();
    ordered.sort_by_key(|param| param.order);
    let is_read = |param: &Param| field.inner.iter().any(|f| f.param.line == param.line);
    let mut room = field.bits;
    for (place, param) in ordered.iter().enumerate() {
        let (later, width) = (&ordered[place + 1..], usize::from(param.bits));
        if width > room {
            let would_fit = |p: &&Param| usize::from(p.bits) <= room;
            seen.note("inner list: one does not fit", place > 0);
            seen.note(
                "inner list: one does not fit, a later one would",
                later.iter().any(would_fit),
            );
            break;
        }
        room -= width;
        let is_followed = later.iter().any(|param| is_read(param));
        let is_passed_over = !is_read(param) && is_followed;
        seen.note("inner field: width 0, passed over", width == 0 && is_passed_over);
        seen.note("inner field: not wanted, keeps its room", width > 0 && is_passed_over);
        seen.note("inner field: optional", param.optional_path.is_some() && is_read(param));
    }
    let all_fit = field.inner.len() == ordered.len() && !ordered.is_empty();
    seen.note("inner list: fills its parent", all_fit && room == 0);
    seen.note("inner list: leaves room", all_fit && room > 0);
    for inner in &field.inner {
        seen.note(format!("level {level}"), true);
        note_inner(seen, inner, level + 1);
    }
}

fn note_order(seen: &mut Seen, read: &[Field]) {
    let is_as_written = read.is_sorted_by_key(|field| field.param.line);
    let has_ties = read.windows(2).any(|two| two[0].param.order == two[1].param.order);
    let is_doubled = |field: &Field| {
        read.iter().filter(|other| other.param.name == field.param.name).count() > 1
    };
    seen.note("list: not in the text's order", !is_as_written);
    seen.note("list: equal orders", has_ties);
    seen.note("list: equal orders, not in the text's order", has_ties && !is_as_written);
    seen.note("list: a name twice", read.iter().any(is_doubled));
}

/// The fields themselves, at all levels.
fn note_fields(seen: &mut Seen, fields: &[Field], mpdu: &[u8]) {
    for field in fields {
        let is_sized = field.param.size_path.is_some();
        let is_inside_a_byte = field.start % 8 > 0;
        let is_across = field.start / 8 != (field.end() - 1) / 8;
        seen.note("field: under 8 bits, across bytes", is_across && field.bits < 8);
        seen.note("field: over 8 bits, from inside a byte", is_inside_a_byte && field.bits > 8);
        seen.note("field: 64 bits over nine bytes", is_inside_a_byte && field.bits == 64);
        seen.note("field: declared over 64 bits", !is_sized && field.bits > 64);
        seen.note("field: 255 bits", field.bits == 255);
        seen.note("field: sized", is_sized);
        seen.note("field: sized, over 64 bits", is_sized && field.bits > 64);
        seen.note("field: sized, over 255 bits", is_sized && field.bits > 255);
        seen.note("field: over 64 bits, with inner", field.bits > 64 && !field.inner.is_empty());
        seen.note("field: ends with the MPDU", field.end() == 8 * mpdu.len());
        note_fields(seen, &field.inner, mpdu);
    }
}

fn note_symbols(seen: &mut Seen, definition: &FrameDefinition, fields: &[Field]) {
    for field in fields {
        note_symbols(seen, definition, &field.inner);
        let Some(name) = &field.param.defines else {
            continue;
        };
        let sets: Vec<_> = definition.define_sets.iter().filter(|d| d.name == *name).collect();
        let hits = |set: usize, value: Option<u64>| -> Vec<usize> {
            let defines = sets.get(set).map_or(&[][..], |set| &set.defines);
            let has_key = |place: &usize| Some(u64::from(defines[*place].key)) == value;
            (0..defines.len()).filter(has_key).collect()
        };
        let (first, second) = (hits(0, field.value), hits(1, field.value));
        let low = field.value.filter(|value| *value > 65_535).map(|value| value & 65_535);
        seen.note("symbol: no such set", sets.is_empty());
        seen.note("symbol: the first E", first.first() == Some(&0));
        seen.note("symbol: a later E", first.first().is_some_and(|number| *number > 0));
        seen.note("symbol: two E of the key", first.len() > 1);
        seen.note("symbol: none of the key", sets.len() == 1 && first.is_empty());
        seen.note("symbol: in the second set alone", first.is_empty() && !second.is_empty());
        seen.note("symbol: in both sets", !first.is_empty() && !second.is_empty());
        seen.note("symbol: low bits alone", low.is_some() && !hits(0, low).is_empty());
        seen.note("symbol: no value", field.value.is_none() && !sets.is_empty());
        seen.note("symbol: among 64 E", sets.first().is_some_and(|set| set.defines.len() == 64));
    }
}
