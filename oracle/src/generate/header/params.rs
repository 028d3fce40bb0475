//! Lists of P lines around an MPDU.

use crate::definition::frame::{Param, TYPES};
use crate::limits;
use crate::random::Random;
use crate::reading::header::{Field, covered, find, read_field, read_inner, read_outer};

/// The longest path.
const PATH: usize = 120;

/// Draws lists of fields, in the order in which they are walked; then the text's order is another.
pub struct Lists<'a> {
    random: &'a mut Random,
    mpdu: &'a [u8],
    names: &'a [String],
    sets: &'a [String],
    /// How many outer fields a list is to have, and how many fields it may still have.
    count: usize,
    left: usize,
    /// One in which fields lie inside fields, as far as it goes.
    is_deep: bool,
    /// A drawn field's order, which never falls.
    order: u16,
}

/// Where a field lies, and how wide it is, if it is read.
type Place = Option<(usize, usize)>;

impl<'a> Lists<'a> {
    pub fn new(
        random: &'a mut Random,
        mpdu: &'a [u8],
        names: &'a [String],
        sets: &'a [String],
        count: usize,
    ) -> Lists<'a> {
        let is_deep = random.one_in(10);
        let order = random.pick(&[0, 0, 1, 1, 7, 300, 65_530]);
        Lists { random, mpdu, names, sets, count, left: limits::PARAMS, is_deep, order }
    }

    /// The fields of a base header. Where the first bits are a large number, it is a size.
    pub fn base(mut self, largest: Option<u8>) -> Vec<Param> {
        let Some(bits) = largest else {
            return self.outer(&[]);
        };
        let (mut first, mut second) = (self.param(), self.param());
        first.bits = bits;
        second.size_path = Some(first.name.clone());
        vec![first, second]
    }

    /// The fields of a candidate, behind those of its base.
    pub fn candidate(mut self, base: &[Param]) -> Vec<Param> {
        self.outer(base)
    }

    fn outer(&mut self, base: &[Param]) -> Vec<Param> {
        let mut params = Vec::new();
        while params.len() < self.count && self.left > 0 {
            let (param, is_read) = self.next_outer(base, &params);
            params.push(param);
            // What comes after a field that ends its list is never read.
            if !is_read && self.random.below(3) > 0 {
                break;
            }
        }
        mix(self.random, &mut params);
        params
    }

    /// The next outer field, and whether it is read.
    fn next_outer(&mut self, base: &[Param], params: &[Param]) -> (Param, bool) {
        let mut fields = Vec::new();
        read_outer(base, self.mpdu, &mut fields);
        read_outer(params, self.mpdu, &mut fields);
        let start = covered(&fields);
        let left = 8 * self.mpdu.len() - start;

        let mut param = self.param();
        param.bits = self.outer_width(left);
        let one_in = if fields.is_empty() { 60 } else { 6 };
        if self.random.one_in(one_in) {
            param.optional_path = Some(self.optional_path(&fields));
        }
        if self.random.one_in(one_in) {
            param.size_path = Some(self.size_path(&fields, left));
        }
        let place = read_field(&param, start, &fields, self.mpdu).map(|field| (start, field.bits));
        if self.random.below(100) < if self.is_deep { 60 } else { 40 } {
            param.params = self.inner(1, usize::from(param.bits), place);
        }
        (param, place.is_some())
    }

    /// Mostly one for which there is room; `left`: the bits that are left.
    fn outer_width(&mut self, left: usize) -> u8 {
        let random = &mut *self.random;
        let width = match random.below(100) {
            _ if left < 64 && random.below(8) > 0 => random.from_to(1, left.clamp(1, 8)),
            0 => 0,
            1..=35 => 8,
            36..=47 => 16,
            48..=69 => random.from_to(1, 7),
            70..=81 => random.from_to(9, 31),
            82..=87 => 32,
            88..=92 => random.from_to(33, 64),
            93..=94 => 64,
            95 => 65,
            96 => 255,
            _ => random.from_to(65, 255),
        };
        width as u8
    }

    /// Inner fields for a parent of that width; `place`: where it lies, if it is read.
    fn inner(&mut self, level: u64, width: usize, place: Place) -> Vec<Param> {
        let mut params: Vec<Param> = Vec::new();
        let (parent, parent_bits) = place.unwrap_or((0, width));
        let mut room = parent_bits;
        let count = self.random.pick(if self.is_deep { &[1, 1, 1, 2] } else { &[1, 2, 3, 4, 6] });
        while params.len() < count && self.left > 0 {
            let fields = place.map(|(start, bits)| read_inner(&params, start, bits, self.mpdu));
            let fields = fields.unwrap_or_default();
            let mut param = self.param();
            param.bits = self.inner_width(room);
            if self.random.one_in(7) {
                param.optional_path = Some(self.optional_path(&fields));
            }
            let width = usize::from(param.bits);
            let ends_the_list = width > room;
            room = room.saturating_sub(width);
            let inner_place = place.and_then(|_| {
                read_field(&param, parent + room, &fields, self.mpdu).map(|f| (f.start, f.bits))
            });
            if level < limits::LEVEL && self.random.below(100) < if self.is_deep { 90 } else { 20 }
            {
                param.params = self.inner(level + 1, width, inner_place);
            }
            params.push(param);
            if ends_the_list && self.random.one_in(2) {
                break;
            }
        }
        mix(self.random, &mut params);
        params
    }

    fn inner_width(&mut self, room: usize) -> u8 {
        let random = &mut *self.random;
        let width = match random.below(20) {
            0 => 0,
            1 => room + 1,
            2..=6 => room,
            7..=8 => random.from_to(1, room.max(1)),
            _ => random.from_to(1, room.clamp(1, 8)),
        };
        width.min(255) as u8
    }

    /// A field but for its width, its paths and what is inside it.
    fn param(&mut self) -> Param {
        let random = &mut *self.random;
        self.left -= 1;
        self.order = self.order.saturating_add(random.pick(&[0, 0, 1, 1, 1, 2, 30]));
        let place = random.below(3 * self.sets.len());
        Param {
            line: 0,
            order: self.order,
            bits: random.pick(&[0, 1, 8, 255]),
            param_type: random.pick(TYPES).1,
            name: self.names[random.below(self.names.len())].clone(),
            defines: self.sets.get(place).cloned(),
            optional_path: None,
            size_path: None,
            params: Vec::new(),
        }
    }

    /// Mostly one that finds a nonzero value.
    fn optional_path(&mut self, fields: &[Field]) -> String {
        let (random, names) = (&mut *self.random, self.names);
        match random.below(12) {
            0 => path_to(random, names, fields, |f| value_of(f) == Some(0)),
            1 => path_to(random, names, fields, |f| f.is_some_and(|f| f.value.is_none())),
            2 => path_to(random, names, fields, |f| f.is_none()),
            _ => path_to(random, names, fields, |f| value_of(f).is_some_and(|v| v > 0)),
        }
    }

    /// Mostly one that finds a size for which there is room; `left`: the bits that are left.
    fn size_path(&mut self, fields: &[Field], left: usize) -> String {
        let fits = |bytes: u64| bytes > 0 && bytes <= left as u64 / 8;
        let (random, names) = (&mut *self.random, self.names);
        match random.below(16) {
            0 => path_to(random, names, fields, |f| value_of(f) == Some(0)),
            1 => path_to(random, names, fields, |f| f.is_some_and(|f| f.value.is_none())),
            2 => path_to(random, names, fields, |f| f.is_none()),
            3 => path_to(random, names, fields, |f| value_of(f).is_some_and(|v| v > left as u64)),
            4..=7 => {
                path_to(random, names, fields, |f| value_of(f).is_some_and(|v| fits(v) && v > 8))
            }
            _ => path_to(random, names, fields, |f| value_of(f).is_some_and(fits)),
        }
    }
}

fn value_of(field: Option<&Field>) -> Option<u64> {
    field.and_then(|field| field.value)
}

/// A path that finds what is wanted, if that is soon found; else some path.
pub fn path_to(
    random: &mut Random,
    names: &[String],
    fields: &[Field],
    is_wanted: impl Fn(Option<&Field>) -> bool,
) -> String {
    let mut path = String::new();
    for _ in 0..12 {
        path = some_path(random, names, fields);
        if is_wanted(find(fields, &path)) {
            break;
        }
    }
    path
}

/// A path to one of the fields, or, now and then, past them.
fn some_path(random: &mut Random, names: &[String], fields: &[Field]) -> String {
    let mut path: Vec<&str> = Vec::new();
    let mut list = fields;
    while !list.is_empty() {
        let field = &list[random.below(list.len())];
        path.push(&field.param.name);
        list = if random.one_in(2) { &field.inner } else { &[] };
    }
    if path.is_empty() || random.one_in(12) {
        path.push(&names[random.below(names.len())]);
    }
    let path = path.join(".");
    if path.len() > PATH { "x".into() } else { path }
}

/// Moves fields to other places in the text; those of one order stay in theirs.
fn mix(random: &mut Random, params: &mut [Param]) {
    if params.len() < 2 || random.one_in(2) {
        return;
    }
    for _ in 0..2 * params.len() {
        let place = random.below(params.len() - 1);
        if params[place].order != params[place + 1].order {
            params.swap(place, place + 1);
        }
    }
}
