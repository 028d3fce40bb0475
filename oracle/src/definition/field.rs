//! Fields and their kinds. A kind takes the bytes of one field and gives what they stand for, or
//! `None` where they are not of the kind.

/// The longest name and the longest path.
const NAME: usize = 40;
const PATH: usize = 120;

/// T2: what is left of a line's fields.
pub struct Fields<'a> {
    left: Vec<&'a [u8]>,
}

impl<'a> Fields<'a> {
    /// All fields of a line; the first is the letter of its form.
    pub fn of(line: &'a [u8]) -> Fields<'a> {
        Fields { left: line.split(|&byte| byte == b'\t').rev().collect() }
    }

    /// The next field, which must be of this kind.
    pub fn take<T>(&mut self, kind: impl Fn(&'a [u8]) -> Option<T>) -> Option<T> {
        kind(self.left.pop()?)
    }

    /// There is no further field.
    pub fn end(&self) -> Option<()> {
        self.left.is_empty().then_some(())
    }
}

/// The field as it stands.
pub fn letter(field: &[u8]) -> Option<&[u8]> {
    Some(field)
}

/// T4: a field that may be missing.
pub fn optional<T>(kind: impl Fn(&[u8]) -> Option<T>) -> impl Fn(&[u8]) -> Option<Option<T>> {
    move |field| if field == b"-" { Some(None) } else { kind(field).map(Some) }
}

/// T3: a number. One that 64 bits cannot hold is their greatest: it is past every limit all the
/// same.
pub fn number(field: &[u8]) -> Option<u64> {
    let all_digits = !field.is_empty() && field.iter().all(u8::is_ascii_digit);
    let leading_zero = field.len() > 1 && field[0] == b'0';
    (all_digits && !leading_zero).then(|| {
        field.iter().fold(0u64, |value, digit| {
            value.saturating_mul(10).saturating_add(u64::from(digit - b'0'))
        })
    })
}

/// 0 to 255.
pub fn byte(field: &[u8]) -> Option<u8> {
    number(field)?.try_into().ok()
}

/// 0 to 65535.
pub fn word(field: &[u8]) -> Option<u16> {
    number(field)?.try_into().ok()
}

/// 0/1.
pub fn bit(field: &[u8]) -> Option<bool> {
    match field {
        b"0" => Some(false),
        b"1" => Some(true),
        _ => None,
    }
}

/// T11: the four flags.
pub fn four_bits(field: &[u8]) -> Option<[bool; 4]> {
    let bits: Vec<bool> = field.chunks(1).map(bit).collect::<Option<_>>()?;
    bits.try_into().ok()
}

/// T5: a name.
pub fn name(field: &[u8]) -> Option<String> {
    let length_holds = (1..=NAME).contains(&field.len());
    let bytes_hold = field.iter().all(|byte| (0x20..=0x7E).contains(byte));
    (length_holds && bytes_hold && field != b"-").then(|| written(field))
}

/// T6: the name of a P.
pub fn name_without_dot(field: &[u8]) -> Option<String> {
    name(field).filter(|name| !name.contains('.'))
}

/// T7: a path.
pub fn path(field: &[u8]) -> Option<String> {
    let parts_hold = field.split(|&byte| byte == b'.').all(|part| name(part).is_some());
    (parts_hold && field.len() <= PATH).then(|| written(field))
}

/// One of these words, with what it stands for.
pub fn one_of<T: Copy>(words: &[(&str, T)]) -> impl Fn(&[u8]) -> Option<T> {
    move |field| words.iter().find(|(word, _)| word.as_bytes() == field).map(|&(_, meant)| meant)
}

fn written(field: &[u8]) -> String {
    field.iter().map(|&byte| char::from(byte)).collect()
}
