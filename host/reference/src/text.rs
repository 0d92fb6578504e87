//! Reading of numbers, value texts and index parts; writing of values.

use super::catalogue::{Kind, Row};

/// Something that takes written bytes: a buffer, or a count of them.
pub trait Sink {
    fn put(&mut self, bytes: &[u8]);
}

/// Counts the bytes.
pub struct Count(pub usize);

impl Sink for Count {
    fn put(&mut self, bytes: &[u8]) {
        self.0 += bytes.len();
    }
}

/// Writes from a buffer's start; what follows stays.
pub struct Writer<'a> {
    pub buffer: &'a mut [u8],
    pub length: usize,
}

impl Sink for Writer<'_> {
    fn put(&mut self, bytes: &[u8]) {
        let end = self.length + bytes.len();
        self.buffer[self.length..end].copy_from_slice(bytes);
        self.length = end;
    }
}

/// A value of one to `most` decimal digits.
fn read_digits(text: &[u8], most: usize) -> Option<u32> {
    if text.is_empty() || text.len() > most {
        return None;
    }
    let mut number = 0;
    for &byte in text {
        if !byte.is_ascii_digit() {
            return None;
        }
        number = number * 10 + u32::from(byte - b'0');
    }
    Some(number)
}

/// A level in tenths: sign, one or two digits, point and one digit.
fn read_level(text: &[u8]) -> Option<i64> {
    let (negative, rest) = match text {
        [b'-', rest @ ..] => (true, rest),
        _ => (false, text),
    };
    let (whole, tenth) = match rest {
        [whole @ .., b'.', tenth] if tenth.is_ascii_digit() => (whole, tenth - b'0'),
        _ => (rest, 0),
    };
    let size = i64::from(read_digits(whole, 2)?) * 10 + i64::from(tenth);
    Some(if negative { -size } else { size })
}

/// A routing word: eight hex digits, their letters capital.
fn read_word(text: &[u8]) -> Option<i64> {
    if text.len() != 8 {
        return None;
    }
    let mut word = 0;
    for &byte in text {
        let digit = match byte {
            b'0'..=b'9' => byte - b'0',
            b'A'..=b'F' => byte - b'A' + 10,
            _ => return None,
        };
        word = word * 16 + i64::from(digit);
    }
    Some(word)
}

/// Whether a text turns a switch on or off that is on or off at present.
pub fn read_switch(text: &[u8], present: bool) -> Option<bool> {
    match text {
        b"O" => Some(true),
        b"F" => Some(false),
        b"T" => Some(!present),
        _ => None,
    }
}

/// The value that a text gives to a row with this present value.
pub fn read_value(row: &Row, text: &[u8], present: i64) -> Option<i64> {
    let value = match row.kind {
        Kind::Level => read_level(text)?,
        Kind::Number => i64::from(read_digits(text, 5)?),
        Kind::Switch => i64::from(read_switch(text, present == 1)?),
        Kind::Word => read_word(text)?,
    };
    row.permits(value).then_some(value)
}

/// One group of an index part.
#[derive(Clone, Copy)]
pub enum Group {
    Number(u16),
    Pair(u16, u16),
}

/// An index part: one or two groups, each behind a `>`.
pub fn read_groups(part: &[u8]) -> Option<(Group, Option<Group>)> {
    let (b'>', groups) = part.split_first()? else {
        return None;
    };
    match groups.iter().position(|&byte| byte == b'>') {
        None => Some((read_group(groups)?, None)),
        Some(end) => Some((
            read_group(&groups[..end])?,
            Some(read_group(&groups[end + 1..])?),
        )),
    }
}

/// A number, or `(`, a number, `,`, a number, `)`.
fn read_group(group: &[u8]) -> Option<Group> {
    if let [b'(', pair @ .., b')'] = group {
        let comma = pair.iter().position(|&byte| byte == b',')?;
        let (first, second) = (&pair[..comma], &pair[comma + 1..]);
        return Some(Group::Pair(read_index(first)?, read_index(second)?));
    }
    read_index(group).map(Group::Number)
}

/// A number of one to three digits.
fn read_index(digits: &[u8]) -> Option<u16> {
    read_digits(digits, 3).map(|number| number as u16)
}

/// A number without leading zeros.
pub fn write_number(sink: &mut impl Sink, number: u32) {
    let mut digits = [0; 10];
    let mut first = digits.len();
    let mut rest = number;
    loop {
        first -= 1;
        digits[first] = b'0' + (rest % 10) as u8;
        rest /= 10;
        if rest == 0 {
            break;
        }
    }
    sink.put(&digits[first..]);
}

/// The shortest text of a permitted value.
pub fn write_value(sink: &mut impl Sink, kind: Kind, value: i64) {
    match kind {
        Kind::Switch => sink.put(if value == 1 { b"O" } else { b"F" }),
        Kind::Number => write_number(sink, value as u32),
        Kind::Word => write_word(sink, value),
        Kind::Level => {
            if value < 0 {
                sink.put(b"-");
            }
            let size = value.unsigned_abs() as u32;
            write_number(sink, size / 10);
            if !size.is_multiple_of(10) {
                sink.put(&[b'.', b'0' + (size % 10) as u8]);
            }
        }
    }
}

/// Eight hex digits.
fn write_word(sink: &mut impl Sink, word: i64) {
    for place in (0..8).rev() {
        let digit = (word >> (4 * place)) & 0xF;
        sink.put(&[b"0123456789ABCDEF"[digit as usize]]);
    }
}
