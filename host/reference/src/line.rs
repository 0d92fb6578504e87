//! One finished line: its parts, its reply, and what it sets.

use super::control::Control;
use super::table::Table;
use super::text::{read_groups, Sink, Writer};

/// The two digits of a NAK.
type Code = [u8; 2];
const FORM: Code = *b"99";
const LABEL: Code = *b"01";
const INDEX: Code = *b"02";
const VALUE: Code = *b"03";

/// What a line lacks that is answered with 99, in the order in which the paper
/// looks for it.
#[derive(Clone, Copy)]
pub enum Cause {
    Overrun = 1,
    NoVerb = 2,
    NoOpeningQuote = 3,
    NoClosingQuote = 4,
    NoEquals = 5,
}

/// A cause, and the byte of the line where it shows.
pub type Fault = (Cause, usize);

/// Why a line gets a NAK.
enum Wrong {
    Form(Fault),
    Code(Code),
}

impl From<Fault> for Wrong {
    fn from(fault: Fault) -> Wrong {
        Wrong::Form(fault)
    }
}

impl From<Code> for Wrong {
    fn from(code: Code) -> Wrong {
        Wrong::Code(code)
    }
}

struct Parts<'a> {
    label: &'a [u8],
    index: &'a [u8],
    /// The value text, for SA only.
    text: Option<&'a [u8]>,
}

/// Serves a line of at most 64 bytes; tells the reply's length, and what is
/// wrong with the form.
pub fn answer(
    table: Table,
    values: &mut [i64],
    line: &[u8],
    reply: &mut [u8],
) -> (usize, Option<Fault>) {
    match serve(table, values, line, reply) {
        Ok(length) => (length, None),
        Err(Wrong::Code(code)) => (nak(reply, code), None),
        Err(Wrong::Form(fault)) => (nak(reply, FORM), Some(fault)),
    }
}

/// The reply to a line over 64 bytes: the first byte too many shows it.
pub fn overrun(reply: &mut [u8]) -> (usize, Option<Fault>) {
    (nak(reply, FORM), Some((Cause::Overrun, 64)))
}

fn serve(table: Table, values: &mut [i64], line: &[u8], reply: &mut [u8]) -> Result<usize, Wrong> {
    let parts = parts(line)?;
    let module = table.bearer(parts.label).ok_or(LABEL)?;
    let groups = read_groups(parts.index).ok_or(INDEX)?;
    let (place, control) = Control::named(module.layout, groups).ok_or(INDEX)?;
    let value = &mut values[module.start + place];
    let mut writer = Writer {
        buffer: reply,
        length: 0,
    };
    match parts.text {
        Some(text) => {
            if !control.row.settable {
                return Err(VALUE.into());
            }
            *value = control.read(text, *value).ok_or(VALUE)?;
            writer.put(b"\x06\r");
        }
        None => control.write_line(&mut writer, b"GA", module.label(), *value),
    }
    Ok(writer.length)
}

/// Takes a line apart, or tells the first part that it lacks, and where. What
/// is sought up to the end is missed there.
fn parts(line: &[u8]) -> Result<Parts<'_>, Fault> {
    let no_verb = (Cause::NoVerb, 0);
    let (verb, rest) = line.split_at_checked(2).ok_or(no_verb)?;
    let set = match verb {
        b"SA" => true,
        b"GA" => false,
        _ => return Err(no_verb),
    };
    let rest = rest.strip_prefix(b" ").unwrap_or(rest);
    let passed = line.len() - rest.len();
    let rest = rest.strip_prefix(b"\"");
    let rest = rest.ok_or((Cause::NoOpeningQuote, passed))?;
    let quotes = split_around(rest, b'"');
    let (label, rest) = quotes.ok_or((Cause::NoClosingQuote, line.len()))?;
    if set {
        let halves = split_around(rest, b'=');
        let (index, text) = halves.ok_or((Cause::NoEquals, line.len()))?;
        Ok(Parts {
            label,
            index,
            text: Some(text),
        })
    } else {
        Ok(Parts {
            label,
            index: rest,
            text: None,
        })
    }
}

/// The bytes before the first such byte, and those after it.
pub fn split_around(bytes: &[u8], byte: u8) -> Option<(&[u8], &[u8])> {
    let place = bytes.iter().position(|&other| other == byte)?;
    Some((&bytes[..place], &bytes[place + 1..]))
}

fn nak(reply: &mut [u8], code: Code) -> usize {
    reply[..4].copy_from_slice(&[0x15, code[0], code[1], b'\r']);
    4
}
