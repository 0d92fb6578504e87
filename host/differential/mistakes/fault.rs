//! Why a line was answered with 99.

use super::Mistake;

pub const MISTAKES: &[Mistake] = &[
    (
        "fault_65",
        "an overrun is told at byte 65",
        "line.rs",
        "Some((Cause::Overrun, 64))",
        "Some((Cause::Overrun, 65))",
    ),
    (
        "fault_closing",
        "the closing quote is missed at the opening one",
        "line.rs",
        "(Cause::NoClosingQuote, line.len())",
        "(Cause::NoClosingQuote, passed)",
    ),
    (
        "fault_verb_alone",
        "a verb alone is told as no verb",
        "line.rs",
        "line.split_at_checked(2).ok_or(no_verb)?",
        "line.split_at_checked(2).filter(|(_, rest)| !rest.is_empty()).ok_or(no_verb)?",
    ),
    (
        "fault_verb_end",
        "the verb is missed behind it",
        "line.rs",
        "(Cause::NoVerb, 0)",
        "(Cause::NoVerb, line.len().min(2))",
    ),
    (
        "fault_space",
        "the opening quote is missed at the space",
        "line.rs",
        "(Cause::NoOpeningQuote, passed)",
        "(Cause::NoOpeningQuote, 2)",
    ),
    (
        "fault_opening_end",
        "the opening quote is missed at the line's end",
        "line.rs",
        "(Cause::NoOpeningQuote, passed)",
        "(Cause::NoOpeningQuote, line.len())",
    ),
    (
        "fault_equals",
        "the = is missed behind the closing quote",
        "line.rs",
        "(Cause::NoEquals, line.len())",
        "(Cause::NoEquals, line.len() - rest.len())",
    ),
    (
        "fault_equals_label",
        "the = is missed at one in the label",
        "line.rs",
        "(Cause::NoEquals, line.len())",
        "(Cause::NoEquals, line.iter().position(|&byte| byte == b'=').unwrap_or(line.len()))",
    ),
    (
        "fault_order",
        "the = is missed before the closing quote",
        "line.rs",
        "quotes.ok_or((Cause::NoClosingQuote, line.len()))?",
        "quotes.ok_or(if set && !line.contains(&b'=') { (Cause::NoEquals, line.len()) } else { (Cause::NoClosingQuote, line.len()) })?",
    ),
    (
        "fault_chunk",
        "a place is counted in the last piece",
        "port.rs",
        "[cause as usize, place]",
        "[cause as usize, place.min(end)]",
    ),
    (
        "fault_waiting",
        "the call that overruns the line tells it",
        "port.rs",
        "[given.len(), 0, 0, 0]",
        "[given.len(), 0, usize::from(port[1] != 0), 0]",
    ),
    (
        "fault_code",
        "a label that no module bears is told as a fault",
        "line.rs",
        "Err(Wrong::Code(code)) => (nak(reply, code), None)",
        "Err(Wrong::Code(code)) => (nak(reply, code), (code == LABEL).then_some((Cause::NoVerb, 0)))",
    ),
];
