//! Module types in the files and in the story.

use egrivundo::Type;

use crate::lines::{quoted, Fault};

const MIXER: &str = "standard-mixer";

/// Said of a wish that is given as a room.
pub const WISH_GIVEN: &str =
    "this is a wish, where a room is expected: in a room each module has its \
                              type before the label.";

/// Said of a room that is given as a wish.
pub const ROOM_GIVEN: &str =
    "this is a room, where a wish is expected: in a wish a module is named \
                              by its label alone.";

/// Type and label of a room's module: `TYPE "LABEL"`, and behind a mixer's
/// label its size, `8x4` for eight inputs and four outputs.
pub fn read_module(text: &str, line: usize) -> Result<(Type, &str), Fault> {
    if text.starts_with('"') || text.parse::<usize>().is_ok() {
        return Err(Fault::new(line, WISH_GIVEN));
    }
    let Some((kind, rest)) = text.split_once(char::is_whitespace) else {
        return Err(Fault::new(line, "write: module TYPE \"LABEL\""));
    };
    let rest = rest.trim();
    if kind != MIXER && kind != "7" {
        return Ok((read_fixed(kind, line)?, quoted(rest, line)?));
    }
    let sized = rest
        .rsplit_once(char::is_whitespace)
        .and_then(|(label, size)| {
            let (inputs, outputs) = size.split_once('x')?;
            let (inputs, outputs) = (read_size(inputs)?, read_size(outputs)?);
            Some((Type::StandardMixer { inputs, outputs }, label.trim()))
        });
    let Some((kind, label)) = sized else {
        let message = "a mixer has 1 to 32 inputs and outputs: module standard-mixer \"LABEL\" 8x4";
        return Err(Fault::new(line, message));
    };
    Ok((kind, quoted(label, line)?))
}

/// What `read_module` reads.
pub fn module_text(kind: Type, label: &str) -> String {
    match kind {
        Type::StandardMixer { inputs, outputs } => {
            format!("{MIXER} \"{label}\" {inputs}x{outputs}")
        }
        fixed => format!("{} \"{label}\"", word(fixed)),
    }
}

fn read_size(text: &str) -> Option<u8> {
    let digits = text.bytes().all(|byte| byte.is_ascii_digit());
    let size = text.parse().ok().filter(|_| digits)?;
    (1..=32).contains(&size).then_some(size)
}

/// A type with fixed rows, by word or number.
fn read_fixed(text: &str, line: usize) -> Result<Type, Fault> {
    let named = |kind: &Type| word(*kind) == text || kind.number().to_string() == text;
    Type::FIXED.into_iter().find(named).ok_or_else(|| {
        let mut words: Vec<&str> = Type::FIXED.into_iter().map(word).collect();
        words.push(MIXER);
        let message = format!("no module type: {text} (there are {})", words.join(", "));
        Fault::new(line, message)
    })
}

/// Of a type with fixed rows.
fn word(kind: Type) -> &'static str {
    match kind {
        Type::ToneControlEq => "tone-control-eq",
        Type::SmartBass => "smartbass",
        Type::DynamicEq => "dynamic-eq",
        Type::RoomCombiner => "room-combiner",
        Type::ConferenceRouter => "conference-router",
        Type::FeedbackSuppression => "feedback-suppression",
        _ => "",
    }
}

#[cfg(test)]
mod tests {
    use super::*;

    #[test]
    fn modules() {
        let desk = |inputs, outputs| Type::StandardMixer { inputs, outputs };
        for (text, module) in [
            ("smartbass \"S\"", (Type::SmartBass, "S")),
            ("2  \"Two words\"", (Type::SmartBass, "Two words")),
            ("standard-mixer \"Desk\" 8x4", (desk(8, 4), "Desk")),
            ("7 \"Two 1x1\"  32x1", (desk(32, 1), "Two 1x1")),
            ("7\t\"Tab\"\t2x1", (desk(2, 1), "Tab")),
        ] {
            assert_eq!(read_module(text, 1), Ok(module), "{text}");
        }
        for wrong in [
            "smartbass",
            "mixer \"Desk\"",
            "8 \"Desk\"",
            "smartbass \"S\" 8x4",
            "standard-mixer \"Desk\"",
            "standard-mixer \"Desk 8x4\"",
            "standard-mixer 8x4",
            "standard-mixer Desk 8x4",
            "standard-mixer \"Desk\" 8",
            "standard-mixer \"Desk\" 0x4",
            "standard-mixer \"Desk\" 8x33",
            "standard-mixer \"Desk\" 8x+4",
            "standard-mixer \"Desk\" 8 x 4",
            "standard-mixer \"Desk\" 256x4",
        ] {
            assert!(read_module(wrong, 1).is_err(), "{wrong}");
        }
    }

    #[test]
    fn wishes() {
        for text in ["\"Commentary\"", "\"Two words\"", "3"] {
            assert_eq!(
                read_module(text, 7),
                Err(Fault::new(7, WISH_GIVEN)),
                "{text}"
            );
        }
    }
}
