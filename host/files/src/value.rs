//! Values in the files and in the story.

use egrivundo::{bit, Kind, Row};

/// A value as a file writes it: `-4`, `0.5`; `on` or `O`, `off` or `F`; `3`;
/// `80000001`.
pub fn read_value(kind: Kind, text: &str) -> Option<i64> {
    let digits = |text: &str| match text.bytes().all(|byte| byte.is_ascii_digit()) {
        true => text.parse::<i64>().ok().filter(|&number| number < 100_000),
        false => None,
    };
    match kind {
        Kind::Switch => match text {
            "on" | "O" => Some(1),
            "off" | "F" => Some(0),
            _ => None,
        },
        Kind::Number => digits(text),
        Kind::Word => {
            let hex = |byte: u8| byte.is_ascii_digit() || (b'A'..=b'F').contains(&byte);
            let right = text.len() == 8 && text.bytes().all(hex);
            i64::from_str_radix(text, 16).ok().filter(|_| right)
        }
        Kind::Level => {
            let (sign, size) = match text.strip_prefix('-') {
                Some(size) => (-1, size),
                None => (1, text),
            };
            let (whole, tenth) = size.split_once('.').unwrap_or((size, "0"));
            if tenth.len() != 1 {
                return None;
            }
            Some(sign * (digits(whole)? * 10 + digits(tenth)?))
        }
        _ => None,
    }
}

/// What a row takes, in words.
pub fn range(row: &Row) -> String {
    match row.kind {
        Kind::Switch => "on or off".to_string(),
        Kind::Number => format!("a number from {} to {}", row.low, row.high),
        Kind::Word => format!(
            "eight hex digits with bits of {} alone, up to {:08X}",
            outputs(row.high),
            row.high
        ),
        Kind::Level => format!(
            "a level from {} to {} dB in steps of {}",
            tenths(row.low),
            tenths(row.high),
            tenths(row.step)
        ),
        _ => format!("{} to {} in steps of {}", row.low, row.high, row.step),
    }
}

/// A value in the story.
pub fn value_text(kind: Kind, value: i64) -> String {
    match kind {
        Kind::Switch if value == 1 => "on".to_string(),
        Kind::Switch => "off".to_string(),
        Kind::Word => format!("{value:08X}"),
        Kind::Level => tenths(value),
        _ => value.to_string(),
    }
}

fn tenths(value: i64) -> String {
    let sign = if value < 0 { "-" } else { "" };
    format!("{sign}{}.{}", value.abs() / 10, value.abs() % 10)
}

/// The outputs of a word: `no output`, `output 3`, `outputs 1-4, 7`.
pub fn outputs(word: i64) -> String {
    let on = |output: u16| (1..=32).contains(&output) && word & bit(output) != 0;
    let firsts = (1..=32).filter(|&output| on(output) && !on(output - 1));
    let runs: Vec<String> = firsts
        .map(
            |first| match (first..).take_while(|&output| on(output)).last() {
                Some(last) if last > first => format!("{first}-{last}"),
                _ => first.to_string(),
            },
        )
        .collect();
    let name = match word.count_ones() {
        0 => return "no output".to_string(),
        1 => "output",
        _ => "outputs",
    };
    format!("{name} {}", runs.join(", "))
}

/// The outputs that are turned between two words: `output 1 on, output 4 off`.
pub fn turned(old: i64, new: i64) -> String {
    let parts = [(new & !old, "on"), (old & !new, "off")];
    let turned = parts.iter().filter(|(word, _)| *word != 0);
    let texts: Vec<String> = turned
        .map(|(word, how)| format!("{} {how}", outputs(*word)))
        .collect();
    texts.join(", ")
}

#[cfg(test)]
mod tests {
    use super::*;

    #[test]
    fn words() {
        for (word, text) in [
            (0, "no output"),
            (0x8000_0000, "output 1"),
            (0x8000_0001, "outputs 1, 32"),
            (0xF200_0000, "outputs 1-4, 7"),
            (0xC000_0003, "outputs 1-2, 31-32"),
            (0xFFFF_FFFF, "outputs 1-32"),
        ] {
            assert_eq!(outputs(word), text);
            assert_eq!(
                read_value(Kind::Word, &value_text(Kind::Word, word)),
                Some(word)
            );
        }
        assert_eq!(
            turned(0x1000_0000, 0xC000_0000),
            "outputs 1-2 on, output 4 off"
        );
        assert_eq!(turned(0xC000_0000, 0x8000_0000), "output 2 off");
        assert_eq!(turned(1, 1), "");
        for wrong in [
            "",
            "0",
            "8000000",
            "800000000",
            "c0000000",
            "+8000000",
            "on",
        ] {
            assert_eq!(read_value(Kind::Word, wrong), None, "{wrong}");
        }
    }
}
