//! Counted and listed words.

/// `1 line`, `4 lines`.
pub fn counted(count: usize, word: &str) -> String {
    match count {
        1 => format!("1 {word}"),
        _ => format!("{count} {word}s"),
    }
}

/// `A`, `A and B`, `A, B and C`.
pub fn listed(words: &[String]) -> String {
    match words {
        [] => String::new(),
        [only] => only.clone(),
        [first @ .., last] => format!("{} and {last}", first.join(", ")),
    }
}

#[cfg(test)]
mod tests {
    use super::*;

    #[test]
    fn plurals() {
        for (count, text) in [(0, "0 bytes"), (1, "1 byte"), (2, "2 bytes")] {
            assert_eq!(counted(count, "byte"), text);
        }
        let words = ["A", "B", "C"].map(String::from);
        let texts = [0, 1, 2, 3].map(|count| listed(&words[..count]));
        assert_eq!(texts, ["", "A", "A and B", "A, B and C"]);
    }
}
