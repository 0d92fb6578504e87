use std::str::FromStr;
use std::{error, fmt};

/// How a line names a parameter, or one output of a routing word.
///
/// ```
/// use egrivundo::Index;
///
/// assert_eq!("2>17".parse(), Ok(Index::Two(2, 17)));
/// assert_eq!(">1".parse(), Ok(Index::One(1)));
/// assert_eq!("4>(2,3)".parse(), Ok(Index::Crosspoint { input: 2, output: 3 }));
/// assert_eq!(Index::Two(2, 17).to_string(), "2>17");
/// assert_eq!("2>".parse::<Index>().unwrap_err().to_string(), "no index: 2>");
/// ```
#[derive(Clone, Copy, Debug, PartialEq, Eq, Hash)]
#[non_exhaustive]
pub enum Index {
    /// `1`
    One(u16),
    /// `1>2`
    Two(u16, u16),
    /// `4>(1,2)`: one output of the word of an input.
    Crosspoint {
        /// From 1.
        input: u16,
        /// From 1.
        output: u16,
    },
}

/// A text that is no index: neither `1`, `1>2` nor `4>(1,2)`.
#[derive(Clone, Debug, PartialEq, Eq)]
pub struct IndexError(pub(crate) String);

impl FromStr for Index {
    type Err = IndexError;

    /// A first `>` may be left out; a number has one to three digits, as in a
    /// line.
    fn from_str(text: &str) -> Result<Index, IndexError> {
        let groups = text.strip_prefix('>').unwrap_or(text);
        read(groups).ok_or_else(|| IndexError(text.to_string()))
    }
}

fn read(groups: &str) -> Option<Index> {
    let Some((first, second)) = groups.split_once('>') else {
        return Some(Index::One(number(groups)?));
    };
    let first = number(first)?;
    let Some(pair) = second.strip_prefix('(') else {
        return Some(Index::Two(first, number(second)?));
    };
    let (input, output) = pair.strip_suffix(')')?.split_once(',')?;
    let (input, output) = (number(input)?, number(output)?);
    (first == 4).then_some(Index::Crosspoint { input, output })
}

fn number(text: &str) -> Option<u16> {
    let digits = text.bytes().all(|byte| byte.is_ascii_digit());
    text.parse().ok().filter(|_| digits && text.len() <= 3)
}

impl TryFrom<&str> for Index {
    type Error = IndexError;

    fn try_from(text: &str) -> Result<Index, IndexError> {
        text.parse()
    }
}

impl From<u16> for Index {
    fn from(index: u16) -> Index {
        Index::One(index)
    }
}

impl From<(u16, u16)> for Index {
    fn from((first, second): (u16, u16)) -> Index {
        Index::Two(first, second)
    }
}

impl fmt::Display for Index {
    fn fmt(&self, out: &mut fmt::Formatter) -> fmt::Result {
        let text = match self {
            Index::One(first) => first.to_string(),
            Index::Two(first, second) => format!("{first}>{second}"),
            Index::Crosspoint { input, output } => format!("4>({input},{output})"),
        };
        // As a text, so that a width is kept.
        out.pad(&text)
    }
}

impl fmt::Display for IndexError {
    fn fmt(&self, out: &mut fmt::Formatter) -> fmt::Result {
        write!(out, "no index: {}", self.0)
    }
}

impl error::Error for IndexError {}

#[cfg(test)]
mod tests {
    use super::*;

    #[test]
    fn texts() {
        for (text, index) in [
            ("1", Index::One(1)),
            ("007", Index::One(7)),
            (">0>8", Index::Two(0, 8)),
            (
                ">4>(1,32)",
                Index::Crosspoint {
                    input: 1,
                    output: 32,
                },
            ),
        ] {
            assert_eq!(text.parse(), Ok(index), "{text}");
            assert_eq!(index.to_string().parse(), Ok(index));
        }
        for wrong in [
            "",
            ">",
            ">>1",
            "1>",
            "+1",
            "1 ",
            "0001",
            "1>2>3",
            "x",
            "-1",
            "3>(1,1)",
            "4>(1)",
            "4>(1,1",
            "4>(1,)",
            "4>1,1",
            "(1,1)",
            "4>(1,1)>1",
        ] {
            assert_eq!(wrong.parse::<Index>(), Err(IndexError(wrong.to_string())));
        }
    }
}
