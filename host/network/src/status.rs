//! The statuses that the program ends with; 0 is done.

/// The answer is no, or a file is wrong.
pub const REFUSED: u8 = 1;
/// Wrong words behind the program's name.
pub const USAGE: u8 = 2;
/// The box cannot be reached, or does not answer.
pub const NETWORK: u8 = 3;
/// Something else moved.
pub const MOVED: u8 = 4;

/// Why a command ends early: the status, and what is said.
#[derive(Debug)]
pub struct End(pub u8, pub String);

/// A message without a status of its own is a refusal.
impl From<String> for End {
    fn from(message: String) -> End {
        End(REFUSED, message)
    }
}
