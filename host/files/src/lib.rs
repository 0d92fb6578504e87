//! Rooms and wishes kept as text; `host/README.md` has the form of the files.

mod disk;
mod given;
mod hindrance;
pub mod lines;
mod parameter;
mod replace;
pub mod room_file;
pub mod room_text;
pub mod saved;
mod types;
pub mod value;
pub mod wish_file;
pub mod words;

pub use disk::{beside, read_given, read_room, read_text, write};
pub use given::Given;
pub use hindrance::Hindrance;
pub use lines::Fault;
pub use replace::replace;
pub use wish_file::Wish;
