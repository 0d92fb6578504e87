//! A safe interface to the proved control core of a viewing room's sound box.
//!
//! [`calls`] has the functions of the archive over slices and blocks of fixed
//! size. [`Room`], [`Port`], [`Panels`] and [`List`] stand above them.
//!
//! ```
//! use egrivundo::{Port, Room, Type};
//!
//! let mut room = Room::new(&[
//!     (Type::ToneControlEq, "T"),
//!     (Type::SmartBass, "S"),
//! ])?;
//! let mut port = Port::new();
//!
//! // A set line and the start of a get line come in one piece.
//! let fed = room.feed(&mut port, b"SA\"T\">1=-4\rGA\"T")?;
//! assert_eq!(fed.consumed, 11);
//! assert!(fed.reply.is_ack());
//!
//! // The rest of the piece finishes no line, so there is no reply.
//! let fed = room.feed(&mut port, b"GA\"T")?;
//! assert!(fed.reply.is_empty());
//! assert_eq!(port.held(), b"GA\"T");
//!
//! let fed = room.feed(&mut port, b"\">1\r")?;
//! assert_eq!(fed.reply.bytes(), b"GA\"T\">1=-4\r");
//! assert_eq!(room.values(), [-40, 0, 0, 0, 0, 0, 0]);
//! # Ok::<(), egrivundo::Refusal>(())
//! ```

#![deny(unsafe_code)]
#![warn(missing_docs)]

pub mod calls;
mod fault;
mod index;
mod kind;
mod list;
mod panels;
mod port;
mod refusal;
mod reply;
mod room;
mod row;
mod rows;
mod wish;

pub use fault::{Cause, Fault};
pub use index::{Index, IndexError};
pub use kind::Type;
pub use list::{List, Size};
pub use panels::{Panels, Turned};
pub use port::Port;
pub use refusal::Refusal;
pub use reply::Reply;
pub use room::{Fed, Module, Room};
pub use row::{bit, Kind, Row};
pub use wish::{Beyond, Why, Wish, WishError};
