//! The planted mistakes.

mod connection;
mod fault;
mod line;
mod log;
mod mixer;
mod notice;
mod panel;
mod port;
mod restore;
mod route;
mod size;
mod table;
mod turn;
mod values;
mod write;

/// Name, what is wrong, file of the reference, the right text (at one place
/// of the file) and the wrong one.
pub type Mistake = (
    &'static str,
    &'static str,
    &'static str,
    &'static str,
    &'static str,
);

/// All of them, part by part.
pub const MISTAKES: [&[Mistake]; 15] = [
    values::MISTAKES,
    table::MISTAKES,
    line::MISTAKES,
    fault::MISTAKES,
    port::MISTAKES,
    restore::MISTAKES,
    size::MISTAKES,
    write::MISTAKES,
    log::MISTAKES,
    mixer::MISTAKES,
    route::MISTAKES,
    panel::MISTAKES,
    notice::MISTAKES,
    turn::MISTAKES,
    connection::MISTAKES,
];
