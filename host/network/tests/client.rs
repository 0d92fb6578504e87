//! `egrivundo capture`, `putback`, `shell` and `table`, most of it against a
//! scripted box; all in one program, which is sooner built.

#[path = "client/capture.rs"]
mod capture;
#[path = "client/docs.rs"]
mod docs;
#[path = "client/fake.rs"]
mod fake;
#[path = "client/full_disk.rs"]
mod full_disk;
#[path = "client/program.rs"]
mod program;
#[path = "client/putback.rs"]
mod putback;
#[path = "client/round.rs"]
mod round;
#[path = "client/shell.rs"]
mod shell;
#[path = "client/trouble.rs"]
mod trouble;
#[path = "client/writers.rs"]
mod writers;
