//! `egrivundo serve` over loopback. What it answers is compared with the
//! reference, line for line.
//!
//! All are in one program, so that the minute of `any_bytes`, which comes first
//! by its name, passes beside the others.

#[path = "serve/any_bytes.rs"]
mod any_bytes;
#[path = "serve/bad_state.rs"]
mod bad_state;
#[path = "serve/clients.rs"]
mod clients;
#[path = "serve/cuts.rs"]
mod cuts;
#[path = "serve/end.rs"]
mod end;
#[path = "serve/flood.rs"]
mod flood;
#[path = "serve/kill.rs"]
mod kill;
#[path = "serve/log.rs"]
mod log;
#[path = "serve/model.rs"]
mod model;
#[path = "serve/script.rs"]
mod script;
#[path = "serve/server.rs"]
mod server;
#[path = "serve/slow.rs"]
mod slow;
#[path = "serve/state_names.rs"]
mod state_names;
#[path = "serve/unread_log.rs"]
mod unread_log;
