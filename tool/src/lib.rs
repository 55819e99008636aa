//! The order desk at a terminal.
//!
//! A table is a file of the table's bytes and nothing else. A change is written beside it and renamed over it, under a lock, after the call
//! and its answer went into a log; so the file is the table before or after a call, whatever happens, and the log says how it came to be.
//! docs/TOOL.md has the files, the log's form and what a crash leaves. A command is one module of [`commands`] and one line of its table.

mod args;
mod call;
pub mod commands;
mod desk;
mod digest;
mod disk;
mod fault;
mod json;
mod log;
mod place;
mod records;
mod say;
mod time;
mod words;

pub use commands::run;
