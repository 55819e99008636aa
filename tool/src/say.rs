//! Where answers go: standard output, in words or for programs.

use std::io::{self, Write};

use crate::fault::Fault;
use crate::json::Json;

/// How a command says its answers.
#[derive(Clone, Copy)]
pub struct Say {
    /// Whether they are for programs: one object a line.
    pub json: bool,
}

impl Say {
    /// Says one answer, at once: what was answered is then on disk, and read by whoever waits for it.
    pub fn answer(&self, words: &str, json: &Json) -> Result<(), Fault> {
        let mut out = io::stdout().lock();
        let said = if self.json { writeln!(out, "{json}") } else { writeln!(out, "{words}") };
        let unheard = |error| Fault::File(format!("standard output: {error}: the answer could not be told, but it stands"));
        said.and_then(|()| out.flush()).map_err(unheard)
    }

    /// Says on standard error where a longer run is. Nobody has to read it.
    pub fn progress(&self, words: &str) {
        let _ = writeln!(io::stderr(), "hondivole: {words}");
    }
}
