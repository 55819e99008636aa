//! Why a command ended without an answer of the library.

use std::fmt;
use std::path::Path;

use crate::words;

/// What went wrong before the library was asked, or around it.
#[derive(Debug)]
pub enum Fault {
    /// The command line can't be meant: exit status 2.
    Use(String),
    /// A file could not be read or written: exit status 3.
    File(String),
    /// The same, when the table had the call already.
    Late(String),
}

impl Fault {
    /// A file with what is wrong with it, in the system's words where the system refuses it.
    pub fn file(path: &Path, what: impl fmt::Display) -> Fault {
        Fault::File(format!("{}: {what}", words::path(path)))
    }

    /// The exit status that goes with it.
    pub fn status(&self) -> u8 {
        match self {
            Fault::Use(_) => 2,
            Fault::File(_) | Fault::Late(_) => 3,
        }
    }

    /// The fault with words before its own.
    pub fn after(self, words: &str) -> Fault {
        match self {
            Fault::Use(what) => Fault::Use(format!("{words}{what}")),
            Fault::File(what) => Fault::File(format!("{words}{what}")),
            Fault::Late(what) => Fault::Late(format!("{words}{what}")),
        }
    }
}

impl fmt::Display for Fault {
    fn fmt(&self, to: &mut fmt::Formatter) -> fmt::Result {
        match self {
            Fault::Use(what) | Fault::File(what) | Fault::Late(what) => to.write_str(what),
        }
    }
}
