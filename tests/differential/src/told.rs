//! Writes down what an engine made of every message of a run, for a reader that knows nothing of it: see tests/expat.
//!
//! A record is a line, and the bytes of its parts one after another. The line has the record's kind and each part's length:
//! `written`: the edition in one byte, the flow, the outcome bytes, the caller's nine values, the message, the values read from it;
//! `again`: a message and what it was written again as; `read`: a message and the values read from it.

use std::fs::File;
use std::io::{BufWriter, Write};

use crate::case::{Answer, Call};
use crate::compare::Served;
use crate::engine::Engine;

/// A file of records.
pub struct Told(BufWriter<File>);

impl Told {
    /// Records for this file.
    pub fn new(file: File) -> Told {
        Told(BufWriter::new(file))
    }

    /// Writes down a call that wrote or read a message; nothing for another call or a refusal.
    pub fn tell(&mut self, engine: &dyn Engine, call: &Call, served: &Served) {
        match (call, &served.answer) {
            (Call::Write { edition, flow, outcomes, values, .. }, Answer::Write(answer)) if answer.code == 0 => {
                let message = &served.written[..answer.length as usize];
                let (edition, read) = ([*edition as u8], values_of(engine, message));
                let mut parts: Vec<&[u8]> = vec![&edition, flow, outcomes];
                parts.extend(values.iter().map(|value| &value[..]));
                parts.extend([message, &read]);
                self.record("written", &parts);
            }
            (Call::Rewrite { message, .. }, Answer::Write(answer)) if answer.code == 0 => {
                self.record("again", &[message, &served.written[..answer.length as usize]]);
            }
            (Call::Read { message, .. }, Answer::Read(answer)) if answer.code == 0 => {
                self.record("read", &[message, &served.written[..80 + 48 * answer.entries as usize]]);
            }
            _ => {}
        }
    }

    fn record(&mut self, kind: &str, parts: &[&[u8]]) {
        let lengths: Vec<_> = parts.iter().map(|part| part.len().to_string()).collect();
        let lines = writeln!(self.0, "{kind} {}", lengths.join(" "))
            .and_then(|()| parts.iter().try_for_each(|part| self.0.write_all(part)));
        lines.expect("what is told can be written");
    }
}

/// The values that the engine reads from what it wrote.
fn values_of(engine: &dyn Engine, message: &[u8]) -> Vec<u8> {
    let (mut values, mut entries) = (vec![0; 3_152], 0);
    let code = engine.message_read(1, message, &mut values, &mut entries, &mut 0, &mut 0);
    assert_eq!(code, 0, "what was written can be read");
    values.truncate(80 + 48 * entries as usize);
    values
}
