//! A case: a table and the calls made on it.

use std::fmt::{self, Write};

use reference::message::{GIVEN, ReadAnswer, WriteAnswer};
use reference::table::{HEAD, SLOT, number_at};
use reference::{CloseAnswer, FlowAnswer, Form, Notice, NoticeAnswer, SalvageAnswer, Totals};

/// A table and calls on it, one after another.
#[derive(Clone, PartialEq, Eq)]
pub struct Case {
    /// The table's bytes before the first call; any bytes.
    pub table: Vec<u8>,
    /// The calls.
    pub calls: Vec<Call>,
}

/// The caller's nine values for a message, in the order of the C function.
pub type Values = [Vec<u8>; 9];

/// One call.
#[derive(Clone, PartialEq, Eq)]
pub enum Call {
    /// Opens a table in a buffer of `room` bytes, which is the case's table from here on.
    Open {
        /// The request.
        request: Vec<u8>,
        /// The length of the lent buffer.
        room: usize,
    },
    /// Converts a table 1 into a buffer of `room` bytes, which is the case's table from here on.
    Convert {
        /// The table 1.
        old: Vec<u8>,
        /// The length of the lent buffer.
        room: usize,
    },
    /// Repairs a damaged table, which is the case's table from here on, with a report of `room` bytes.
    Salvage {
        /// The damaged table.
        damaged: Vec<u8>,
        /// The length of the report.
        room: usize,
    },
    /// Takes a flow with an outcome buffer of `room` bytes.
    Flow {
        /// The edition's number.
        edition: u64,
        /// The flow.
        flow: Vec<u8>,
        /// The length of the outcome buffer.
        room: usize,
    },
    /// Takes a notice of execution.
    Execute {
        /// The body's code.
        body: Vec<u8>,
        /// What it names besides.
        notice: Notice,
    },
    /// Takes a notice of reversal.
    Reverse {
        /// The body's code.
        body: Vec<u8>,
        /// What it names besides.
        notice: Notice,
    },
    /// Reports totals.
    Totals {
        /// The body's code.
        body: Vec<u8>,
    },
    /// Writes a message into a buffer of `room` bytes.
    Write {
        /// The edition's number.
        edition: u64,
        /// The flow.
        flow: Vec<u8>,
        /// Its outcome bytes.
        outcomes: Vec<u8>,
        /// What the caller gives.
        values: Values,
        /// The length of the buffer.
        room: usize,
    },
    /// Reads a message into values of `room` bytes.
    Read {
        /// The edition's number.
        edition: u64,
        /// The message.
        message: Vec<u8>,
        /// The length of the values.
        room: usize,
    },
    /// Reads a message and writes it again into a buffer of `room` bytes.
    Rewrite {
        /// The edition's number.
        edition: u64,
        /// The message.
        message: Vec<u8>,
        /// The length of the buffer.
        room: usize,
    },
    /// Checks a cash journal.
    Journal {
        /// The body's code.
        body: Vec<u8>,
        /// Its movements.
        movements: Vec<u8>,
    },
    /// Closes a year.
    Close {
        /// The body's code.
        body: Vec<u8>,
        /// The year.
        year: u64,
    },
}

/// What a call answers.
#[derive(Clone, Copy, Debug, PartialEq, Eq)]
pub enum Answer {
    /// The code of an opening.
    Open(u64),
    /// The code of a conversion.
    Convert(u64),
    /// The answer to a flow.
    Flow(FlowAnswer),
    /// The answer to a notice.
    Notice(NoticeAnswer),
    /// The answer to a totals call.
    Totals(Totals),
    /// The answer to writing a message, or to writing it again.
    Write(WriteAnswer),
    /// The answer to reading a message.
    Read(ReadAnswer),
    /// The code of a journal.
    Journal(u64),
    /// The answer to a repair.
    Salvage(SalvageAnswer),
    /// The answer to a close.
    Close(CloseAnswer),
}

impl Answer {
    /// The answer's code.
    pub fn code(&self) -> u64 {
        match self {
            Answer::Open(code) | Answer::Convert(code) | Answer::Journal(code) => *code,
            Answer::Flow(answer) => answer.code,
            Answer::Notice(answer) => answer.code,
            Answer::Totals(answer) => answer.code,
            Answer::Write(answer) => answer.code,
            Answer::Read(answer) => answer.code,
            Answer::Salvage(answer) => answer.code,
            Answer::Close(answer) => answer.code,
        }
    }
}

impl Case {
    /// How long the case is: its bytes, and something for each call and each number.
    pub fn cost(&self) -> usize {
        let calls = self.calls.iter().map(|call| match call {
            Call::Open { request, room } => 16 + request.len() + digits(*room as u64),
            Call::Convert { old, room } => 16 + old.len() + digits(*room as u64),
            Call::Salvage { damaged, room } => 16 + damaged.len() + digits(*room as u64),
            Call::Flow { edition, flow, room } => 16 + flow.len() + digits(*edition) + digits(*room as u64),
            Call::Execute { body, notice } | Call::Reverse { body, notice } => {
                let (year, month, day) = notice.date;
                let numbers = [notice.kind, notice.esercizio, notice.number, notice.line, year, month, day];
                16 + body.len() + numbers.map(digits).iter().sum::<usize>()
            }
            Call::Totals { body } => 16 + body.len(),
            Call::Write { edition, flow, outcomes, values, room } => {
                let values = values.iter().map(Vec::len).sum::<usize>();
                16 + flow.len() + outcomes.len() + values + digits(*edition) + digits(*room as u64)
            }
            Call::Read { edition, message, room } | Call::Rewrite { edition, message, room } => {
                16 + message.len() + digits(*edition) + digits(*room as u64)
            }
            Call::Journal { body, movements } => 16 + body.len() + movements.len(),
            Call::Close { body, year } => 16 + body.len() + digits(*year),
        });
        self.table.len() + calls.sum::<usize>()
    }
}

fn digits(number: u64) -> usize {
    number.checked_ilog10().map_or(0, |log| log as usize + 1)
}

/// The bytes as a Rust expression of type `Vec<u8>`, with long runs of one byte written short.
pub fn literal(bytes: &[u8]) -> String {
    let mut parts = Vec::new();
    let mut plain = Vec::new();
    let mut rest = bytes;
    while let Some(&first) = rest.first() {
        let run = rest.iter().take_while(|&&byte| byte == first).count();
        if run >= 20 {
            if !plain.is_empty() {
                parts.push(format!("&b\"{}\"[..]", std::mem::take(&mut plain).escape_ascii()));
            }
            parts.push(format!("&[{first}; {run}]"));
        } else {
            plain.extend(&rest[..run]);
        }
        rest = &rest[run..];
    }
    if parts.is_empty() {
        return format!("b\"{}\".to_vec()", plain.escape_ascii());
    }
    if !plain.is_empty() {
        parts.push(format!("b\"{}\"", plain.escape_ascii()));
    }
    if let Some(short) = parts[0].strip_prefix("&[") {
        parts[0] = format!("&[{short}[..]");
    }
    format!("[{}].concat()", parts.join(", "))
}

/// The case as a Rust expression.
impl fmt::Debug for Case {
    fn fmt(&self, to: &mut fmt::Formatter) -> fmt::Result {
        writeln!(to, "Case {{\n    table: {},\n    calls: vec![", literal(&self.table))?;
        for call in &self.calls {
            writeln!(to, "        {call:?},")?;
        }
        to.write_str("    ],\n}")
    }
}

/// The call as a Rust expression.
impl fmt::Debug for Call {
    fn fmt(&self, to: &mut fmt::Formatter) -> fmt::Result {
        match self {
            Call::Open { request, room } => write!(to, "Call::Open {{ request: {}, room: {room} }}", literal(request)),
            Call::Convert { old, room } => write!(to, "Call::Convert {{ old: {}, room: {room} }}", literal(old)),
            Call::Salvage { damaged, room } => {
                write!(to, "Call::Salvage {{ damaged: {}, room: {room} }}", literal(damaged))
            }
            Call::Flow { edition, flow, room } => {
                write!(to, "Call::Flow {{ edition: {edition}, flow: {}, room: {room} }}", literal(flow))
            }
            Call::Execute { body, notice } => write!(to, "Call::Execute {{ body: {}, notice: {notice:?} }}", literal(body)),
            Call::Reverse { body, notice } => write!(to, "Call::Reverse {{ body: {}, notice: {notice:?} }}", literal(body)),
            Call::Totals { body } => write!(to, "Call::Totals {{ body: {} }}", literal(body)),
            Call::Write { edition, flow, outcomes, values, room } => {
                let values = values.iter().map(|value| literal(value)).collect::<Vec<_>>().join(", ");
                let (flow, outcomes) = (literal(flow), literal(outcomes));
                write!(
                    to,
                    "Call::Write {{ edition: {edition}, flow: {flow}, outcomes: {outcomes}, values: [{values}], room: {room} }}"
                )
            }
            Call::Read { edition, message, room } => {
                write!(to, "Call::Read {{ edition: {edition}, message: {}, room: {room} }}", literal(message))
            }
            Call::Rewrite { edition, message, room } => {
                write!(to, "Call::Rewrite {{ edition: {edition}, message: {}, room: {room} }}", literal(message))
            }
            Call::Journal { body, movements } => {
                write!(to, "Call::Journal {{ body: {}, movements: {} }}", literal(body), literal(movements))
            }
            Call::Close { body, year } => write!(to, "Call::Close {{ body: {}, year: {year} }}", literal(body)),
        }
    }
}

/// The case as text for a reader.
impl fmt::Display for Case {
    fn fmt(&self, to: &mut fmt::Formatter) -> fmt::Result {
        writeln!(to, "{}", table_text(&self.table, Form::Two))?;
        for (index, call) in self.calls.iter().enumerate() {
            writeln!(to, "call {index}: {call}")?;
        }
        Ok(())
    }
}

/// The call as text for a reader.
impl fmt::Display for Call {
    fn fmt(&self, to: &mut fmt::Formatter) -> fmt::Result {
        let notice = |to: &mut fmt::Formatter, what: &str, body: &[u8], notice: &Notice| {
            let Notice { kind, esercizio, number, line, date } = notice;
            write!(to, "{what} body {} kind {kind} esercizio {esercizio} number {number} line {line} date {date:?}", quoted(body))
        };
        match self {
            Call::Open { request, room } => {
                write!(to, "open in {room} bytes, request of {} bytes {}", request.len(), quoted(request))
            }
            Call::Convert { old, room } => write!(to, "convert into {room} bytes, old {}", table_text(old, Form::One)),
            Call::Salvage { damaged, room } => {
                write!(to, "repair, with {room} bytes of report, a {}", table_text(damaged, Form::Two))
            }
            Call::Flow { edition, flow, room } => {
                write!(to, "flow of edition {edition}, {} bytes, room {room}:\n{}", flow.len(), text(flow))
            }
            Call::Execute { body, notice: named } => notice(to, "execute", body, named),
            Call::Reverse { body, notice: named } => notice(to, "reverse", body, named),
            Call::Totals { body } => write!(to, "totals body {}", quoted(body)),
            Call::Write { edition, flow, outcomes, values, room } => {
                write!(to, "write a message of edition {edition} into {room} bytes, outcomes {outcomes:?}")?;
                for (name, value) in GIVEN.iter().zip(values) {
                    write!(to, ", {name} {}", quoted(value))?;
                }
                write!(to, ", flow of {} bytes:\n{}", flow.len(), text(flow))
            }
            Call::Read { edition, message, room } => {
                write!(to, "read a message, edition {edition}, of {} bytes, room {room}:\n{}", message.len(), text(message))
            }
            Call::Rewrite { edition, message, room } => {
                write!(to, "write again a message, edition {edition}, of {} bytes, room {room}:\n{}", message.len(), text(message))
            }
            Call::Journal { body, movements } => {
                write!(to, "journal body {} of {} bytes", quoted(body), movements.len())?;
                movements.chunks(16).try_for_each(|movement| write!(to, "\n  {movement:?}"))
            }
            Call::Close { body, year } => write!(to, "close body {} year {year}", quoted(body)),
        }
    }
}

fn quoted(bytes: &[u8]) -> String {
    format!("\"{}\"", bytes.escape_ascii())
}

/// A flow with what is no printable text escaped.
fn text(flow: &[u8]) -> String {
    let mut shown = String::new();
    for chunk in flow.utf8_chunks() {
        for character in chunk.valid().chars() {
            if character.is_control() && character != '\n' {
                shown.extend(character.escape_unicode());
            } else {
                shown.push(character);
            }
        }
        let _ = write!(shown, "{}", chunk.invalid().escape_ascii());
    }
    shown
}

/// A table field by field, as far as its bytes go.
fn table_text(table: &[u8], form: Form) -> String {
    let mut shown = format!("table of {} bytes", table.len());
    let Some((head, mut rest)) = table.split_at_checked(HEAD) else {
        return shown;
    };
    let bodies = number_at(head, 0, 2);
    let _ = write!(
        shown,
        ": bodies {bodies}, form {}, length {}, ABI {}, rest {:?}",
        number_at(head, 2, 2),
        number_at(head, 4, 4),
        quoted(&head[8..13]),
        &head[13..],
    );
    for _ in 0..bodies {
        let Some((entry, after)) = rest.split_at_checked(form.entry()) else {
            return shown;
        };
        rest = after;
        let _ = write!(
            shown,
            "\n  body: length {}, code {}, byte 17 {}, slots {}, place {}, rest {:?}{}",
            entry[0],
            quoted(&entry[1..17]),
            entry[17],
            number_at(entry, 18, 2),
            number_at(entry, 20, 4),
            &entry[24..],
            if form == Form::Two { format!(", closed {}", number_at(entry, 40, 2)) } else { String::new() },
        );
    }
    for (index, slot) in rest.chunks(SLOT).enumerate() {
        if slot.len() < SLOT || slot.iter().all(|&byte| byte == 0) {
            continue;
        }
        let amounts: Vec<u64> = (0..8).map(|line| number_at(slot, 32 + 8 * line, 8)).collect();
        let _ = write!(
            shown,
            "\n  slot {index}: kind {}, state {}, lines {}, {}, esercizio {}, {:?}, number {}, date {}-{}-{}, total {}, states {:?}, amounts {amounts:?}",
            slot[0],
            slot[1],
            slot[2],
            slot[3],
            number_at(slot, 4, 2),
            &slot[6..8],
            number_at(slot, 8, 4),
            number_at(slot, 12, 2),
            slot[14],
            slot[15],
            number_at(slot, 16, 8),
            &slot[24..32],
        );
    }
    shown
}

#[cfg(test)]
mod tests {
    use super::*;

    #[test]
    fn literals_are_rust() {
        assert_eq!(literal(b""), r#"b"".to_vec()"#);
        assert_eq!(literal(b"a\"\xFF"), r#"b"a\"\xff".to_vec()"#);
        let zeros = [&b"a"[..], &[0; 20], b"b"].concat();
        assert_eq!(literal(&zeros), r#"[&b"a"[..], &[0; 20], b"b"].concat()"#);
        assert_eq!(literal(&[7; 30]), "[&[7; 30][..]].concat()");
    }
}
