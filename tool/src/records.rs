//! The records of a table, read from its bytes. They are read only after the library took the table for valid.

use hondivole::{Date, Kind};

/// A body's entry.
#[derive(Clone, Debug, PartialEq, Eq)]
pub struct Body {
    /// Its code.
    pub code: String,
    /// How many slots it has.
    pub slots: usize,
    /// The last year that it closed; 0 before the first.
    pub closed: u64,
    /// Where its first slot stands.
    place: usize,
}

/// An order's record.
#[derive(Clone, Debug, PartialEq, Eq)]
pub struct Record {
    /// Mandato or reversale.
    pub kind: Kind,
    /// Whether it is annulled.
    pub annulled: bool,
    /// The year of the books.
    pub esercizio: u64,
    /// Its number.
    pub number: u64,
    /// Its date.
    pub date: Date,
    /// Its total in cents.
    pub total: u64,
    /// Its lines, in order.
    pub lines: Vec<Line>,
}

/// A line of an order.
#[derive(Clone, Copy, Debug, PartialEq, Eq)]
pub struct Line {
    /// Its amount in cents.
    pub cents: u64,
    /// What became of it.
    pub state: LineState,
}

/// What became of a line.
#[derive(Clone, Copy, Debug, PartialEq, Eq)]
pub enum LineState {
    /// No notice of the bank's stands.
    Waiting,
    /// The bank executed it.
    Executed,
    /// A SOSTITUZIONE put another in its place.
    Replaced,
}

impl LineState {
    /// The state's word.
    pub fn word(self) -> &'static str {
        match self {
            LineState::Waiting => "waiting",
            LineState::Executed => "executed",
            LineState::Replaced => "replaced",
        }
    }
}

/// A number whose highest byte stands first.
fn number(bytes: &[u8], from: usize, count: usize) -> u64 {
    bytes[from..from + count].iter().fold(0, |number, byte| number << 8 | u64::from(*byte))
}

/// The bodies of a valid table.
pub fn bodies(table: &[u8]) -> Vec<Body> {
    let entries = (0..number(table, 0, 2) as usize).map(|i| &table[16 + 48 * i..16 + 48 * (i + 1)]);
    let body = |entry: &[u8]| Body {
        code: String::from_utf8_lossy(&entry[1..1 + usize::from(entry[0])]).into_owned(),
        slots: number(entry, 18, 2) as usize,
        closed: number(entry, 40, 2),
        place: number(entry, 20, 4) as usize,
    };
    entries.map(body).collect()
}

/// The records of a body of a valid table, in the order of its slots.
pub fn records(table: &[u8], body: &Body) -> Vec<Record> {
    let slots = (0..body.slots).map(|i| &table[body.place + 96 * i..body.place + 96 * (i + 1)]);
    slots.map_while(record).collect()
}

/// The record in a slot; `None` where it is empty.
fn record(slot: &[u8]) -> Option<Record> {
    let kind = [Kind::Mandato, Kind::Reversale].into_iter().find(|kind| *kind as u8 == slot[0])?;
    let state = |byte: u8| match byte {
        2 => LineState::Executed,
        3 => LineState::Replaced,
        _ => LineState::Waiting,
    };
    let line = |i: usize| Line { cents: number(slot, 32 + 8 * i, 8), state: state(slot[24 + i]) };
    Some(Record {
        kind,
        annulled: slot[1] == 2,
        esercizio: number(slot, 4, 2),
        number: number(slot, 8, 4),
        date: Date { year: number(slot, 12, 2), month: slot[14].into(), day: slot[15].into() },
        total: number(slot, 16, 8),
        lines: (0..usize::from(slot[2]).min(8)).map(line).collect(),
    })
}
