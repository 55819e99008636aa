//! `check`: whether a table is valid, and whether its log leads to it.

use hondivole::{Refusal, Table};

use super::Command;
use crate::args::Args;
use crate::desk;
use crate::digest::digest;
use crate::fault::Fault;
use crate::json::number;
use crate::log::{self, Entry};
use crate::place::Place;
use crate::say::Say;
use crate::words;

pub const COMMAND: Command = Command {
    name: "check",
    usage: "TABLE",
    about: "tells whether a table is valid, and whether its log leads to it",
    more: "It tells the last call that the table has, too, with its code and, of a flow, its orders, how many of them are accepted, and its\n\
           length in bytes: after a crash, that is the last one that was taken. Nothing is changed.",
    taking: &[],
    run,
};

fn run(mut args: Args, say: Say) -> Result<bool, Fault> {
    let path = args.path("TABLE")?;
    args.end()?;
    let place = Place::of_table(&path)?;
    // Others may go on changing the table: what is told is of a call that it had.
    let mut table = desk::look(&path)?;
    if Table::over(&table).totals("") == Err(Refusal::TableNotValid) {
        let refusal = Refusal::TableNotValid;
        let json = words::verdict(Some((refusal, refusal.to_string())));
        say.answer(&format!("{}: {}", words::path(&path), words::refused(refusal, refusal)), &json)?;
        return Ok(false);
    }
    let there = place.log.try_exists().map_err(|error| Fault::file(&place.log, error))?;
    let (calls, last) = if there { logged(&place, &mut table)? } else { (0, None) };
    let text = match &last {
        None => format!("{}: valid, {}, no log", words::path(&path), words::count(table.len(), "byte")),
        Some(last) => format!(
            "{}: valid, {}, {} logged, the last one {}: {}, {}",
            words::path(&path),
            words::count(table.len(), "byte"),
            words::count(calls as usize, "call"),
            words::shown(&last.at),
            last.call.line(),
            answer_words(last)
        ),
    };
    let json = words::verdict(None).with([("bytes", number(table.len() as u64)), ("calls", number(calls))]);
    let json = match last {
        None => json,
        Some(last) => {
            let json = json.with([("last", last.call.line().into()), ("last_code", number(last.answer.code))]);
            let json = match of_flow(&last) {
                None => json,
                Some((orders, accepted, bytes)) => json.with([
                    ("last_orders", number(orders as u64)),
                    ("last_accepted", number(accepted)),
                    ("last_bytes", number(bytes as u64)),
                ]),
            };
            json.with([("at", last.at.into())])
        }
    };
    say.answer(&text, &json)?;
    Ok(true)
}

/// The answer to a logged call: its code and, of a flow, what tells it from others.
fn answer_words(entry: &Entry) -> String {
    let code = format!("code {}", entry.answer.code);
    match of_flow(entry) {
        None => code,
        Some((orders, accepted, bytes)) => {
            format!("{code}, {accepted} of {} accepted, {}", words::count(orders, "order"), words::count(bytes, "byte"))
        }
    }
}

/// A logged flow's orders, how many are accepted, and its length; a refused flow answers no orders.
fn of_flow(entry: &Entry) -> Option<(usize, u64, usize)> {
    let accepted = if entry.answer.code == 0 { entry.answer.number(1) } else { 0 };
    (entry.call.name() == "flow").then_some((entry.answer.rows.len(), accepted, entry.call.bytes.len()))
}

/// How many calls the log has that led to the table, and the last of them. The table is then the one that was there when the log was read.
fn logged(place: &Place, table: &mut Vec<u8>) -> Result<(u64, Option<Entry>), Fault> {
    let mut last: Option<Entry> = None;
    let mut fault = None;
    let now = || match desk::look(&place.table) {
        Ok(bytes) => {
            *table = bytes;
            Some(digest(table))
        }
        Err(error) => {
            fault = Some(error);
            None
        }
    };
    let led = log::led(&place.log, now, |entry| {
        let (number, digest) = last.as_ref().map_or((0, digest(&[])), |last| (last.number, last.after));
        if number.checked_add(1) != Some(entry.number) || entry.before != digest {
            return Err(format!("it doesn't follow on {number}"));
        }
        last = Some(entry);
        Ok(())
    });
    if let Some(fault) = fault {
        return Err(fault);
    }
    let led = led?;
    if led.here == Some(false) {
        return Err(Fault::file(&place.log, format!("it is whole up to byte {}, and doesn't lead to this table", led.end)));
    }
    Ok((last.as_ref().map_or(0, |last| last.number), last))
}
