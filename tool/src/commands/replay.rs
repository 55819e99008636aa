//! `replay`: the table that a log leads to, made again.

use std::path::Path;

use super::Command;
use crate::args::Args;
use crate::call::{Answer, Call, Taken};
use crate::desk::{self, Desk};
use crate::digest::digest;
use crate::fault::Fault;
use crate::json::number;
use crate::log::{self, Entry};
use crate::say::Say;
use crate::words;

pub const COMMAND: Command = Command {
    name: "replay",
    usage: "LOG TABLE",
    about: "makes every call of a log again, from the first, and writes the table that they give",
    more: "TABLE is a file that isn't there yet. Each call has to get the answer that is logged and leave the table that is logged.\n\
           Where LOG stands beside its own table, a last call that did not reach that table is left out. Others may go on changing that\n\
           table meanwhile: the answer is of a call that it had.",
    taking: &[],
    run,
};

fn run(mut args: Args, say: Say) -> Result<bool, Fault> {
    let (log, path) = (args.path("LOG")?, args.path("TABLE")?);
    args.end()?;
    let mut desk = Desk::of_new(&path, say)?;
    let Replayed { table, calls, torn } = replayed(&log)?;
    desk.put(&table)?;
    let mut text =
        format!("{}: {} made again, {}", words::path(&path), words::count(calls, "call"), words::count(table.len(), "byte"));
    if torn > 0 {
        text += &format!("; the log's last {} are no whole entry", words::count(torn as usize, "byte"));
    }
    let json =
        words::verdict(None).with([("calls", number(calls as u64)), ("bytes", number(table.len() as u64)), ("torn", number(torn))]);
    say.answer(&text, &json)?;
    Ok(true)
}

/// The table that a log leads to, how many calls lead there, and how many bytes of the log's end are no whole entry.
struct Replayed {
    table: Vec<u8>,
    calls: usize,
    torn: u64,
}

fn replayed(log: &Path) -> Result<Replayed, Fault> {
    let own = log.to_str().and_then(|name| name.strip_suffix(".log")).map(Path::new);
    let own = || own.and_then(|own| desk::look(own).ok()).map(|table| digest(&table));
    let (mut table, mut calls) = (Vec::new(), 0);
    let led = log::led(log, own, |entry| {
        table = again(&entry, &table, calls)?;
        calls += 1;
        Ok(())
    })?;
    if calls == 0 {
        return Err(Fault::file(log, format!("from byte {} on this is no log", led.end)));
    }
    Ok(Replayed { table, calls, torn: led.torn })
}

/// Makes a call again, and holds it to what is logged.
fn again(entry: &Entry, table: &[u8], calls: usize) -> Result<Vec<u8>, String> {
    if entry.number != calls as u64 + 1 || entry.before != digest(table) {
        return Err("this doesn't follow on the one before".into());
    }
    let taken = entry.call.apply(table).ok_or("this is no call that the desk knows")?;
    if taken.answer != entry.answer {
        return Err("the call gets another answer than the one that is logged".into());
    }
    if digest(&taken.table) != entry.after {
        return Err("the call leaves another table than the one that is logged".into());
    }
    Ok(taken.table)
}

/// The table that was there when its log was begun.
pub fn found(call: &Call, table: &[u8]) -> Option<Taken> {
    table.is_empty().then(|| Taken { table: call.bytes.clone(), answer: Answer::default() })
}
