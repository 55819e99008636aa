//! `salvage`: a table that a disk fault damaged, repaired.
//!
//! The repaired table is a new file with a log of its own: the damaged one and its log stay as they are found, and what a table's history
//! promises starts afresh from the repaired one.

use hondivole::{Salvage, Table};

use super::Command;
use crate::args::Args;
use crate::call::{Answer, Call, Taken};
use crate::desk::{self, Desk};
use crate::fault::Fault;
use crate::json::{Json, number, object};
use crate::records;
use crate::say::Say;
use crate::words;

pub const COMMAND: Command = Command {
    name: "salvage",
    usage: "DAMAGED TABLE",
    about: "makes a valid table of a damaged one",
    more: "DAMAGED stays as it is; TABLE is a file that isn't there yet. Head and entries of DAMAGED have to be valid. Each record that is\n\
           valid by itself is kept, the first of each kind, esercizio and number; others are blanked. The answer tells where those stood\n\
           and how many records moved up. Where the log of DAMAGED is whole, 'hondivole replay' gives back the table as it was.",
    taking: &[],
    run,
};

fn run(mut args: Args, say: Say) -> Result<bool, Fault> {
    let (damaged, path) = (args.path("DAMAGED")?, args.path("TABLE")?);
    args.end()?;
    let call = Call { words: vec!["salvage".into()], bytes: desk::look(&damaged)? };
    let answer = Desk::make(&path, &call, say)?;
    if let Some(refusal) = answer.refusal() {
        let text = format!("{}: {}", words::path(&damaged), words::refused(refusal, refusal));
        say.answer(&text, &words::verdict(Some((refusal, refusal.to_string()))))?;
        return Ok(false);
    }
    // What the call answers: the bodies' counts, then the places.
    let bodies = records::bodies(&desk::look(&path)?);
    let (moved, blanked) = answer.numbers.split_at_checked(bodies.len()).unwrap_or_default();
    let mut text = format!("{}: repaired, {} blanked", words::path(&path), words::count(blanked.len(), "slot"));
    for place in blanked {
        text += &format!("\n  the slot at byte {place} of {}: blanked", words::path(&damaged));
    }
    for (body, moved) in bodies.iter().zip(moved).filter(|(_, moved)| **moved > 0) {
        text += &format!("\n  {}: {} moved up", body.code, words::count(*moved as usize, "record"));
    }
    let of_body = |(body, moved): (&records::Body, &u64)| object([("body", body.code.as_str().into()), ("moved", number(*moved))]);
    let json = words::verdict(None).with([
        ("blanked", Json::List(blanked.iter().map(|place| number(*place)).collect())),
        ("bodies", Json::List(bodies.iter().zip(moved).map(of_body).collect())),
    ]);
    say.answer(&text, &json)?;
    Ok(true)
}

/// `salvage`, with the bytes of the damaged table; it answers each body's count of moved records, then the places of the blanked slots.
pub fn apply(call: &Call, table: &[u8]) -> Option<Taken> {
    if !table.is_empty() || call.words.len() != 1 {
        return None;
    }
    let mut table = Table::over(call.bytes.clone());
    let salvage = table.salvage();
    let answer = Answer::of(&salvage, |Salvage { moved, blanked }| {
        moved.iter().map(|count| u64::from(*count)).chain(blanked.iter().map(|place| u64::from(*place))).collect()
    });
    let table = if answer.code == 0 { table.into_bytes() } else { Vec::new() };
    Some(Taken { table, answer })
}
