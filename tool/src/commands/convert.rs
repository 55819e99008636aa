//! `convert`: a table of the old form brought over.

use hondivole::Table;

use super::Command;
use crate::args::Args;
use crate::call::{Answer, Call, Taken};
use crate::desk::{self, Desk};
use crate::fault::Fault;
use crate::json::number;
use crate::say::Say;
use crate::words;

pub const COMMAND: Command = Command {
    name: "convert",
    usage: "OLD TABLE",
    about: "makes a table of one of the old form, table 1",
    more: "OLD stays as it is; TABLE is a file that isn't there yet. Bank, bodies and records are the same.",
    taking: &[],
    run,
};

fn run(mut args: Args, say: Say) -> Result<bool, Fault> {
    let (old, path) = (args.path("OLD")?, args.path("TABLE")?);
    args.end()?;
    let call = Call { words: vec!["convert".into()], bytes: desk::look(&old)? };
    let answer = Desk::make(&path, &call, say)?;
    let refusal = answer.refusal().map(|refusal| (refusal, refusal.to_string()));
    let text = match &refusal {
        None => format!("{}: converted, {}", words::path(&path), words::count(answer.number(0) as usize, "byte")),
        Some((refusal, sentence)) => format!("{}: {}", words::path(&old), words::refused(*refusal, sentence)),
    };
    let taken = refusal.is_none();
    say.answer(&text, &words::verdict(refusal).with([("bytes", number(answer.number(0)))]))?;
    Ok(taken)
}

/// `convert`, with the bytes of the old table; it answers the new one's length.
pub fn apply(call: &Call, table: &[u8]) -> Option<Taken> {
    if !table.is_empty() || call.words.len() != 1 {
        return None;
    }
    let converted = Table::convert(&call.bytes);
    let answer = Answer::of(&converted, |table| vec![table.bytes().len() as u64]);
    Some(Taken { table: converted.map_or(Vec::new(), Table::into_bytes), answer })
}
