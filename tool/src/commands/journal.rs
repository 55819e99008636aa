//! `journal`: the bank's cash journal against a body's executed lines.

use std::path::Path;

use hondivole::{Movement, Table};

use super::Command;
use crate::args::Args;
use crate::desk;
use crate::disk;
use crate::fault::Fault;
use crate::json::number;
use crate::say::Say;
use crate::words;

pub const COMMAND: Command = Command {
    name: "journal",
    usage: "TABLE BODY FILE",
    about: "checks the bank's cash journal against a body's executed lines",
    more: "FILE has a movement a line: KIND ESERCIZIO NUMBER LINE AMOUNT, as 'mandato 2021 12 1 100.00'. Empty lines and those that begin\n\
           with # are passed over. Each executed line of the body is listed once, with its amount, and nothing else is.",
    taking: &[],
    run,
};

/// No journal that is read has more bytes: 4,096 movements and as many lines to pass over fit.
const MOST_BYTES: u64 = 1 << 20;

fn run(mut args: Args, say: Say) -> Result<bool, Fault> {
    let path = args.path("TABLE")?;
    let body = args.text("BODY")?;
    let file = args.path("FILE")?;
    args.end()?;
    let bytes = desk::look(&path)?;
    let movements = movements(&file)?;
    let refusal = Table::over(&bytes).journal(&body, &movements).err().map(|refusal| (refusal, refusal.to_string()));
    let text = match &refusal {
        None => format!("{body}: {}, as executed", words::count(movements.len() / 16, "movement")),
        Some((refusal, sentence)) => format!("{body}: {}", words::refused(*refusal, sentence)),
    };
    let taken = refusal.is_none();
    say.answer(&text, &words::verdict(refusal).with([("movements", number((movements.len() / 16) as u64))]))?;
    Ok(taken)
}

/// The movements of a file, as the library takes them.
fn movements(path: &Path) -> Result<Vec<u8>, Fault> {
    let text = String::from_utf8(disk::read_whole(path, MOST_BYTES)?).map_err(|_| Fault::file(path, "this is no text"))?;
    let mut movements = Vec::new();
    for (i, line) in text.lines().enumerate().filter(|(_, line)| !line.trim().is_empty() && !line.starts_with('#')) {
        let movement = movement(line);
        let wrong =
            || Fault::file(path, format!("line {} is no KIND ESERCIZIO NUMBER LINE AMOUNT: '{}'", i + 1, words::shown(line)));
        movements.extend(movement.ok_or_else(wrong)?.bytes());
    }
    Ok(movements)
}

fn movement(line: &str) -> Option<Movement> {
    let mut words = line.split_ascii_whitespace();
    let movement = Movement {
        kind: words::kind_of(words.next()?)?,
        esercizio: words.next()?.parse().ok()?,
        number: words.next()?.parse().ok()?,
        line: words.next()?.parse().ok()?,
        cents: words::cents(words.next()?)?,
    };
    words.next().is_none().then_some(movement)
}
