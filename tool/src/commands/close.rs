//! `close`: a year of a body's books closed.

use hondivole::Table;

use super::Command;
use crate::args::Args;
use crate::call::{Answer, Call, Taken};
use crate::desk::Desk;
use crate::fault::Fault;
use crate::json::number;
use crate::say::Say;
use crate::words;

pub const COMMAND: Command = Command {
    name: "close",
    usage: "TABLE BODY YEAR",
    about: "closes a year of a body's books and frees the slots of its orders",
    more: "YEAR is an esercizio later than the last one that the body closed. Every order of that year has to be annulled, or its lines executed\n\
           or replaced, and none of an earlier year may remain. The orders of the year are removed, which can't be undone; what they came to\n\
           is in the log. A flow of that or an earlier year is refused from then on, and totals speak of the orders that are left.",
    taking: &[],
    run,
};

fn run(mut args: Args, say: Say) -> Result<bool, Fault> {
    let path = args.path("TABLE")?;
    let body = args.text("BODY")?;
    let year = args.number::<u16>("YEAR")?;
    args.end()?;
    let told = format!("{body} {year}");
    let call = Call::of(vec!["close".into(), body, year.to_string()]);
    let answer = Desk::of_table(&path, say)?.take(&call)?;
    let refusal = answer.refusal().map(|refusal| (refusal, refusal.to_string()));
    let text = match &refusal {
        None => format!("{told}: closed, {} removed", words::count(answer.number(0) as usize, "order")),
        Some((refusal, sentence)) => format!("{told}: {}", words::refused(*refusal, sentence)),
    };
    let taken = refusal.is_none();
    say.answer(&text, &words::verdict(refusal).with([("removed", number(answer.number(0)))]))?;
    Ok(taken)
}

/// `close BODY YEAR`, which answers how many orders were removed.
pub fn apply(call: &Call, table: &[u8]) -> Option<Taken> {
    let [_, body, year] = &call.words[..] else {
        return None;
    };
    let mut table = Table::over(table.to_vec());
    let answer = Answer::of(&table.close(body, year.parse().ok()?), |removed| vec![*removed as u64]);
    Some(Taken { table: table.into_bytes(), answer })
}
