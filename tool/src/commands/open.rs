//! `open`: a new table.

use hondivole::Table;

use super::Command;
use crate::args::Args;
use crate::call::{Answer, Call, Taken};
use crate::desk::Desk;
use crate::fault::Fault;
use crate::json::number;
use crate::say::Say;
use crate::words;

pub const COMMAND: Command = Command {
    name: "open",
    usage: "TABLE --abi DIGITS BODY:SLOTS..",
    about: "makes a table for a bank and its bodies, every slot empty",
    more: "TABLE is a file that isn't there yet. DIGITS are the bank's five ABI digits. A body is its code, 1 to 16 letters and digits\n\
           (000471 and 471 are two bodies), and how many orders it can hold, 1 to 512.",
    taking: &["--abi"],
    run,
};

fn run(mut args: Args, say: Say) -> Result<bool, Fault> {
    let path = args.path("TABLE")?;
    let abi = args.one("--abi")?.ok_or_else(|| args.wrong("--abi is missing"))?.to_string();
    let mut call = vec!["open".to_string(), abi];
    while args.more() {
        let body = args.text("BODY:SLOTS")?;
        body_of(&body).ok_or_else(|| args.wrong(&format!("'{body}' is no BODY:SLOTS")))?;
        call.push(body);
    }
    let answer = Desk::make(&path, &Call::of(call.clone()), say)?;
    let refusal = answer.refusal().map(|refusal| (refusal, refusal.to_string()));
    let text = match &refusal {
        None => {
            format!(
                "{}: opened for ABI {} and {}, {}",
                words::path(&path),
                call[1],
                bodies(call.len() - 2),
                words::count(answer.number(0) as usize, "byte")
            )
        }
        Some((refusal, sentence)) => format!("{}: {}", words::path(&path), words::refused(*refusal, sentence)),
    };
    let taken = refusal.is_none();
    say.answer(&text, &words::verdict(refusal).with([("bytes", number(answer.number(0)))]))?;
    Ok(taken)
}

/// So many bodies.
pub fn bodies(count: usize) -> String {
    if count == 1 { "1 body".into() } else { format!("{count} bodies") }
}

fn body_of(text: &str) -> Option<(&str, u16)> {
    let (code, slots) = text.rsplit_once(':')?;
    let digits = slots.bytes().all(|byte| byte.is_ascii_digit());
    slots.parse().ok().filter(|_| digits).map(|slots| (code, slots))
}

/// `open ABI BODY:SLOTS..`, which answers the table's length.
pub fn apply(call: &Call, table: &[u8]) -> Option<Taken> {
    let (_, [abi, bodies @ ..]) = call.words.split_first()? else {
        return None;
    };
    if !table.is_empty() {
        return None;
    }
    let bodies = bodies.iter().map(|body| body_of(body)).collect::<Option<Vec<_>>>()?;
    let opened = Table::open(abi, &bodies);
    let answer = Answer::of(&opened, |table| vec![table.bytes().len() as u64]);
    Some(Taken { table: opened.map_or(Vec::new(), Table::into_bytes), answer })
}
