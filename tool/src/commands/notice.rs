//! `execute` and `reverse`: the bank's notices.

use hondivole::{Notice, Refusal, Table};

use super::Command;
use crate::args::Args;
use crate::call::{Answer, Call, Taken};
use crate::desk::Desk;
use crate::fault::Fault;
use crate::json::number;
use crate::say::Say;
use crate::words;

const USAGE: &str = "TABLE BODY KIND ESERCIZIO NUMBER LINE DATE";
const MORE: &str = "KIND is mandato or reversale, ESERCIZIO the year of the books, NUMBER the order's, LINE counted from 1. DATE is\n\
                    YYYY-MM-DD and a TARGET day. The answer has the line's amount.";

pub const EXECUTE: Command = Command {
    name: "execute",
    usage: USAGE,
    about: "takes the bank's notice that a line is executed",
    more: MORE,
    taking: &[],
    run: |args, say| run("execute", "executed", args, say),
};

pub const REVERSE: Command = Command {
    name: "reverse",
    usage: USAGE,
    about: "takes the bank's notice that an executed line is reversed (storno)",
    more: MORE,
    taking: &[],
    run: |args, say| run("reverse", "reversed", args, say),
};

fn run(name: &str, done: &str, mut args: Args, say: Say) -> Result<bool, Fault> {
    let path = args.path("TABLE")?;
    let body = args.text("BODY")?;
    let kind = args.text("KIND")?;
    words::kind_of(&kind).ok_or_else(|| args.wrong(&format!("'{kind}' is neither mandato nor reversale")))?;
    let (esercizio, order, line) = (args.number::<u16>("ESERCIZIO")?, args.number::<u32>("NUMBER")?, args.number::<u8>("LINE")?);
    let day = args.text("DATE")?;
    words::date_of(&day).ok_or_else(|| args.wrong(&format!("'{day}' is no YYYY-MM-DD")))?;
    args.end()?;

    let told = format!("{body} {kind} {esercizio} {order}, line {line}");
    let call = Call::of(vec![name.into(), body, kind, esercizio.to_string(), order.to_string(), line.to_string(), day]);
    let answer = Desk::of_table(&path, say)?.take(&call)?;
    let refusal = answer.refusal().map(|refusal| (refusal, refusal.to_string()));
    let text = match &refusal {
        None => format!("{told}: {done}, {}", words::amount(answer.number(0))),
        Some((refusal, sentence)) => format!("{told}: {}", words::refused(*refusal, sentence)),
    };
    let taken = refusal.is_none();
    say.answer(&text, &words::verdict(refusal).with([("cents", number(answer.number(0)))]))?;
    Ok(taken)
}

/// `execute BODY KIND ESERCIZIO NUMBER LINE DATE`, which answers the line's cents.
pub fn execute(call: &Call, table: &[u8]) -> Option<Taken> {
    notified(call, table, |table, notice| table.execute(notice))
}

/// `reverse BODY KIND ESERCIZIO NUMBER LINE DATE`, which answers the line's cents.
pub fn reverse(call: &Call, table: &[u8]) -> Option<Taken> {
    notified(call, table, |table, notice| table.reverse(notice))
}

fn notified(call: &Call, table: &[u8], notify: impl Fn(&mut Table, &Notice) -> Result<u64, Refusal>) -> Option<Taken> {
    let [_, body, kind, esercizio, order, line, day] = &call.words[..] else {
        return None;
    };
    let notice = Notice {
        body,
        kind: words::kind_of(kind)?,
        esercizio: esercizio.parse().ok()?,
        number: order.parse().ok()?,
        line: line.parse().ok()?,
        day: words::date_of(day)?,
    };
    let mut table = Table::over(table.to_vec());
    let answer = Answer::of(&notify(&mut table, &notice), |cents| vec![*cents]);
    Some(Taken { table: table.into_bytes(), answer })
}
