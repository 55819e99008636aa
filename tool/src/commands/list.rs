//! `list`: a body's orders.

use hondivole::Table;

use super::Command;
use crate::args::Args;
use crate::desk;
use crate::fault::Fault;
use crate::json::{Json, number, object};
use crate::records::{self, Record};
use crate::say::Say;
use crate::words;

pub const COMMAND: Command = Command {
    name: "list",
    usage: "TABLE BODY",
    about: "lists a body's orders and their lines",
    more: "In the order in which they were taken. A line is waiting, executed or replaced. Where a year was closed, the last one is told; its\n\
           orders are listed no more.",
    taking: &[],
    run,
};

fn run(mut args: Args, say: Say) -> Result<bool, Fault> {
    let path = args.path("TABLE")?;
    let code = args.text("BODY")?;
    args.end()?;
    let bytes = desk::look(&path)?;
    // The library judges the table and finds the body before a byte of it is read here.
    let body = match Table::over(&bytes).totals(&code) {
        Err(refusal) => Err(refusal),
        Ok(_) => Ok(records::bodies(&bytes).into_iter().find(|body| body.code == code)),
    };
    let body = match body {
        Ok(Some(body)) => body,
        Ok(None) => return Err(Fault::file(&path, "the body's entry is not where it should be")),
        Err(refusal) => {
            say.answer(
                &format!("{code}: {}", words::refused(refusal, refusal)),
                &words::verdict(Some((refusal, refusal.to_string()))),
            )?;
            return Ok(false);
        }
    };
    let records = records::records(&bytes, &body);
    let mut text = format!("{code}: {} in {}", words::count(records.len(), "order"), words::count(body.slots, "slot"));
    if body.closed > 0 {
        text += &format!(", closed up to {}", body.closed);
    }
    for record in &records {
        text += &format!("\n  {}", record_words(record));
    }
    let json = object([("taken", true.into()), ("code", number(0)), ("body", code.into()), ("slots", number(body.slots as u64))])
        .with([("closed", number(body.closed)), ("orders", Json::List(records.iter().map(record_json).collect()))]);
    say.answer(&text, &json)?;
    Ok(true)
}

fn record_words(record: &Record) -> String {
    let lines: Vec<_> = record.lines.iter().map(|line| format!("{} {}", words::amount(line.cents), line.state.word())).collect();
    let annulled = if record.annulled { ", annulled" } else { "" };
    let order = format!("{} {} {}", words::kind(record.kind), record.esercizio, record.number);
    format!("{order}, {}, {}{annulled}: {}", words::date(record.date), words::amount(record.total), lines.join(", "))
}

fn record_json(record: &Record) -> Json {
    let lines = record.lines.iter().map(|line| object([("cents", number(line.cents)), ("state", line.state.word().into())]));
    object([
        ("kind", words::kind(record.kind).into()),
        ("esercizio", number(record.esercizio)),
        ("number", number(record.number)),
        ("date", words::date(record.date).into()),
        ("total", number(record.total)),
        ("annulled", record.annulled.into()),
        ("lines", Json::List(lines.collect())),
    ])
}
