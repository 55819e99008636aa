//! `totals`: what bodies paid and collected.

use hondivole::{Refusal, Table, Totals};

use super::Command;
use crate::args::Args;
use crate::desk;
use crate::fault::Fault;
use crate::json::{Json, number, object};
use crate::records;
use crate::say::Say;
use crate::words;

pub const COMMAND: Command = Command {
    name: "totals",
    usage: "TABLE [BODY]",
    about: "tells used slots, amounts paid and collected, and the balance",
    more: "Of one body, or of each. The balance is collected less paid, and may be below zero.",
    taking: &[],
    run,
};

fn run(mut args: Args, say: Say) -> Result<bool, Fault> {
    let path = args.path("TABLE")?;
    let body = if args.more() { Some(args.text("BODY")?) } else { None };
    args.end()?;
    let bytes = desk::look(&path)?;
    let table = Table::over(&bytes);
    let asked = match body {
        Some(body) => vec![body],
        // A code that no body can have: only whether the table is valid is asked.
        None => match table.totals("") {
            Err(Refusal::TableNotValid) => vec![String::new()],
            _ => records::bodies(&bytes).into_iter().map(|body| body.code).collect(),
        },
    };
    let mut all = true;
    for body in asked {
        let told = if body.is_empty() { words::path(&path) } else { body.clone() };
        match table.totals(&body) {
            Ok(totals) => say.answer(&format!("{told}: {}", totals_words(&totals)), &totals_json(&body, &totals))?,
            Err(refusal) => {
                all = false;
                let json = words::verdict(Some((refusal, refusal.to_string())));
                say.answer(&format!("{told}: {}", words::refused(refusal, refusal)), &json)?;
            }
        }
    }
    Ok(all)
}

fn totals_words(totals: &Totals) -> String {
    format!(
        "{} used, paid {}, collected {}, balance {}",
        words::count(totals.used, "slot"),
        words::amount(totals.paid),
        words::amount(totals.collected),
        words::balance(totals.balance)
    )
}

fn totals_json(body: &str, totals: &Totals) -> Json {
    object([
        ("taken", true.into()),
        ("code", number(0)),
        ("body", body.into()),
        ("used", number(totals.used as u64)),
        ("paid", number(totals.paid)),
        ("collected", number(totals.collected)),
        ("balance", number(totals.balance)),
    ])
}
