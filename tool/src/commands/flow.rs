//! `flow`: a body's flows of orders, and the outcome message of one.

use std::fs::{self, Metadata};
use std::path::{Path, PathBuf};

use hondivole::{Edition, MOST_OUTCOME_BYTES, MOST_WRITTEN_BYTES, OrderOutcome, Refusal, Table, write_message};

use super::Command;
use super::message::Values;
use crate::args::Args;
use crate::call::{Answer, Call, Taken};
use crate::desk::Desk;
use crate::disk::{self, Draft, sync_folder};
use crate::fault::Fault;
use crate::json::{Json, number, object};
use crate::place::with;
use crate::say::Say;
use crate::words;

pub const COMMAND: Command = Command {
    name: "flow",
    usage: "TABLE FILE.. [--edition 1|2] [--message OUT.xml [--values FILE] [--value NAME=TEXT]..]",
    about: "takes flows of orders, one after the other",
    more: "Each flow is taken or refused by itself, and each order of a flow that is taken is accepted or refused by itself.\n\
           --edition 2 is for flows with the header of OPI 1.2.2. --message writes the outcome message of one flow that is taken, by\n\
           way of OUT.xml.new; an OUT.xml that is there and is no file is refused. What it says of the body comes from lines NAME=TEXT of\n\
           --values and from --value: codice_ente, descrizione_ente, codice_istat_ente, codice_fiscale_ente, codice_tramite_ente,\n\
           codice_tramite_BT, identificativo_flusso_BT, data_ora_creazione_flusso and data_ora_esito_operazione, both times being the\n\
           clock's where they aren't given.",
    taking: &["--edition", "--message", "--values", "--value"],
    run,
};

/// No flow has more bytes.
const MOST_FLOW_BYTES: u64 = 32_768;

fn run(mut args: Args, say: Say) -> Result<bool, Fault> {
    let path = args.path("TABLE")?;
    let edition = match args.one("--edition")? {
        None => Edition::Oil,
        Some(text) => edition_of(text).ok_or_else(|| args.wrong(&format!("there is no edition '{text}'")))?,
    };
    let mut files = vec![args.path("FILE")?];
    while args.more() {
        files.push(args.path("FILE")?);
    }
    let message = match args.one("--message")? {
        Some(_) if files.len() > 1 => return Err(args.wrong("--message is for one flow")),
        Some(out) => Some((PathBuf::from(out), Values::given(&args)?)),
        None if args.has("--values") || args.has("--value") => return Err(args.wrong("values are for --message")),
        None => None,
    };
    if let Some((out, values)) = &message
        && let Some(given) = values.lent().misformed()
    {
        // Before the flow: none is taken whose message can't be written.
        return refused(out, Refusal::ValuesWrong { given: Some(given) }, given.to_string(), say);
    }
    if let Some((out, _)) = &message
        && fs::metadata(out).is_ok_and(|there| !there.is_file())
    {
        return Err(Fault::file(out, "a message can't be put here: this is there and is no file"));
    }
    // All are read before the first is taken: a name that was mistyped stops none halfway.
    let flows = files.iter().map(|file| disk::read(file, MOST_FLOW_BYTES)).collect::<Result<Vec<_>, _>>()?;
    let mut desk = Desk::of_table(&path, say)?;
    if message.as_ref().is_some_and(|(out, _)| desk.owns(out)) {
        return Err(args.wrong("--message names the table or a file beside it that is the table's"));
    }
    let mut all = true;
    for (i, (file, flow)) in files.iter().zip(flows).enumerate() {
        if files.len() > 1 {
            say.progress(&format!("flow {} of {}: {}", i + 1, files.len(), words::path(file)));
        }
        let before = if i == 0 { String::new() } else { format!("{i} of {} flows were answered before: ", files.len()) };
        all &= taken(&mut desk, edition, file, flow, message.as_ref(), say).map_err(|fault| fault.after(&before))?;
    }
    Ok(all)
}

/// Takes one flow, and says what became of it.
fn taken(
    desk: &mut Desk,
    edition: Edition,
    file: &Path,
    flow: Vec<u8>,
    message: Option<&(PathBuf, Values)>,
    say: Say,
) -> Result<bool, Fault> {
    let call = Call { words: vec!["flow".into(), (edition as u64).to_string()], bytes: flow };
    let (mut draft, like) = (None, desk.like());
    let answer = desk.take_with(&call, |answer| {
        if let Some((out, values)) = message.filter(|_| answer.code == 0) {
            let text = written(edition, &call.bytes, answer, out, values)?;
            draft = Some(drafted(out, text.as_bytes(), like.as_ref())?);
        }
        Ok(())
    });
    let answer = match (answer, &mut draft, message) {
        // The flow is taken by now, and its message is needed.
        (Err(fault @ Fault::Late(_)), Some(draft), Some((out, _))) => {
            draft.keep();
            return Err(fault.after(&format!("its message is in {}; ", words::path(&with(out, ".new")))));
        }
        (answer, ..) => answer?,
    };
    if let Some(refusal) = answer.refusal() {
        return refused(file, refusal, refusal.of_flow(&call.bytes).to_string(), say);
    }
    if let (Some(draft), Some((out, _))) = (draft, message) {
        placed(draft, out)?;
    }
    let outcomes: Vec<_> = answer.rows.iter().filter_map(OrderOutcome::from_bytes).collect();
    let accepted = format!("{} of {} accepted", answer.number(1), words::count(outcomes.len(), "order"));
    let mut text = format!("{}: taken, {accepted}", words::path(file));
    for outcome in &outcomes {
        text += &format!("\n  {}", order_words(outcome));
    }
    let orders = outcomes.iter().map(order_json).collect();
    let json = object([("file", file.display().to_string().into())]).with([
        ("taken", true.into()),
        ("code", number(0)),
        ("accepted", number(answer.number(1))),
        ("steps", number(answer.number(2))),
        ("orders", Json::List(orders)),
    ]);
    say.answer(&text, &json)?;
    Ok(true)
}

/// Says that a file is refused.
fn refused(file: &Path, refusal: Refusal, sentence: String, say: Say) -> Result<bool, Fault> {
    let text = format!("{}: {}", words::path(file), words::refused(refusal, &sentence));
    let mut json = vec![("file", file.display().to_string().into())];
    if let Json::Object(members) = words::verdict(Some((refusal, sentence))) {
        json.extend(members);
    }
    say.answer(&text, &Json::Object(json))?;
    Ok(false)
}

fn order_words(outcome: &OrderOutcome) -> String {
    let verdict = match outcome.verdict {
        Ok(()) => "accepted".to_string(),
        Err(refusal) => words::refused(refusal, refusal),
    };
    let (kind, operation) = (words::kind(outcome.kind), words::operation(outcome.operation));
    let (amount, lines) = (words::amount(outcome.total), words::count(outcome.lines.into(), "line"));
    format!("{kind} {} {operation}, {amount} in {lines}: {verdict}", outcome.number)
}

fn order_json(outcome: &OrderOutcome) -> Json {
    let order = object([
        ("kind", words::kind(outcome.kind).into()),
        ("operation", words::operation(outcome.operation).into()),
        ("number", number(outcome.number)),
        ("lines", number(outcome.lines)),
        ("total", number(outcome.total)),
        ("code", number(outcome.verdict.err().map_or(0, |refusal| refusal.code()))),
    ]);
    match outcome.verdict {
        Ok(()) => order,
        Err(refusal) => order.with([("refusal", refusal.to_string().into())]),
    }
}

/// A flow's message.
fn written(edition: Edition, flow: &[u8], answer: &Answer, out: &Path, values: &Values) -> Result<String, Fault> {
    let mut buffer = vec![0; MOST_WRITTEN_BYTES];
    let message = write_message(edition, flow, answer.rows.as_flattened(), &values.lent(), &mut buffer);
    message.map(str::to_string).map_err(|refusal| Fault::file(out, format!("{}: {refusal}", refusal.code())))
}

/// Writes a message beside its place, while its flow is not yet taken, so that it lasts there. It is like the file that it replaces, or like
/// the table.
fn drafted(out: &Path, message: &[u8], table: Option<&Metadata>) -> Result<Draft, Fault> {
    let there = fs::metadata(out).ok();
    let draft = Draft::write_as_can_be(out, message, there.as_ref().or(table))?;
    sync_folder(folder_of(out))?;
    Ok(draft)
}

/// Puts a message in its place once its flow is taken. Where that fails it stays beside it.
fn placed(mut draft: Draft, out: &Path) -> Result<(), Fault> {
    draft.keep();
    let beside = format!("the flow is taken, and its message is in {}: ", words::path(&with(out, ".new")));
    draft.rename().map_err(|fault| fault.after(&beside))?;
    sync_folder(folder_of(out))
        .map_err(|fault| fault.after("the flow is taken, but its message may lose its place with the power: "))
}

fn folder_of(out: &Path) -> &Path {
    out.parent().filter(|folder| !folder.as_os_str().is_empty()).unwrap_or(Path::new("."))
}

fn edition_of(text: &str) -> Option<Edition> {
    [Edition::Oil, Edition::Opi].into_iter().find(|edition| (*edition as u64).to_string() == text)
}

/// `flow EDITION`, with the flow's bytes; it answers how many orders there are, how many are accepted, and the steps of their searches.
pub fn apply(call: &Call, table: &[u8]) -> Option<Taken> {
    let [_, edition] = &call.words[..] else {
        return None;
    };
    let mut table = Table::over(table.to_vec());
    let mut outcomes = [0; MOST_OUTCOME_BYTES];
    let flow = table.flow(edition_of(edition)?, &call.bytes, &mut outcomes);
    let mut answer = Answer::of(&flow, |flow| vec![flow.orders() as u64, flow.accepted() as u64, flow.steps()]);
    let orders = flow.map_or(0, |flow| flow.orders());
    answer.rows = outcomes.as_chunks().0[..orders].to_vec();
    Some(Taken { table: table.into_bytes(), answer })
}
