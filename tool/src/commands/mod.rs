//! The commands. Each is a module, and a line of [`COMMANDS`]; one that changes a table has a line of [`CHANGES`] too, by which its calls
//! are made again from a log.

mod check;
mod close;
mod convert;
mod flow;
mod journal;
mod list;
mod message;
mod notice;
mod open;
mod replay;
mod salvage;
mod totals;

use std::ffi::OsString;
use std::io::{self, Write};
use std::process::ExitCode;

use crate::args::Args;
use crate::call::Apply;
use crate::fault::Fault;
use crate::log::FOUND;
use crate::say::Say;

/// A command.
pub struct Command {
    /// Its name.
    name: &'static str,
    /// What stands behind the name.
    usage: &'static str,
    /// What it does, in a line.
    about: &'static str,
    /// What its help says beside that.
    more: &'static str,
    /// Its options that have a value.
    taking: &'static [&'static str],
    /// Does it; the answer is whether nothing was refused.
    run: fn(Args, Say) -> Result<bool, Fault>,
}

/// Every command, in the order in which help names them.
const COMMANDS: &[Command] = &[
    open::COMMAND,
    flow::COMMAND,
    notice::EXECUTE,
    notice::REVERSE,
    totals::COMMAND,
    list::COMMAND,
    journal::COMMAND,
    close::COMMAND,
    convert::COMMAND,
    salvage::COMMAND,
    check::COMMAND,
    replay::COMMAND,
];

/// Every call that a log can hold.
pub(crate) const CHANGES: &[(&str, Apply)] = &[
    ("open", open::apply),
    ("convert", convert::apply),
    ("salvage", salvage::apply),
    (FOUND, replay::found),
    ("flow", flow::apply),
    ("execute", notice::execute),
    ("reverse", notice::reverse),
    ("close", close::apply),
];

/// Runs the program: the answer is its exit status.
pub fn run(mut words: Vec<OsString>) -> ExitCode {
    let name = if words.is_empty() { OsString::new() } else { words.remove(0) };
    let result = match name.to_str() {
        Some("--help" | "help") => help(&words),
        Some("--version") => tell(&format!("hondivole {}", env!("CARGO_PKG_VERSION"))),
        name => match COMMANDS.iter().find(|command| Some(command.name) == name) {
            Some(command) => command.called(words),
            None => Err(Fault::Use(format!("{}\n{}", unknown(name.unwrap_or("?")), usage()))),
        },
    };
    match result {
        Ok(true) => ExitCode::SUCCESS,
        Ok(false) => ExitCode::from(1),
        Err(fault) => {
            let _ = writeln!(io::stderr(), "hondivole: {fault}");
            ExitCode::from(fault.status())
        }
    }
}

fn unknown(name: &str) -> String {
    if name.is_empty() { "there is no command".into() } else { format!("there is no command '{name}'") }
}

impl Command {
    fn called(&self, words: Vec<OsString>) -> Result<bool, Fault> {
        let args = Args::sort(words, self.taking, &["--help", "--json"], format!("{} {}", self.name, self.usage))?;
        if args.has("--help") {
            return tell(&self.help());
        }
        let say = Say { json: args.has("--json") };
        (self.run)(args, say)
    }

    fn help(&self) -> String {
        format!("usage: hondivole {} {}\n\n{}\n\n{}\n\n{STATUS}", self.name, self.usage, self.about, self.more)
    }
}

/// What every command's help ends with.
const STATUS: &str = "--json  answers for programs, one object a line; amounts in cents\n--help  this\n\nExit status: 0 taken, 1 refused, \
                      2 wrong use, 3 a file could not be read or written: the table is\nas before, unless standard error says otherwise.";

fn usage() -> String {
    let mut text = String::from("usage: hondivole COMMAND ..\n\n");
    for command in COMMANDS {
        text += &format!("  {:8} {}\n", command.name, command.about);
    }
    text + "\n'hondivole COMMAND --help' says more of one, 'man hondivole' of all."
}

fn help(words: &[OsString]) -> Result<bool, Fault> {
    let Some(name) = words.first() else {
        return tell(&usage());
    };
    let command = COMMANDS.iter().find(|command| Some(command.name) == name.to_str());
    let command = command.ok_or_else(|| Fault::Use(format!("{}\n{}", unknown(&name.to_string_lossy()), usage())))?;
    tell(&command.help())
}

fn tell(text: &str) -> Result<bool, Fault> {
    let mut out = io::stdout().lock();
    let told = writeln!(out, "{text}").and_then(|()| out.flush());
    told.map(|()| true).map_err(|error| Fault::File(format!("standard output: {error}")))
}
