//! A table file for tests: the tool run on it, whole or cut down, and what its table has to be.

use std::fs;
use std::io::Read;
use std::path::{Path, PathBuf};
use std::process::{Command, Output, Stdio};
use std::sync::OnceLock;
use std::time::{Duration, Instant};

use hondivole::{Date, Edition, Kind, MOST_OUTCOME_BYTES, Notice, Refusal, Table};

pub const BODIES: [(&str, u16); 3] = [("000471", 40), ("471", 40), ("A1", 40)];

/// A small generator, so that a run can be made again from its seed.
pub struct Random(pub u64);

impl Random {
    pub fn below(&mut self, limit: u64) -> u64 {
        self.0 ^= self.0 << 13;
        self.0 ^= self.0 >> 7;
        self.0 ^= self.0 << 17;
        self.0 % limit
    }
}

/// A number of the environment.
pub fn number(name: &str, otherwise: u64) -> u64 {
    std::env::var(name).ok().and_then(|text| text.parse().ok()).unwrap_or(otherwise)
}

/// An empty folder.
pub fn folder(name: &str) -> PathBuf {
    let folder = Path::new(env!("CARGO_TARGET_TMPDIR")).join(name);
    let _ = fs::remove_dir_all(&folder);
    fs::create_dir_all(&folder).unwrap();
    folder
}

/// tests/tool/crash.c, compiled.
pub fn shim() -> &'static Path {
    static SHIM: OnceLock<PathBuf> = OnceLock::new();
    SHIM.get_or_init(|| {
        let out = Path::new(env!("CARGO_TARGET_TMPDIR")).join(format!("crash-{}.so", std::process::id()));
        let source = Path::new(env!("CARGO_MANIFEST_DIR")).join("../tests/tool/crash.c");
        let done = Command::new("cc").args(["-std=c11", "-shared", "-fPIC", "-O1"]).arg(source).arg("-o").arg(&out).status();
        assert!(done.unwrap().success());
        out
    })
}

/// How a run ends before its time.
#[derive(Clone, Copy, Debug)]
pub enum Cut {
    /// It doesn't.
    Not,
    /// At one of its calls on files: see crash.c.
    At(u64, &'static str),
    /// Killed from outside after so long.
    After(Duration),
}

/// The tool, run with these words.
pub fn run(words: &[&str], cut: Cut) -> Output {
    let mut command = Command::new(env!("CARGO_BIN_EXE_hondivole"));
    command.args(words).stdin(Stdio::null()).stdout(Stdio::piped()).stderr(Stdio::piped());
    match cut {
        Cut::Not => command.output().unwrap(),
        Cut::At(at, how) => {
            command.env("LD_PRELOAD", shim()).env("CRASH_AT", at.to_string()).env("CRASH_HOW", how);
            command.output().unwrap()
        }
        Cut::After(time) => {
            let start = Instant::now();
            let mut child = command.spawn().unwrap();
            while start.elapsed() < time && child.try_wait().unwrap().is_none() {
                std::thread::sleep(Duration::from_micros(200));
            }
            let _ = child.kill();
            let status = child.wait().unwrap();
            // A bridge's program may hold the other ends a little longer, so only what was written by now is read.
            let mut output = Output { status, stdout: Vec::new(), stderr: Vec::new() };
            child.stdout.unwrap().read_to_end(&mut output.stdout).unwrap();
            output
        }
    }
}

/// How many calls on files a run makes.
pub fn calls_of(words: &[&str], count: &Path) -> u64 {
    let mut command = Command::new(env!("CARGO_BIN_EXE_hondivole"));
    let output = command.args(words).env("LD_PRELOAD", shim()).env("CRASH_COUNT", count).output().unwrap();
    assert!(output.status.code().is_some_and(|code| code <= 1), "{output:?}");
    fs::read_to_string(count).unwrap().trim().parse().unwrap()
}

/// A flow of orders of 2021, each with two lines that sum to its total.
pub fn flow(body: &str, orders: &[(Kind, u64)]) -> String {
    flow_of(body, 2021, orders)
}

/// The same of another year.
pub fn flow_of(body: &str, year: u16, orders: &[(Kind, u64)]) -> String {
    let mut text =
        String::from("<flusso_ordinativi><codice_ABI_BT>01234</codice_ABI_BT><identificativo_flusso>A1</identificativo_flusso>");
    text += "<data_ora_creazione_flusso>2021-03-01T09:30:00</data_ora_creazione_flusso>";
    text += &format!("<codice_ente_BT>{body}</codice_ente_BT><esercizio>{year}</esercizio>");
    for (kind, number) in orders {
        let (order, who) = if *kind == Kind::Mandato { ("mandato", "beneficiario") } else { ("reversale", "versante") };
        text += &format!("<{order}><tipo_operazione>INSERIMENTO</tipo_operazione><numero_{order}>{number}</numero_{order}>");
        text += &format!("<data_{order}>2021-03-01</data_{order}><importo_{order}>{number}.50</importo_{order}>");
        for (line, amount) in [(1, format!("{number}.00")), (2, "0.50".into())] {
            text += &format!(
                "<informazioni_{who}><progressivo_{who}>{line}</progressivo_{who}><importo_{who}>{amount}</importo_{who}>"
            );
            text += &format!("<{who}><anagrafica_{who}>Rossi</anagrafica_{who}></{who}></informazioni_{who}>");
        }
        text += &format!("</{order}>");
    }
    text + "</flusso_ordinativi>"
}

/// One call of a test: the words for the tool, and the table that it has to leave.
pub struct Step {
    pub words: Vec<String>,
    pub after: Vec<u8>,
}

/// The last year that a body of the table closed, 0 before the first: bytes 40 and 41 of its entry.
fn closed(table: &[u8], body: usize) -> u16 {
    let at = 16 + 48 * body + 40;
    u16::from_be_bytes([table[at], table[at + 1]])
}

/// A waiting line of a body's acquired orders of a year: kind, year, number and line.
fn waiting(table: &[u8], body: usize, year: u16) -> Option<(Kind, u16, u32, u8)> {
    let entry = &table[16 + 48 * body..16 + 48 * (body + 1)];
    let place = u32::from_be_bytes(entry[20..24].try_into().unwrap()) as usize;
    let slots = table[place..].chunks(96).take(usize::from(BODIES[body].1));
    let of_year = |slot: &&[u8]| slot[0] != 0 && slot[1] == 1 && slot[4..6] == year.to_be_bytes();
    slots.filter(of_year).find_map(|slot| {
        let line = slot[24..32].iter().position(|state| *state == 1)?;
        let kind = if slot[0] == 1 { Kind::Mandato } else { Kind::Reversale };
        Some((kind, year, u32::from_be_bytes(slot[8..12].try_into().unwrap()), line as u8 + 1))
    })
}

/// A random call on a table: a flow of one to three orders, a notice, or now and then a close. Flows are written to a file of the folder.
pub fn step(random: &mut Random, folder: &Path, table: &Path, before: &[u8]) -> Step {
    let at = random.below(3) as usize;
    let body = BODIES[at].0;
    // The first open year, or the one after it.
    let first = closed(before, at).max(2020) + 1;
    let year = first + u16::from(random.below(4) == 0);
    let kind = [Kind::Mandato, Kind::Reversale][random.below(2) as usize];
    let path = table.to_str().unwrap().to_string();
    let mut after = Table::over(before.to_vec());
    let next = waiting(before, at, first);
    if random.below(if next.is_none() { 3 } else { 12 }) == 0 {
        // It is taken where none of the year's lines waits; then the next year begins.
        let _ = after.close(body, first);
        return Step { words: ["close", &path, body, &first.to_string()].map(String::from).into(), after: after.into_bytes() };
    }
    if random.below(5) == 0 {
        let first = 1 + random.below(4);
        let orders: Vec<_> = (0..1 + random.below(3)).map(|i| (kind, first + i)).collect();
        let text = flow_of(body, year, &orders);
        let file = folder.join("flow.xml");
        fs::write(&file, &text).unwrap();
        let _ = after.flow(Edition::Oil, text.as_bytes(), &mut [0; MOST_OUTCOME_BYTES]);
        return Step { words: vec!["flow".into(), path, file.to_str().unwrap().into()], after: after.into_bytes() };
    }
    let any = (kind, year, 1 + random.below(6) as u32, 1 + random.below(2) as u8);
    let (kind, year, order, line) = next.filter(|_| random.below(4) < 3).unwrap_or(any);
    let day = Date { year: 2021, month: 3, day: 3 };
    let notice = Notice { body, kind, esercizio: year, number: order, line, day };
    let name = if random.below(8) < 7 { "execute" } else { "reverse" };
    let _ = if name == "execute" { after.execute(&notice) } else { after.reverse(&notice) };
    let kind = if kind == Kind::Mandato { "mandato" } else { "reversale" };
    let words = [name, &path, body, kind, &year.to_string(), &order.to_string(), &line.to_string(), "2021-03-03"].map(String::from);
    Step { words: words.into(), after: after.into_bytes() }
}

/// Holds that bytes are a valid table.
pub fn valid(table: &[u8]) {
    assert_eq!(Table::over(table).totals(""), Err(Refusal::NoSuchBody));
}

/// Holds that a table's log is whole and gives the table again.
pub fn explained(folder: &Path, table: &Path) {
    let (path, again) = (table.to_str().unwrap(), folder.join("again"));
    let output = run(&["check", path], Cut::Not);
    assert!(output.status.success(), "{output:?}");
    let _ = fs::remove_file(&again);
    let output = run(&["replay", &format!("{path}.log"), again.to_str().unwrap()], Cut::Not);
    assert!(output.status.success(), "{output:?}");
    assert!(fs::read(&again).unwrap() == fs::read(table).unwrap());
}
