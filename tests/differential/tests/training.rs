//! The two engines of document 02, Req 12: the training room's program, which keeps each body's orders in a plain list, against the library
//! (without the feature `native`: the reference). The same calls are made on the same table, and every line that the program prints is held
//! to the answer, the outcome bytes and, in the end, the records in the table's bytes.
//!
//! The program is crates/training_room/out/training_room, or the one that HONDIVOLE_TRAINING names.

use std::collections::BTreeSet;
use std::fs::{self, File};
use std::path::{Path, PathBuf};
use std::process::{self, Command, Output};
use std::{env, iter, thread};

#[cfg(feature = "native")]
use differential::engine::Library as Desk;
#[cfg(not(feature = "native"))]
use differential::engine::Reference as Desk;
use differential::flows::{self, Size};
use differential::random::Random;
use differential::wrong::{Fault, Wrong};
use differential::{Answer, Call, Case, Engine, Reference, Yard, cases, tables};
use reference::table::number_at;
use reference::{FlowAnswer, LineState, Notice, Order, State, Table};

/// The top of the repository.
const ROOT: &str = concat!(env!("CARGO_MANIFEST_DIR"), "/../..");
/// How many sequences are compared.
const SEQUENCES: u64 = 400;
/// The most slots that a body of the training room has.
const PLACES: usize = 32;
/// The length of the program's outcome buffer.
const ROOM: usize = 1_024;
/// The greatest number that a line carries here.
const GREATEST: u64 = 1_000_000_000_000_000_000;

const KINDS: [&str; 2] = ["mandato", "reversale"];
const OPERATIONS: [&str; 4] = ["INSERIMENTO", "VARIAZIONE", "ANNULLO", "SOSTITUZIONE"];
/// How the words for each cause begin, behind which a form or a length is told.
const CAUSES: [&str; 4] = [
    "empty; its form: ",
    "longer than the longest allowed text, of ",
    "wrong form; its form: ",
    "right form but a value outside its range; its form: ",
];

// ---- sequences

/// A table that the training room takes, and calls that a line can carry, each chosen after the table that the calls before have left.
fn sequence(index: u64) -> Case {
    let mut random = Random::of_case(12, index);
    let table = table(&mut random, index);
    let mut after = table.encode();
    let mut calls = Vec::new();
    for _ in 0..10 + random.below(40) {
        let now = Table::decode(&after).expect("calls leave a valid table");
        let call = match random.weighted(&[66, 24, 6, 4]) {
            0 => cases::call(&mut random, &now),
            1 => flow_call(flows::damaged(&mut random, &now, Size::Few)),
            2 => flow_call(flows::whole(&mut random, &now, Size::Any)),
            _ => {
                let body = random.pick(&now.bodies);
                flow_call(flows::filling(&mut random, &now.abi, body, 2021))
            }
        };
        if let Some(call) = carried(call) {
            cases::made(&mut after, &call);
            calls.push(call);
        }
    }
    calls.extend(table.bodies.iter().map(|body| Call::Totals { body: body.code.clone() }));
    Case { table: table.encode(), calls }
}

/// Whether a sequence is on document 01's table, which the program has without a file.
fn is_anew(index: u64) -> bool {
    index.is_multiple_of(8)
}

/// Document 01's table, or any other whose bodies are small enough and have closed no year.
fn table(random: &mut Random, index: u64) -> Table {
    if is_anew(index) {
        let mut table = vec![0; 880];
        assert_eq!(reference::open(&reference::request(b"01234", &[(b"000471", 4), (b"471", 4)]), &mut table), 0);
        return Table::decode(&table).expect("it was opened");
    }
    let (bodies, slots) = *random.pick(&[(4, 6), (4, 6), (16, 12), (3, PLACES), (16, PLACES)]);
    let mut table = tables::empty(random, bodies, slots);
    if random.percent(20) {
        random.pick_mut(&mut table.bodies).slots = PLACES;
    }
    if random.percent(70) {
        tables::fill_all(random, &mut table);
        tables::without_closed(&mut table);
    }
    table
}

fn flow_call((edition, flow): (u64, Vec<u8>)) -> Call {
    Call::Flow { edition, flow, room: ROOM }
}

/// The call as a line can carry it; `None` for one that the room doesn't know, and for a code that is not one word.
fn carried(mut call: Call) -> Option<Call> {
    let word = |body: &[u8]| !body.iter().any(u8::is_ascii_whitespace);
    let stands = match &mut call {
        Call::Flow { edition, room, .. } => {
            (*edition, *room) = ((*edition).min(GREATEST), ROOM);
            true
        }
        Call::Execute { body, notice } | Call::Reverse { body, notice } => {
            let Notice { kind, esercizio, number, line, date } = notice;
            [kind, esercizio, number, line].into_iter().for_each(|value| *value = (*value).min(GREATEST));
            *date = (date.0 % 10_000, date.1 % 100, date.2 % 100);
            !body.is_empty() && word(body)
        }
        Call::Totals { body } => word(body),
        _ => false,
    };
    stands.then_some(call)
}

/// The line of call `at`. What can be written in two ways is written in both.
fn line(at: usize, call: &Call) -> Vec<u8> {
    let notice_line = |word: &str, body: &[u8], notice: &Notice| {
        let (year, month, day) = notice.date;
        let kind = match notice.kind {
            kind @ 1..=2 if !at.is_multiple_of(4) => KINDS[kind as usize - 1].to_string(),
            kind => kind.to_string(),
        };
        let rest = format!("{kind} {} {} {} {year:04}-{month:02}-{day:02}", notice.esercizio, notice.number, notice.line);
        [word.as_bytes(), body, rest.as_bytes()].join(&b' ')
    };
    match call {
        Call::Flow { edition: 1, .. } if at.is_multiple_of(2) => format!("flow {at}.xml").into_bytes(),
        Call::Flow { edition, .. } => format!("flow {at}.xml {edition}").into_bytes(),
        Call::Execute { body, notice } => notice_line("execute", body, notice),
        Call::Reverse { body, notice } => notice_line("reverse", body, notice),
        Call::Totals { body } => [b"totals ", &body[..]].concat(),
        _ => unreachable!("a line can't carry {call:?}"),
    }
}

/// The lines that ask for the lists in the end: each body's, and that of a code which none has.
fn lists(case: &Case) -> Vec<Vec<u8>> {
    let table = Table::decode(&case.table).expect("a sequence begins with a valid table");
    let codes = table.bodies.into_iter().map(|body| body.code).chain([b"?".to_vec()]);
    codes.map(|code| [b"list ", &code[..]].concat()).collect()
}

// ---- what the program has to print

/// A line as it has to be, or as it has to begin where a sentence follows.
struct Wanted {
    text: Vec<u8>,
    goes_on: bool,
}

impl Wanted {
    fn is(&self, line: &[u8]) -> bool {
        if self.goes_on { line.starts_with(&self.text) && line.len() > self.text.len() } else { line == self.text }
    }
}

fn whole(text: impl Into<Vec<u8>>) -> Wanted {
    Wanted { text: text.into(), goes_on: false }
}

fn begins(text: impl Into<Vec<u8>>) -> Wanted {
    Wanted { text: text.into(), goes_on: true }
}

fn refused(code: u64) -> Wanted {
    begins(format!("  {code}, "))
}

/// What has to be printed where the calls are answered as this engine answers them.
fn wanted(engine: &dyn Engine, case: &Case) -> Vec<Wanted> {
    let (mut yard, mut table, mut lines) = (Yard::default(), case.table.clone(), Vec::new());
    let said_again = |line: Vec<u8>| whole([b"> ", &line[..]].concat());
    for (at, call) in case.calls.iter().enumerate() {
        lines.push(said_again(line(at, call)));
        let served = yard.serve(engine, &mut table, call).expect("nothing outside the buffers is written");
        match (call, served.answer) {
            (Call::Flow { edition, flow, .. }, Answer::Flow(answer)) => match answer.code {
                0 => lines.extend(taken(&answer, &served.outcomes)),
                5 => lines.push(broken_field(*edition, flow, &answer)),
                code => lines.push(refused(code)),
            },
            (_, Answer::Totals(totals)) if totals.code == 0 => {
                let sign = if totals.balance < 0 { "-" } else { "" };
                lines.push(whole(format!(
                    "  0, orders {}, paid {}, collected {}, balance {sign}{}",
                    totals.used,
                    money(totals.paid),
                    money(totals.collected),
                    money(totals.balance.unsigned_abs())
                )));
            }
            (Call::Execute { .. }, Answer::Notice(answer)) if answer.code == 0 => {
                lines.push(whole(format!("  0, executed: {}", money(answer.cents))));
            }
            (Call::Reverse { .. }, Answer::Notice(answer)) if answer.code == 0 => {
                lines.push(whole(format!("  0, reversed: {}", money(answer.cents))));
            }
            (_, answer) => lines.push(refused(answer.code())),
        }
    }
    // Where an engine has left what is no table, no list is right.
    let bodies = Table::decode(&table).map_or(Vec::new(), |table| table.bodies);
    for (at, line) in lists(case).into_iter().enumerate() {
        lines.push(said_again(line));
        match bodies.get(at) {
            Some(body) if body.orders.is_empty() => lines.push(whole("  no order")),
            Some(body) => lines.extend(body.orders.iter().map(record)),
            None => lines.push(refused(7)),
        }
    }
    lines
}

/// A flow that was taken, and its orders.
fn taken(answer: &FlowAnswer, outcomes: &[u8]) -> Vec<Wanted> {
    let first = format!("  0, taken: {} of {} orders accepted, steps {}", answer.accepted, answer.orders, answer.steps);
    let orders = outcomes.chunks(reference::OUTCOME).take(answer.orders as usize).map(|outcome| {
        let (kind, operation) = (KINDS[usize::from(outcome[0]) - 1], OPERATIONS[usize::from(outcome[1]) - 1]);
        let (number, total) = (number_at(outcome, 4, 4), money(number_at(outcome, 8, 8)));
        let lines = if outcome[3] == 1 { "1 line".into() } else { format!("{} lines", outcome[3]) };
        let start = format!("  {kind} {number} {operation}, {total} in {lines}:  {}, ", outcome[2]);
        if outcome[2] == 0 { whole(start + "accepted") } else { begins(start) }
    });
    iter::once(whole(first)).chain(orders).collect()
}

/// A field that breaks: with edition 1 its name, its text, its place and the cause, with edition 2 its place and the cause.
fn broken_field(edition: u64, flow: &[u8], answer: &FlowAnswer) -> Wanted {
    if edition == 2 {
        return whole(format!("  5, a field breaks, at byte {}, cause {}", answer.place, answer.cause));
    }
    let mut parts = flow[answer.place as usize + 1..].splitn(2, |&byte| byte == b'>');
    let (name, rest) = (parts.next().unwrap_or_default(), parts.next().unwrap_or_default());
    let text = rest.iter().take_while(|&&byte| byte != b'<').take(160);
    let text: Vec<u8> = text.map(|&byte| if byte.is_ascii_control() { b'.' } else { byte }).collect();
    let place = format!("' at byte {}: {}", answer.place, CAUSES[answer.cause as usize - 1]);
    begins([b"  5, a field breaks: ", name, b" '", &text, place.as_bytes()].concat())
}

/// An order of a body's list.
fn record(order: &Order) -> Wanted {
    let Order { kind, state, esercizio, number, date, total, lines } = order;
    let (kind, total) = (KINDS[*kind as usize - 1], money(*total));
    let state = if *state == State::Annulled { "annulled" } else { "acquired" };
    let date = format!("{}-{:02}-{:02}", date.year, date.month, date.day);
    let lines = lines.iter().map(|line| {
        let state = match line.state {
            LineState::Waiting => "waiting",
            LineState::Executed => "executed",
            LineState::Replaced => "replaced",
        };
        format!("; {} {state}", money(line.amount))
    });
    whole(format!("  {kind} {esercizio} {number} of {date}, {total}, {state}{}", lines.collect::<String>()))
}

fn money(cents: u64) -> String {
    format!("{}.{:02}", cents / 100, cents % 100)
}

/// The first line that is another than it has to be.
fn difference(wanted: &[Wanted], printed: &[u8]) -> Option<String> {
    let lines: Vec<&[u8]> = printed.split_inclusive(|&byte| byte == b'\n').collect();
    let is = |at: usize| match (wanted.get(at), lines.get(at)) {
        (Some(wanted), Some(line)) => line.strip_suffix(b"\n").is_some_and(|line| wanted.is(line)),
        _ => false,
    };
    let at = (0..wanted.len().max(lines.len())).find(|&at| !is(at))?;
    let wanted = wanted.get(at).map_or(&b"nothing"[..], |wanted| &wanted.text).escape_ascii();
    let line = lines.get(at).copied().unwrap_or(b"nothing").escape_ascii();
    Some(format!("line {}:\n  the table engine: {wanted}\n  the program:      {line}", at + 1))
}

// ---- the program

/// A folder for a test's files, which is left where the test fails.
struct Folder(PathBuf);

impl Folder {
    fn new(name: &str) -> Folder {
        let path = Path::new(env!("CARGO_TARGET_TMPDIR")).join(format!("training-{name}-{}", process::id()));
        fs::create_dir_all(&path).unwrap_or_else(|error| panic!("cannot make {}: {error}", path.display()));
        Folder(path)
    }

    fn write(&self, name: &str, bytes: &[u8]) {
        fs::write(self.0.join(name), bytes).unwrap_or_else(|error| panic!("cannot write {name} in {}: {error}", self.0.display()));
    }

    /// Runs the program on a script, with a table's file where one is named.
    fn run(&self, table: Option<&str>, script: &[u8]) -> Output {
        self.write("script.txt", script);
        let input = File::open(self.0.join("script.txt")).expect("it was written");
        let program = program();
        let mut command = if cfg!(target_arch = "x86_64") {
            Command::new(&program)
        } else {
            let mut command = Command::new(format!("{ROOT}/tools/run"));
            command.arg(&program);
            command
        };
        let output = command.args(table).current_dir(&self.0).stdin(input).output();
        output.unwrap_or_else(|error| panic!("cannot run {}: {error}", program.display()))
    }

    /// What the program prints for a sequence.
    fn printed(&self, index: u64, case: &Case) -> Vec<u8> {
        for (at, call) in case.calls.iter().enumerate() {
            if let Call::Flow { flow, .. } = call {
                self.write(&format!("{at}.xml"), flow);
            }
        }
        self.write("table.bin", &case.table);
        let lines = case.calls.iter().enumerate().map(|(at, call)| line(at, call)).chain(lists(case));
        let script: Vec<u8> = lines.flat_map(|line| [&line[..], b"\n"].concat()).collect();
        let output = self.run((!is_anew(index)).then_some("table.bin"), &script);
        let said = output.stderr.escape_ascii();
        assert!(output.status.success() && output.stderr.is_empty(), "sequence {index}: {}, {said}", output.status);
        output.stdout
    }
}

impl Drop for Folder {
    fn drop(&mut self) {
        if thread::panicking() {
            eprintln!("the last run's files are in {}", self.0.display());
        } else {
            let _ = fs::remove_dir_all(&self.0);
        }
    }
}

fn program() -> PathBuf {
    let built = || Path::new(ROOT).join("crates/training_room/out/training_room");
    let path = env::var_os("HONDIVOLE_TRAINING").map_or_else(built, PathBuf::from);
    path.canonicalize().unwrap_or_else(|error| {
        let path = path.display();
        panic!("the training room's program {path}: {error}. Build it with `rt run` in crates/training_room, or set HONDIVOLE_TRAINING to its path")
    })
}

// ---- the tests

#[test]
fn the_program_answers_as_the_table_engine() {
    let folder = Folder::new("answers");
    let (mut calls, mut asked) = (0, 0);
    for index in 0..SEQUENCES {
        let case = sequence(index);
        if let Some(found) = difference(&wanted(&Desk, &case), &folder.printed(index, &case)) {
            panic!("sequence {index}, {found}");
        }
        calls += case.calls.len();
        asked += lists(&case).len();
    }
    println!("training: {SEQUENCES} sequences, {calls} calls, {asked} lists, 0 differences");
}

/// The sequences come to every code and cause that the training room can answer.
#[test]
fn every_answer_is_reached() {
    let (mut yard, mut reached) = (Yard::default(), BTreeSet::new());
    for index in 0..SEQUENCES {
        let case = sequence(index);
        let mut table = case.table.clone();
        for call in &case.calls {
            let served = yard.serve(&Reference, &mut table, call).expect("nothing outside the buffers is written");
            match served.answer {
                Answer::Flow(answer) => {
                    reached.extend([("flow", answer.code), ("cause", answer.cause)]);
                    let outcomes = served.outcomes.chunks(reference::OUTCOME).take(answer.orders as usize);
                    reached.extend(outcomes.map(|outcome| ("order", u64::from(outcome[2]))));
                }
                Answer::Notice(answer) if matches!(call, Call::Execute { .. }) => drop(reached.insert(("execute", answer.code))),
                Answer::Notice(answer) => drop(reached.insert(("reverse", answer.code))),
                answer => drop(reached.insert(("totals", answer.code()))),
            }
        }
    }
    let all: [(&str, &[u64]); 6] = [
        ("flow", &[0, 2, 3, 4, 5, 6, 7, 23]),
        ("cause", &[0, 1, 2, 3, 4]),
        ("order", &[0, 12, 13, 14, 15, 16, 17, 18, 19, 24, 25, 26]),
        ("execute", &[0, 7, 16, 17, 20, 21, 27, 28]),
        ("reverse", &[0, 7, 16, 17, 20, 22, 27, 28]),
        ("totals", &[0, 7]),
    ];
    let all = all.into_iter().flat_map(|(what, codes)| codes.iter().map(move |&code| (what, code))).collect();
    assert_eq!(reached, all);
}

/// Engines that are wrong on purpose: each answers some sequence otherwise than the program does.
#[test]
fn wrong_engines_are_seen() {
    let mut unseen = vec![
        Fault::CodesAsIntegers,
        Fault::StaleAmounts,
        Fault::AnnulloByNumber,
        Fault::SlotsOfAnother,
        Fault::HalfApplied,
        Fault::PlaceWithoutMark,
        Fault::LongCalledMisformed,
        Fault::EmptySlotCounted,
        Fault::AnnulledNotUsed,
        Fault::LineCutToByte,
        Fault::KeptNotTakenBack,
        Fault::NamedTwice,
        Fault::MarksLeft,
        Fault::OwnKeyFound,
        Fault::NamedCounted,
        Fault::CashMoved,
        Fault::ReplacedReversed,
    ];
    let folder = Folder::new("wrong");
    let mut sequences = 0..SEQUENCES;
    while let (false, Some(index)) = (unseen.is_empty(), sequences.next()) {
        let case = sequence(index);
        let printed = folder.printed(index, &case);
        unseen.retain(|&fault| difference(&wanted(&Wrong(fault), &case), &printed).is_none());
    }
    assert!(unseen.is_empty(), "not seen: {unseen:?}");
}

/// A digit that is one more, a line too few and a line too many are seen, wherever they stand.
#[test]
fn one_off_is_seen() {
    let folder = Folder::new("one-off");
    for index in 0..8 {
        let case = sequence(index);
        let (wanted, printed) = (wanted(&Desk, &case), folder.printed(index, &case));
        assert_eq!(difference(&wanted, &printed), None);
        let lines: Vec<&[u8]> = printed.split_inclusive(|&byte| byte == b'\n').collect();
        for at in 0..lines.len() {
            let twice = [&lines[..at], &lines[at..=at], &lines[at..]].concat().concat();
            let without = [&lines[..at], &lines[at + 1..]].concat().concat();
            assert!(difference(&wanted, &twice).is_some() && difference(&wanted, &without).is_some());
            for digit in (0..wanted[at].text.len()).filter(|&digit| lines[at][digit].is_ascii_digit()) {
                let mut line = lines[at].to_vec();
                line[digit] = b'0' + (line[digit] - b'0' + 1) % 10;
                let changed = [&lines[..at], &[&line[..]], &lines[at + 1..]].concat().concat();
                assert!(difference(&wanted, &changed).is_some(), "{}", line.escape_ascii());
            }
        }
    }
}

/// Why the training room takes no such table; `None` where it does.
fn refusal(bytes: &[u8]) -> Option<&'static str> {
    if Desk.totals(bytes, b"?", &mut 0, &mut 0, &mut 0, &mut 0) == 1 {
        return Some("the table is not valid");
    }
    let bodies = Table::decode(bytes).expect("the engines agree on what is valid").bodies;
    if bodies.iter().any(|body| body.slots > PLACES) {
        return Some("a body of the table has more than 32 slots");
    }
    bodies.iter().any(|body| body.closed > 0).then_some("a body of the table has closed a year")
}

/// Tables that are not valid, too large or of closed years are refused with their word and without an answer; those just inside are taken.
#[test]
fn refused_tables() {
    let mut random = Random::of_case(12, 1);
    let folder = Folder::new("refused");
    let mut edge = |slots: usize, closed: u16| {
        let mut table = tables::empty(&mut random, 2, 4);
        let last = table.bodies.last_mut().expect("a table has a body");
        (last.slots, last.closed) = (slots, closed);
        table.encode()
    };
    let mut given = vec![edge(32, 0), edge(33, 0), edge(4, 2020), edge(33, 2020), Vec::new(), vec![0; 70_000]];
    given.push(fs::read(format!("{ROOT}/examples/table-1.bin")).expect("the example is there"));
    for _ in 0..60 {
        given.push(tables::valid(&mut random).encode());
        given.push(tables::of_several_years(&mut random).encode());
        given.push(tables::damaged(&mut random).1);
    }
    let mut seen = BTreeSet::new();
    for table in given {
        folder.write("table.bin", &table);
        let output = folder.run(Some("table.bin"), b"totals ?\n");
        let (printed, said) = (output.stdout.escape_ascii().to_string(), output.stderr.escape_ascii().to_string());
        let why = refusal(&table);
        match why {
            Some(word) => assert!(printed.is_empty() && said.contains(word), "{word}, not {printed} {said}"),
            None => assert!(printed.starts_with("> totals ?\\n  7, ") && said.is_empty(), "{printed} {said}"),
        }
        seen.insert(why);
    }
    assert_eq!(seen.len(), 4, "{seen:?}");
    let output = folder.run(Some("nowhere.bin"), b"totals ?\n");
    assert!(output.stdout.is_empty() && output.stderr.ends_with(b"the table's file cannot be opened\n"), "{output:?}");
}
