//! The tool cut down at every moment: no call that was answered is lost, and the table is that before or after a call.

use std::fs;
use std::os::unix::process::ExitStatusExt;
use std::path::{Path, PathBuf};
use std::time::{Duration, Instant};

use crate::desk::{BODIES, Cut, Random, Step, calls_of, explained, flow, folder, number, run, step, valid};
use hondivole::{Edition, Kind, MOST_OUTCOME_BYTES, Table};

/// The ways of tests/tool/crash.c.
const HOW: [&str; 4] = ["kill", "power", "part", "fail"];

fn opened(folder: &Path) -> PathBuf {
    let table = folder.join("desk.table");
    for end in ["", ".log", ".new", ".old"] {
        let _ = fs::remove_file(format!("{}{end}", table.display()));
    }
    let mut words: Vec<String> = ["open", table.to_str().unwrap(), "--abi", "01234"].map(String::from).into();
    words.extend(BODIES.map(|(code, slots)| format!("{code}:{slots}")));
    let output = run(&words.iter().map(String::as_str).collect::<Vec<_>>(), Cut::Not);
    assert!(output.status.success(), "{output:?}");
    table
}

/// What became of runs that were cut down.
#[derive(Debug, Default)]
struct Seen {
    answered: u64,
    refused_by_the_disk: u64,
    killed_before: u64,
    killed_after: u64,
    killed_and_nothing_to_tell: u64,
}

impl Seen {
    /// Makes a call that is cut down, holds the table to it, and gives the table that is there now.
    fn made(&mut self, table: &Path, before: &[u8], step: &Step, cut: Cut) -> Vec<u8> {
        let words: Vec<_> = step.words.iter().map(String::as_str).collect();
        let output = run(&words, cut);
        let now = fs::read(table).unwrap();
        let told = || format!("{cut:?} {words:?} {output:?}");
        valid(&now);
        match output.status.code() {
            Some(0 | 1) => {
                assert!(now == step.after && !output.stdout.is_empty(), "answered, and not on disk: {}", told());
                self.answered += 1;
            }
            Some(3) => {
                let lasting = String::from_utf8_lossy(&output.stderr).contains("the table has this call");
                assert!(now == if lasting { &step.after[..] } else { before }, "{}", told());
                self.refused_by_the_disk += 1;
            }
            _ => {
                assert_eq!(output.status.signal(), Some(9), "{}", told());
                // What was said before the kill was answered.
                assert!(output.stdout.is_empty() || now == step.after, "{}", told());
                match (now == before, now == step.after) {
                    (true, true) => self.killed_and_nothing_to_tell += 1,
                    (true, false) => self.killed_before += 1,
                    (false, true) => self.killed_after += 1,
                    (false, false) => panic!("a table of neither: {}", told()),
                }
            }
        }
        now
    }
}

/// Each call on files of `open` and of a flow is a moment to be killed at, to lose power at, or to fail at. The next call then works, and
/// the log gives the table again.
#[test]
fn at_every_call_on_files() {
    let folder = folder("every");
    let mut seen = Seen::default();
    let mut table = opened(&folder);
    let before = fs::read(&table).unwrap();
    let (file, text) = (folder.join("flow.xml"), flow("471", &[(Kind::Mandato, 1), (Kind::Reversale, 2)]));
    fs::write(&file, &text).unwrap();
    let mut after = Table::over(before.clone());
    after.flow(Edition::Oil, text.as_bytes(), &mut [0; MOST_OUTCOME_BYTES]).unwrap();
    let words = ["flow", table.to_str().unwrap(), file.to_str().unwrap()].map(String::from);
    let flow = Step { words: words.into(), after: after.into_bytes() };

    let words: Vec<_> = flow.words.iter().map(String::as_str).collect();
    let calls = calls_of(&words, &folder.join("count"));
    assert!(calls > 7, "{calls}");
    for how in HOW {
        for at in 1..=calls + 1 {
            table = opened(&folder);
            let now = seen.made(&table, &before, &flow, Cut::At(at, how));
            let mut after = Table::over(now.clone());
            let _ = after.flow(Edition::Oil, text.as_bytes(), &mut [0; MOST_OUTCOME_BYTES]);
            let again = Step { words: flow.words.clone(), after: after.into_bytes() };
            assert!(seen.made(&table, &now, &again, Cut::Not) == flow.after);
            explained(&folder, &table);
        }
    }
    println!("flow: {calls} calls on files, {seen:?}");
}

/// The same of a flow with a message: where the table has the flow, the message is in its place or beside it.
#[test]
fn message_at_every_call_on_files() {
    let folder = folder("message");
    let mut table = opened(&folder);
    let before = fs::read(&table).unwrap();
    let (file, text) = (folder.join("flow.xml"), flow("471", &[(Kind::Mandato, 1)]));
    fs::write(&file, &text).unwrap();
    let values = "codice_ente=UFABCD descrizione_ente=Pascoli codice_fiscale_ente=80012345678 codice_tramite_ente=A2A-12345678 \
                  codice_tramite_BT=A2A-87654321 identificativo_flusso_BT=BT-1 data_ora_creazione_flusso=2021-03-01T09:31:00+01:00 \
                  data_ora_esito_operazione=2021-03-01T09:30:30+01:00";
    let apart = folder.join("messages");
    fs::create_dir(&apart).unwrap();
    let (out, beside) = (apart.join("m.xml"), apart.join("m.xml.new"));
    let mut words = vec!["flow", table.to_str().unwrap(), file.to_str().unwrap(), "--message", out.to_str().unwrap()];
    words.extend(values.split_ascii_whitespace().flat_map(|value| ["--value", value]));
    let words: Vec<_> = words.into_iter().map(String::from).collect();
    let words: Vec<_> = words.iter().map(String::as_str).collect();
    let calls = calls_of(&words, &folder.join("count"));
    let (message, after) = (fs::read(&out).unwrap(), fs::read(&table).unwrap());
    assert!(!beside.exists() && before != after);
    for how in HOW {
        for at in 1..=calls + 1 {
            table = opened(&folder);
            let _ = (fs::remove_file(&out), fs::remove_file(&beside), fs::remove_file(apart.join("m.xml.old")));
            let output = run(&words, Cut::At(at, how));
            let told = || format!("{how} {at} of {calls} {output:?}");
            let now = fs::read(&table).unwrap();
            let placed = fs::read(&out).is_ok_and(|bytes| bytes == message);
            let kept = fs::read(&beside).is_ok_and(|bytes| bytes == message);
            let fault = String::from_utf8_lossy(&output.stderr);
            assert!(now == before || now == after, "{}", told());
            assert!(placed <= (now == after) && (now == after) <= (placed || kept), "{}", told());
            assert!(!output.status.success() || placed, "{}", told());
            if how == "fail" && at <= calls && now == after {
                assert_eq!(output.status.code(), Some(3), "{}", told());
                assert!(fault.contains(if kept { "its message is in" } else { "may lose its place" }), "{}", told());
            } else if how == "fail" && at <= calls {
                assert!(!beside.exists(), "{}", told());
            }
        }
    }
    println!("flow with a message: {calls} calls on files");
}

/// The same of `open`: there is the table or none, and where there is none it can be opened.
#[test]
fn opening_at_every_call_on_files() {
    let folder = folder("opening");
    let whole = fs::read(opened(&folder)).unwrap();
    let table = folder.join("new.table");
    let path = table.to_str().unwrap();
    let bodies = BODIES.map(|(code, slots)| format!("{code}:{slots}"));
    let words = ["open", path, "--abi", "01234", &bodies[0], &bodies[1], &bodies[2]];
    let gone = || {
        for end in ["", ".log", ".lock", ".new", ".old"] {
            let _ = fs::remove_file(format!("{path}{end}"));
        }
    };
    let calls = calls_of(&words, &folder.join("count"));
    assert!(calls > 7, "{calls}");
    for how in HOW {
        for at in 1..=calls + 1 {
            gone();
            let output = run(&words, Cut::At(at, how));
            match fs::read(&table) {
                Ok(bytes) => assert!(bytes == whole, "{how} {at} {output:?}"),
                Err(_) => {
                    assert!(!output.status.success(), "{how} {at} {output:?}");
                    let output = run(&words, Cut::Not);
                    assert!(output.status.success(), "{how} {at} {output:?}");
                }
            }
            assert!(fs::read(&table).unwrap() == whole);
            explained(&folder, &table);
        }
    }
    println!("open: {calls} calls on files, each killed, without power and failing");
}

/// The same of a close that removes orders.
#[test]
fn close_at_every_call_on_files() {
    let folder = folder("close");
    let mut seen = Seen::default();
    let file = folder.join("flow.xml");
    fs::write(&file, flow("471", &[(Kind::Mandato, 1)])).unwrap();
    let ready = |table: &Path| {
        let name = table.to_str().unwrap();
        for words in [
            &["flow", name, file.to_str().unwrap()][..],
            &["execute", name, "471", "mandato", "2021", "1", "1", "2021-03-03"],
            &["execute", name, "471", "mandato", "2021", "1", "2", "2021-03-03"],
        ] {
            assert!(run(words, Cut::Not).status.success());
        }
        fs::read(table).unwrap()
    };
    let mut table = opened(&folder);
    let before = ready(&table);
    let mut after = Table::over(before.clone());
    assert_eq!(after.close("471", 2021), Ok(1));
    let close =
        Step { words: ["close", table.to_str().unwrap(), "471", "2021"].map(String::from).into(), after: after.into_bytes() };
    let words: Vec<_> = close.words.iter().map(String::as_str).collect();
    let calls = calls_of(&words, &folder.join("count"));
    for how in HOW {
        for at in 1..=calls + 1 {
            table = opened(&folder);
            assert!(ready(&table) == before);
            let now = seen.made(&table, &before, &close, Cut::At(at, how));
            // Made again it is taken, or refused with 36 where it was.
            let again = Step { words: close.words.clone(), after: close.after.clone() };
            seen.made(&table, &now, &again, Cut::Not);
            explained(&folder, &table);
        }
    }
    println!("close: {calls} calls on files, {seen:?}");
}

/// Flows, notices and closes of three bodies, most of them cut down: by a kill from outside at a random moment, by a kill or a loss of power at a
/// random call on files, or by a disk that fails. HONDIVOLE_CRASHES is how many.
#[test]
fn at_random_moments() {
    let (crashes, seed) = (number("HONDIVOLE_CRASHES", 100), number("HONDIVOLE_SEED", 7));
    let folder = folder("random");
    let mut random = Random(seed.wrapping_mul(0x9e37_79b9_7f4a_7c15) | 1);
    let (mut table, mut now) = (PathBuf::new(), Vec::new());
    let mut usual = Duration::from_millis(5);
    let (mut plain, mut outside, mut inside) = (Seen::default(), Seen::default(), Seen::default());
    let mut closes = 0;
    for i in 0..crashes {
        if i % 200 == 0 {
            table = opened(&folder);
            now = fs::read(&table).unwrap();
        }
        let step = step(&mut random, &folder, &table, &now);
        let (start, before) = (Instant::now(), now.clone());
        now = match random.below(20) {
            0..=1 => {
                let now = plain.made(&table, &now, &step, Cut::Not);
                usual = (3 * usual + start.elapsed()) / 4;
                now
            }
            2..=10 => {
                let time = usual.mul_f64(random.below(1_200) as f64 / 1_000.0);
                outside.made(&table, &now, &step, Cut::After(time))
            }
            other => {
                let how = HOW[other as usize % HOW.len()];
                inside.made(&table, &now, &step, Cut::At(1 + random.below(12), how))
            }
        };
        let used = |table: &[u8]| BODIES.iter().map(|body| Table::over(table).totals(body.0).unwrap().used).sum::<usize>();
        closes += u64::from(used(&now) < used(&before));
        if i % 50 == 49 || i + 1 == crashes {
            explained(&folder, &table);
        }
        if i % 1_000 == 999 {
            eprintln!("{} of {crashes} calls", i + 1);
        }
    }
    println!(
        "{crashes} calls, seed {seed}, {closes} of them closes that removed orders\n  let alone {plain:?}\n  killed from outside {outside:?}\n  killed or failing at a call on files {inside:?}"
    );
}
