//! Two processes on one table: each waits for the other, and no call is lost.

use std::fs::{self, File};
use std::path::{Path, PathBuf};
use std::sync::atomic::{AtomicBool, Ordering};
use std::thread;
use std::time::Duration;

use crate::desk::{Cut, explained, flow, folder, number, run, valid};
use hondivole::{Kind, Table};

#[test]
fn two_processes() {
    let each = number("HONDIVOLE_EACH", 8);
    let folder = folder("two");
    let table = folder.join("desk.table");
    // One of them calls the table by a symbolic link.
    let link = folder.join("link");
    std::os::unix::fs::symlink("desk.table", &link).unwrap();
    let opened = run(&["open", table.to_str().unwrap(), "--abi", "01234", "000471:200", "471:200"], Cut::Not);
    assert!(opened.status.success(), "{opened:?}");
    thread::scope(|scope| {
        for (body, name) in [("000471", &table), ("471", &link)] {
            let folder = &folder;
            scope.spawn(move || {
                for number in 1..=each {
                    let file = folder.join(format!("{body}-{number}.xml"));
                    fs::write(&file, flow(body, &[(Kind::Mandato, number)])).unwrap();
                    let output = run(&["flow", name.to_str().unwrap(), file.to_str().unwrap()], Cut::Not);
                    assert!(output.status.success(), "{output:?}");
                }
            });
        }
    });
    let bytes = fs::read(&table).unwrap();
    for body in ["000471", "471"] {
        assert_eq!(Table::over(&bytes).totals(body).unwrap().used as u64, each);
    }
    assert!(fs::symlink_metadata(&link).unwrap().is_symlink());
    explained(&folder, &table);
}

/// A process that is stopped while it holds the lock holds the other up, and its end gives the lock back.
#[test]
fn waits_for_the_lock() {
    let folder = folder("waits");
    let table = folder.join("desk.table");
    let opened = run(&["open", table.to_str().unwrap(), "--abi", "01234", "471:4"], Cut::Not);
    assert!(opened.status.success(), "{opened:?}");
    let lock = fs::File::open(folder.join("desk.table.lock")).unwrap();
    lock.lock().unwrap();
    let file = folder.join("flow.xml");
    fs::write(&file, flow("471", &[(Kind::Mandato, 1)])).unwrap();
    let words = ["flow", table.to_str().unwrap(), file.to_str().unwrap()];
    let before = fs::read(&table).unwrap();
    let waiting = run(&words, Cut::After(std::time::Duration::from_millis(300)));
    assert!(waiting.status.code().is_none() && waiting.stdout.is_empty(), "{waiting:?}");
    assert!(fs::read(&table).unwrap() == before);
    // Those who only look wait for nobody.
    assert!(run(&["totals", table.to_str().unwrap()], Cut::Not).status.success());
    thread::scope(|scope| {
        let other = scope.spawn(|| run(&words, Cut::Not));
        thread::sleep(std::time::Duration::from_millis(100));
        drop(lock);
        let output = other.join().unwrap();
        assert!(output.status.success(), "{output:?}");
        assert!(String::from_utf8_lossy(&output.stderr).contains("waiting for another process"));
    });
}

/// A table of one body, and a flow for it.
fn table_and_flow(folder: &Path) -> (PathBuf, PathBuf) {
    let (table, file) = (folder.join("desk.table"), folder.join("flow.xml"));
    let opened = run(&["open", table.to_str().unwrap(), "--abi", "01234", "471:4"], Cut::Not);
    assert!(opened.status.success(), "{opened:?}");
    fs::write(&file, flow("471", &[(Kind::Mandato, 1)])).unwrap();
    (table, file)
}

/// Somebody removes the lock file while a process has it and another waits for it: that one waits for whoever locked the file made meanwhile.
#[test]
fn a_removed_lock_holds_nobody_in() {
    let folder = folder("removed");
    let (table, file) = table_and_flow(&folder);
    let name = folder.join("desk.table.lock");
    let words = ["flow", table.to_str().unwrap(), file.to_str().unwrap()];
    let (before, first) = (fs::read(&table).unwrap(), File::open(&name).unwrap());
    first.lock().unwrap();
    thread::scope(|scope| {
        let waiting = scope.spawn(|| run(&words, Cut::Not));
        thread::sleep(Duration::from_millis(200));
        fs::remove_file(&name).unwrap();
        let second = File::create_new(&name).unwrap();
        second.lock().unwrap();
        drop(first);
        thread::sleep(Duration::from_millis(300));
        assert!(!waiting.is_finished() && fs::read(&table).unwrap() == before);
        drop(second);
        assert!(waiting.join().unwrap().status.success());
    });
    explained(&folder, &table);
}

/// Somebody removes the lock file while a process works: the next one makes another, and is held up by the lock on the table itself, also where
/// the first one has replaced the table by then.
#[test]
fn a_table_is_held_too() {
    let folder = folder("held");
    let (table, file) = table_and_flow(&folder);
    let words = ["flow", table.to_str().unwrap(), file.to_str().unwrap()];
    let before = fs::read(&table).unwrap();
    let held = File::open(&table).unwrap();
    held.lock().unwrap();
    thread::scope(|scope| {
        fs::remove_file(folder.join("desk.table.lock")).unwrap();
        let waiting = scope.spawn(|| run(&words, Cut::Not));
        thread::sleep(Duration::from_millis(300));
        assert!(!waiting.is_finished() && fs::read(&table).unwrap() == before);
        // As a change does it: the next table is locked before it has the name.
        let next = folder.join("next");
        fs::write(&next, &before).unwrap();
        let next_held = File::open(&next).unwrap();
        next_held.lock().unwrap();
        fs::rename(&next, &table).unwrap();
        drop(held);
        thread::sleep(Duration::from_millis(300));
        assert!(!waiting.is_finished() && fs::read(&table).unwrap() == before);
        drop(next_held);
        let output = waiting.join().unwrap();
        assert!(output.status.success(), "{output:?}");
        assert!(String::from_utf8_lossy(&output.stderr).contains("waiting for another process"));
    });
    explained(&folder, &table);
}

/// A process with many flows holds each table that it leaves: one that comes after its first waits for its last, also without the lock file.
#[test]
fn a_table_is_held_from_call_to_call() {
    let folder = folder("calls");
    let table = folder.join("desk.table");
    let opened = run(&["open", table.to_str().unwrap(), "--abi", "01234", "000471:40", "471:40"], Cut::Not);
    assert!(opened.status.success(), "{opened:?}");
    let before = fs::read(&table).unwrap();
    let file = |body: &str, number: u64| {
        let file = folder.join(format!("{body}-{number}.xml"));
        fs::write(&file, flow(body, &[(Kind::Mandato, number)])).unwrap();
        file.to_str().unwrap().to_string()
    };
    let (many, one): (Vec<_>, _) = ((1..=40).map(|number| file("000471", number)).collect(), file("471", 1));
    let mut words = vec!["flow", table.to_str().unwrap()];
    words.extend(many.iter().map(String::as_str));
    thread::scope(|scope| {
        let first = scope.spawn(|| run(&words, Cut::Not));
        while fs::read(&table).unwrap() == before && !first.is_finished() {
            thread::sleep(Duration::from_micros(200));
        }
        fs::remove_file(folder.join("desk.table.lock")).unwrap();
        let second = run(&["flow", table.to_str().unwrap(), &one], Cut::Not);
        assert!(second.status.success(), "{second:?}");
        // The first was answered by then, all of it.
        let first = first.join().unwrap();
        assert!(first.status.success(), "{first:?}");
    });
    let bytes = fs::read(&table).unwrap();
    let used = ["000471", "471"].map(|body| Table::over(&bytes).totals(body).unwrap().used);
    assert_eq!(used, [40, 1]);
    explained(&folder, &table);
}

/// Two processes on one table whose lock file is removed all the time: no call is lost, and the log gives the table.
#[test]
fn two_processes_without_a_lasting_lock() {
    let each = number("HONDIVOLE_EACH", 8);
    let folder = folder("unlocked");
    let table = folder.join("desk.table");
    let opened = run(&["open", table.to_str().unwrap(), "--abi", "01234", "000471:200", "471:200"], Cut::Not);
    assert!(opened.status.success(), "{opened:?}");
    let done = AtomicBool::new(false);
    thread::scope(|scope| {
        scope.spawn(|| {
            while !done.load(Ordering::Relaxed) {
                let _ = fs::remove_file(folder.join("desk.table.lock"));
                thread::sleep(Duration::from_micros(300));
            }
        });
        let (folder, table) = (&folder, &table);
        let desks = ["000471", "471"].map(|body| {
            scope.spawn(move || {
                for number in 1..=each {
                    let file = folder.join(format!("{body}-{number}.xml"));
                    fs::write(&file, flow(body, &[(Kind::Mandato, number)])).unwrap();
                    let output = run(&["flow", table.to_str().unwrap(), file.to_str().unwrap()], Cut::Not);
                    assert!(output.status.success(), "{output:?}");
                }
            })
        });
        let ended = desks.map(|desk| desk.join());
        done.store(true, Ordering::Relaxed);
        assert!(ended.iter().all(Result::is_ok));
    });
    let bytes = fs::read(&table).unwrap();
    for body in ["000471", "471"] {
        assert_eq!(Table::over(&bytes).totals(body).unwrap().used as u64, each);
    }
    explained(&folder, &table);
}

/// `replay` and `check` beside a process that changes the table: they wait for nobody and hold up nobody, and what they tell is of a call that
/// was made, never of half of one.
#[test]
fn replayed_while_it_grows() {
    let each = number("HONDIVOLE_EACH", 8).max(20);
    let folder = folder("grows");
    let table = folder.join("desk.table");
    let name = table.to_str().unwrap();
    assert!(run(&["open", name, "--abi", "01234", "471:512"], Cut::Not).status.success());
    let done = AtomicBool::new(false);
    let looks = thread::scope(|scope| {
        let looking = scope.spawn(|| {
            let (mut used, mut looks) = (0, 0);
            while !done.load(Ordering::Relaxed) {
                let again = folder.join("again");
                let _ = fs::remove_file(&again);
                let at_least = fs::read(&table).unwrap();
                let output = run(&["replay", &format!("{name}.log"), again.to_str().unwrap()], Cut::Not);
                assert!(output.status.success(), "{output:?}");
                let bytes = fs::read(&again).unwrap();
                valid(&bytes);
                let now = Table::over(&bytes).totals("471").unwrap().used;
                let before = Table::over(&at_least).totals("471").unwrap().used;
                assert!(now >= before.max(used), "a call that the table had is missing: {now} of {before}");
                used = now;
                let output = run(&["check", name], Cut::Not);
                assert!(output.status.success(), "{output:?}");
                looks += 1;
            }
            looks
        });
        for number in 1..=each {
            let file = folder.join(format!("{number}.xml"));
            let orders: Vec<_> = (0..8).map(|i| (Kind::Mandato, 8 * number + i)).collect();
            fs::write(&file, flow("471", &orders)).unwrap();
            let output = run(&["flow", name, file.to_str().unwrap()], Cut::Not);
            assert!(output.status.success(), "{output:?}");
        }
        done.store(true, Ordering::Relaxed);
        looking.join().unwrap()
    });
    assert!(looks > 1);
    // A writer that has the lock holds neither of them up.
    let lock = File::open(folder.join("desk.table.lock")).unwrap();
    lock.lock().unwrap();
    let soon = Cut::After(Duration::from_secs(20));
    assert!(run(&["check", name], soon).status.success());
    assert!(run(&["replay", &format!("{name}.log"), folder.join("last").to_str().unwrap()], soon).status.success());
    drop(lock);
    explained(&folder, &table);
}
