//! A table file under its lock: calls are logged, then the table is replaced, then the answer is given.

use std::fs::{self, File, Metadata};
use std::path::Path;

use crate::call::{Answer, Call};
use crate::digest::digest;
use crate::disk::{self, Draft, MOST_TABLE_BYTES, sync_folder};
use crate::fault::Fault;
use crate::log::{FOUND, Log};
use crate::place::{Place, with};
use crate::say::Say;
use crate::words;

/// A table that this process alone may change.
pub struct Desk {
    place: Place,
    /// What others wait for. Closing it gives the lock back, whichever way the process ends.
    lock: File,
    /// The table's own file, locked too: it holds others up where somebody removed the lock file, and another was made.
    held: Option<File>,
    /// The file's bytes; none where there is no file yet.
    table: Vec<u8>,
    log: Option<Log>,
}

impl Desk {
    /// Takes the lock of a table that is there, and reads it.
    pub fn of_table(path: &Path, say: Say) -> Result<Desk, Fault> {
        let place = Place::of_table(path)?.named()?;
        let lock = locked(&place, say)?;
        let held = disk::locked(&place.table, || disk::open_to_lock(&place.table), || waits(&place, say))?;
        let table = disk::read_from(&held, &place.table, MOST_TABLE_BYTES)?;
        Ok(Desk { place, lock, held: Some(held), table, log: None })
    }

    /// Makes a new table by a call that needs none. One that is refused leaves no file.
    pub fn make(path: &Path, call: &Call, say: Say) -> Result<Answer, Fault> {
        Place::of_new(path)?;
        match call.apply(&[]) {
            Some(taken) if taken.answer.code != 0 => Ok(taken.answer),
            _ => Desk::of_new(path, say)?.take(call),
        }
    }

    /// Takes the lock of a table that is to be made.
    pub fn of_new(path: &Path, say: Say) -> Result<Desk, Fault> {
        let place = Place::of_new(path)?;
        let lock = locked(&place, say)?;
        // Another process may have made it before it gave the lock back.
        Place::of_new(path)?;
        Ok(Desk { place, lock, held: None, table: Vec::new(), log: None })
    }

    /// Makes a call. When it is back, entry and table are on disk. Where it fails, the table is as before, unless the fault says otherwise.
    pub fn take(&mut self, call: &Call) -> Result<Answer, Fault> {
        self.take_with(call, |_| Ok(()))
    }

    /// Makes a call, and something that its answer is needed for and that may fail, before anything is changed.
    pub fn take_with(&mut self, call: &Call, first: impl FnOnce(&Answer) -> Result<(), Fault>) -> Result<Answer, Fault> {
        let taken = call.apply(&self.table).ok_or_else(|| Fault::Use(format!("'{}' is no call", call.line())))?;
        first(&taken.answer)?;
        // What is no table has no history.
        if taken.answer.code == 1 || taken.table.is_empty() {
            return Ok(taken.answer);
        }
        self.ours()?;
        let before = digest(&self.table);
        let mut log = match self.log.take() {
            Some(log) => log,
            None => self.begun(before)?,
        };
        log.add(call, &taken.answer, before, digest(&taken.table))?;
        if taken.table != self.table {
            if let Err(fault) = self.replaced(&taken.table) {
                log.undo();
                return Err(fault);
            }
            self.table = taken.table;
            let unsure = |fault| Fault::Late(format!("the table has this call, but may lose it with the power: {fault}"));
            sync_folder(&self.place.folder).map_err(unsure)?;
        }
        self.log = Some(log);
        Ok(taken.answer)
    }

    /// The table's owner and permissions; `None` where there is no table yet.
    pub fn like(&self) -> Option<Metadata> {
        like(&self.place)
    }

    /// Whether a path names the table or a file beside it that is this program's.
    pub fn owns(&self, path: &Path) -> bool {
        let Place { table, log, lock, .. } = &self.place;
        let own = [table.clone(), log.clone(), lock.clone(), with(table, ".new")];
        let drafts = [path.to_path_buf(), with(path, ".new")];
        drafts.iter().any(|draft| Place::of(draft).is_ok_and(|place| own.contains(&place.table)))
    }

    /// Puts a table there that comes from a log: its calls are logged already.
    pub fn put(&mut self, table: &[u8]) -> Result<(), Fault> {
        self.ours()?;
        self.replaced(table)?;
        let unsure = |fault: Fault| fault.after("the table is made, but may be lost with the power: ");
        sync_folder(&self.place.folder).map_err(unsure)
    }

    /// The log, with the table as its first entry where the table was there before it.
    fn begun(&self, table: u64) -> Result<Log, Fault> {
        let mut log = Log::open(&self.place.log, self.like().as_ref(), table)?;
        // The log's name, and names that a process left which was killed before it synced them.
        sync_folder(&self.place.folder)?;
        if log.is_empty() && !self.table.is_empty() {
            let found = Call { words: vec![FOUND.into()], bytes: self.table.clone() };
            log.add(&found, &Answer::default(), digest(&[]), table)?;
        }
        Ok(log)
    }

    fn replaced(&mut self, table: &[u8]) -> Result<(), Fault> {
        self.held = Draft::write(&self.place.table, table, self.like().as_ref())?.rename_locked()?;
        Ok(())
    }

    /// Holds that the table is still this process's: nobody put another file in its place. Where there is no table yet, the lock file has to be
    /// the one that was locked.
    fn ours(&self) -> Result<(), Fault> {
        let (file, path) = match &self.held {
            Some(held) => (held, &self.place.table),
            None => (&self.lock, &self.place.lock),
        };
        match disk::is_named(file, path) {
            Ok(true) => Ok(()),
            Ok(false) => Err(Fault::file(path, "somebody removed or replaced this file meanwhile: nothing is changed")),
            Err(error) => Err(Fault::file(path, error)),
        }
    }
}

fn like(place: &Place) -> Option<Metadata> {
    fs::metadata(&place.table).ok()
}

/// Takes the lock, and says so where it has to wait.
fn locked(place: &Place, say: Say) -> Result<File, Fault> {
    disk::locked(&place.lock, || disk::open_or_make(&place.lock, like(place).as_ref()), || waits(place, say))
}

fn waits(place: &Place, say: Say) {
    say.progress(&format!("{}: waiting for another process", words::path(&place.table)));
}

/// The bytes of a table that is only looked at. No lock is needed: a table's file is never changed, but replaced.
pub fn look(path: &Path) -> Result<Vec<u8>, Fault> {
    disk::read(&Place::of_table(path)?.table, MOST_TABLE_BYTES)
}
