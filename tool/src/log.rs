//! The log beside a table: one entry for each call, each on disk before its table is.
//!
//! An entry is text around the call's bytes, so that it can be read as it stands. Its first and its last line have 32 bytes and say length and
//! digest of what is between them: the last entry is found from the log's end, and one that was torn is known.

use std::fs::{File, Metadata};
use std::io::{self, BufReader, Read, Seek, SeekFrom, Write};
use std::os::unix::fs::FileExt;
use std::path::{Path, PathBuf};

use crate::call::{Answer, Call};
use crate::digest::digest;
use crate::disk;
use crate::fault::Fault;

/// The name of the entry that a log begins with where the table was there before it.
pub const FOUND: &str = "found";

/// The bytes of an entry's first and of its last line.
const LINE: usize = 32;

/// Why nothing follows on an entry of the highest number.
const NO_NUMBER: &str = "the log is damaged: no number follows on its last entry's";

/// More bytes than any call's entry has between these lines.
const MOST: usize = 1 << 20;

/// No entry has more bytes, and so no torn one.
const MOST_ENTRY: u64 = (MOST + 2 * LINE) as u64;

/// One call.
#[derive(Clone, Debug, PartialEq, Eq)]
pub struct Entry {
    /// Counted from 1.
    pub number: u64,
    /// When it was written, by the clock; nothing depends on it.
    pub at: String,
    /// The call.
    pub call: Call,
    /// The digest of the table that it was made on.
    pub before: u64,
    /// The digest of the table that it left.
    pub after: u64,
    /// Its answer.
    pub answer: Answer,
}

impl Entry {
    /// The entry's bytes.
    pub fn bytes(&self) -> Vec<u8> {
        let mut inner = format!("number {}\nat {}\ncall {}\n", self.number, self.at, self.call.line());
        inner += &format!("before {:016x}\nafter {:016x}\nanswer {}", self.before, self.after, self.answer.code);
        for number in &self.answer.numbers {
            inner += &format!(" {number}");
        }
        for row in &self.answer.rows {
            inner += &format!("\nrow {:032x}", u128::from_be_bytes(*row));
        }
        inner += &format!("\nbytes {}\n", self.call.bytes.len());
        let mut inner = inner.into_bytes();
        inner.extend(&self.call.bytes);
        inner.push(b'\n');
        let line = |word: &str| format!("{word} {:08} {:016x}\n", inner.len(), digest(&inner));
        [line("entry").as_bytes(), &inner, line("ended").as_bytes()].concat()
    }

    /// The entry between its two lines.
    fn of_inner(inner: &[u8]) -> Option<Entry> {
        let mut rest = inner;
        let number = value(&mut rest, "number")?.parse().ok()?;
        let at = value(&mut rest, "at")?.to_string();
        let words = Call::words_of(value(&mut rest, "call")?)?;
        let before = u64::from_str_radix(value(&mut rest, "before")?, 16).ok()?;
        let after = u64::from_str_radix(value(&mut rest, "after")?, 16).ok()?;
        let mut numbers = value(&mut rest, "answer")?.split(' ').map(|number| number.parse().ok());
        let code = numbers.next()??;
        let numbers = numbers.collect::<Option<Vec<u64>>>()?;
        let mut rows = Vec::new();
        while let Some(row) = value(&mut rest, "row") {
            rows.push(u128::from_str_radix(row, 16).ok()?.to_be_bytes());
        }
        let length: usize = value(&mut rest, "bytes")?.parse().ok()?;
        let bytes = rest.strip_suffix(b"\n").filter(|bytes| bytes.len() == length)?.to_vec();
        Some(Entry { number, at, call: Call { words, bytes }, before, after, answer: Answer { code, numbers, rows } })
    }
}

/// What stands behind a name on the next line; where another name stands there, the line stays.
fn value<'r>(rest: &mut &'r [u8], name: &str) -> Option<&'r str> {
    let end = rest.iter().position(|byte| *byte == b'\n')?;
    let (line, more) = (std::str::from_utf8(&rest[..end]).ok()?, &rest[end + 1..]);
    let value = line.strip_prefix(name)?.strip_prefix(' ')?;
    *rest = more;
    Some(value)
}

/// Length and digest that a first or last line says.
fn line_says(line: &[u8], word: &str) -> Option<(usize, u64)> {
    let text = std::str::from_utf8(line).ok()?.strip_suffix('\n')?.strip_prefix(word)?.strip_prefix(' ')?;
    let (length, sum) = text.split_once(' ')?;
    let length = length.parse().ok().filter(|length| *length <= MOST)?;
    Some((length, u64::from_str_radix(sum, 16).ok()?))
}

/// Whether bytes behind the last whole entry of a log can be what a crash left of one entry: bytes that never reached the disk and read as
/// zeros, the beginning of a first line, or a first line and no more than it announces. Anything else is damage, or another program's.
fn one_torn(tail: &[u8]) -> bool {
    let of_line = |at: usize, byte: u8| match at {
        0..6 => byte == b"entry "[at],
        6..14 => byte.is_ascii_digit(),
        14 => byte == b' ',
        _ => matches!(byte, b'0'..=b'9' | b'a'..=b'f'),
    };
    let begun = match tail.split_at_checked(LINE) {
        None => tail.iter().enumerate().all(|(at, byte)| of_line(at, *byte)),
        Some((first, _)) => line_says(first, "entry").is_some_and(|(length, _)| tail.len() <= length + 2 * LINE),
    };
    begun || tail.iter().all(|byte| *byte == 0)
}

/// Whether a log of this size, whose whole entries end here, ends with what is left of one torn entry.
fn ends_torn(file: &File, end: u64, size: u64) -> io::Result<bool> {
    let left = size.saturating_sub(end);
    if left > MOST_ENTRY {
        return Ok(false);
    }
    let mut tail = vec![0; left as usize];
    file.read_exact_at(&mut tail, end)?;
    Ok(one_torn(&tail))
}

/// What stands next in a log.
pub enum Next {
    /// A whole entry.
    Whole(Box<Entry>),
    /// Nothing: the log ends.
    End,
    /// Bytes that are no whole entry.
    Torn,
}

/// A log read from its beginning.
pub struct Entries {
    from: BufReader<File>,
    /// How many bytes whole entries have had so far.
    pub end: u64,
}

impl Entries {
    /// Reads a log from its beginning.
    pub fn of(path: &Path) -> Result<Entries, Fault> {
        let file = File::open(path).map_err(|error| Fault::file(path, error))?;
        Ok(Entries { from: BufReader::new(file), end: 0 })
    }

    /// What stands next.
    pub fn next(&mut self) -> io::Result<Next> {
        let first = self.some(LINE)?;
        if first.is_empty() {
            return Ok(Next::End);
        }
        let Some((length, sum)) = line_says(&first, "entry") else {
            return Ok(Next::Torn);
        };
        let rest = self.some(length + LINE)?;
        let Some((inner, last)) = rest.split_at_checked(length) else {
            return Ok(Next::Torn);
        };
        if line_says(last, "ended") != Some((length, sum)) || digest(inner) != sum {
            return Ok(Next::Torn);
        }
        let Some(entry) = Entry::of_inner(inner) else {
            return Ok(Next::Torn);
        };
        self.end += (length + 2 * LINE) as u64;
        Ok(Next::Whole(Box::new(entry)))
    }

    /// How many bytes stand behind the whole entries, once one that isn't was met: what one entry that was torn left. `None` where they can't be
    /// that, or a whole entry follows on them: the log is damaged then.
    pub fn torn(&self) -> io::Result<Option<u64>> {
        let file = self.from.get_ref();
        let size = file.metadata()?.len();
        let left = size.saturating_sub(self.end);
        let torn = left == 0 || (ends_torn(file, self.end, size)? && last_from_the_end(file, size)?.is_none());
        Ok(torn.then_some(left))
    }

    /// Goes back to where an entry began, or to the end of those read so far, to read again what others may have written since.
    fn back_to(&mut self, start: u64) -> io::Result<()> {
        self.end = start;
        self.from.seek(SeekFrom::Start(start)).map(|_| ())
    }

    /// So many bytes, or what is left.
    fn some(&mut self, count: usize) -> io::Result<Vec<u8>> {
        let mut bytes = Vec::new();
        (&mut self.from).take(count as u64).read_to_end(&mut bytes)?;
        Ok(bytes)
    }
}

/// Where a log leads.
pub struct Led {
    /// Whether it is to the table that is there; `None` where there is none, or no entry.
    pub here: Option<bool>,
    /// How many bytes behind the whole entries are what is left of a torn one, or what is written just now.
    pub torn: u64,
    /// Where the whole entries end.
    pub end: u64,
}

/// Reads a log from its beginning and gives each entry that counts to `each`, while another process may be adding to it: no lock is taken, so that
/// nobody is held up. `table` tells the digest of the table beside the log as it is now. The log is read before the table, and an entry is
/// on disk before its table is: so a last entry whose table isn't there yet did not count when this was read. Whatever else doesn't fit may be
/// another process's work, and is read again until nothing has changed between two looks.
pub fn led(
    path: &Path,
    mut table: impl FnMut() -> Option<u64>,
    mut each: impl FnMut(Entry) -> Result<(), String>,
) -> Result<Led, Fault> {
    let fault = |error| Fault::file(path, error);
    let mut given = |entry: Entry| {
        let number = entry.number;
        each(entry).map_err(|what| Fault::file(path, format!("entry {number}: {what}")))
    };
    let mut entries = Entries::of(path)?;
    // The last entry read, and where it began; and what was there at the last look.
    let (mut last, mut looked): (Option<(Entry, u64)>, _) = (None, None);
    loop {
        let begins = entries.end;
        if let Next::Whole(entry) = entries.next().map_err(fault)? {
            // An entry that another one follows on counts: a torn one, and one without its table, are cut off before.
            if let Some((counts, _)) = last.replace((*entry, begins)) {
                given(counts)?;
            }
            continue;
        }
        let end = entries.end;
        let size = entries.from.get_ref().metadata().map_err(fault)?.len();
        let torn = entries.torn().map_err(fault)?;
        let now = table();
        let here = last.as_ref().zip(now).map(|((last, _), now)| last.after == now);
        let ahead = here == Some(false)
            && torn == Some(0)
            && last.as_ref().is_some_and(|(last, _)| last.number > 1 && Some(last.before) == now);
        if (torn.is_none() || here == Some(false) && !ahead) && looked != Some((size, now)) {
            looked = Some((size, now));
            entries.back_to(last.take().map_or(end, |(_, began)| began)).map_err(fault)?;
            continue;
        }
        let torn = torn.ok_or_else(|| Fault::file(path, format!("from byte {end} on this is no log")))?;
        if ahead {
            return Ok(Led { here: Some(true), torn, end });
        }
        if let Some((last, _)) = last {
            given(last)?;
        }
        return Ok(Led { here, torn, end });
    }
}

/// The entry that a log of this size ends with, and its length; `None` where it ends with none.
fn last_from_the_end(mut file: &File, size: u64) -> io::Result<Option<(Entry, u64)>> {
    let Some(at) = size.checked_sub(LINE as u64) else {
        return Ok(None);
    };
    let mut line = [0; LINE];
    file.seek(SeekFrom::Start(at))?;
    file.read_exact(&mut line)?;
    let whole = line_says(&line, "ended").map(|(length, _)| (length + 2 * LINE) as u64);
    let Some((length, from)) = whole.and_then(|length| Some((length, size.checked_sub(length)?))) else {
        return Ok(None);
    };
    let mut entries = Entries { from: BufReader::new(file.try_clone()?), end: 0 };
    entries.from.seek(SeekFrom::Start(from))?;
    Ok(match entries.next()? {
        Next::Whole(entry) => Some((*entry, length)),
        _ => None,
    })
}

/// A log that entries are added to. Whoever has it holds the table's lock.
pub struct Log {
    path: PathBuf,
    file: File,
    /// The number of the next entry.
    next: u64,
    /// Where the next entry begins.
    end: u64,
    /// Where the last entry that was added begins.
    added: Option<u64>,
}

impl Log {
    /// Opens the log of a table of this digest, and settles what a crash left: an entry that was torn, and one whose table did not reach the
    /// disk, are cut off, for neither call was answered. Nothing else is. A log that is made here is `like` the table; its name lasts once
    /// the folder is synced.
    pub fn open(path: &Path, like: Option<&Metadata>, table: u64) -> Result<Log, Fault> {
        let file = disk::open_or_make(path, like).map_err(|error| Fault::file(path, error))?;
        let mut log = Log { file, next: 1, end: 0, added: None, path: path.into() };
        let size = log.file.metadata().map_err(|error| Fault::file(path, error))?.len();
        let (last, end) = log.last(size).map_err(|error| Fault::file(path, error))?;
        if end < size && !ends_torn(&log.file, end, size).map_err(|error| Fault::file(path, error))? {
            return Err(Fault::file(path, format!("the log is damaged, or no log of this table: byte {end} begins no entry")));
        }
        (log.next, log.end) = settled(last.as_ref(), end, size, table).map_err(|what| Fault::file(path, what))?;
        if log.end < size {
            log.cut(log.end).map_err(|error| Fault::file(&log.path, error))?;
        }
        Ok(log)
    }

    /// Whether no call is logged.
    pub fn is_empty(&self) -> bool {
        self.end == 0
    }

    /// The last whole entry and its length, and where it ends: from the log's end, and from its beginning where the end is torn.
    fn last(&mut self, size: u64) -> io::Result<(Option<(Entry, u64)>, u64)> {
        if let Some(last) = last_from_the_end(&self.file, size)? {
            return Ok((Some(last), size));
        }
        let mut entries = Entries { from: BufReader::new(self.file.try_clone()?), end: 0 };
        entries.from.rewind()?;
        let mut last = None;
        loop {
            let before = entries.end;
            match entries.next()? {
                Next::Whole(entry) => last = Some((*entry, entries.end - before)),
                Next::End | Next::Torn => return Ok((last, entries.end)),
            }
        }
    }

    /// Adds a call, and is back once it is on disk.
    pub fn add(&mut self, call: &Call, answer: &Answer, before: u64, after: u64) -> Result<(), Fault> {
        let entry = Entry { number: self.next, at: crate::time::now(), call: call.clone(), before, after, answer: answer.clone() };
        let bytes = entry.bytes();
        let next = self.next.checked_add(1).ok_or_else(|| Fault::file(&self.path, NO_NUMBER))?;
        if bytes.len() as u64 > MOST_ENTRY {
            return Err(Fault::file(&self.path, format!("the call is longer than an entry can be, {MOST} bytes")));
        }
        if let Err(error) = self.file.write_all(&bytes).and_then(|()| self.file.sync_data()) {
            // What is left of it would be cut off by the next call in any case.
            let _ = self.cut(self.end);
            return Err(Fault::file(&self.path, error));
        }
        self.added = Some(self.end);
        (self.next, self.end) = (next, self.end + bytes.len() as u64);
        Ok(())
    }

    /// Takes the call that was added last off again: its table could not be written. Where this fails too, the next call does it.
    pub fn undo(&mut self) {
        if let Some(end) = self.added.take()
            && self.cut(end).is_ok()
        {
            (self.next, self.end) = (self.next - 1, end);
        }
    }

    fn cut(&self, end: u64) -> io::Result<()> {
        self.file.set_len(end)?;
        self.file.sync_data()
    }
}

/// The number of the next entry and where it begins, by the table that is there: the one that the last whole entry left, or the one that it
/// was made on. Any other is not this log's.
fn settled(last: Option<&(Entry, u64)>, end: u64, size: u64, table: u64) -> Result<(u64, u64), &'static str> {
    match last {
        None => Ok((1, 0)),
        Some((entry, _)) if entry.after == table => Ok((entry.number.checked_add(1).ok_or(NO_NUMBER)?, end)),
        Some((entry, length)) if entry.before == table && end == size && entry.call.name() != FOUND => {
            Ok((entry.number, end - length))
        }
        _ => Err(
            "this log doesn't end with the table that is there: give the table back that it ends with ('hondivole replay'), or \
                  move the log away",
        ),
    }
}

#[cfg(test)]
mod tests {
    use super::*;

    fn entry(number: u64, before: u64, after: u64) -> Entry {
        let call = Call { words: vec!["flow".into(), "1".into()], bytes: b"<a>\nended\xff</a>\n".to_vec() };
        let answer = Answer { code: 0, numbers: vec![2, 1, 0], rows: vec![[1; 16], [0; 16]] };
        Entry { number, at: "2021-03-01T09:30:30Z".into(), call, before, after, answer }
    }

    #[test]
    fn entries_go_both_ways() {
        let entry = entry(3, 0xabc, 0xdef);
        let bytes = entry.bytes();
        let (first, rest) = bytes.split_at(LINE);
        let (inner, last) = rest.split_at(rest.len() - LINE);
        assert_eq!(Entry::of_inner(inner), Some(entry));
        assert_eq!(line_says(first, "entry"), Some((inner.len(), digest(inner))));
        assert_eq!(line_says(last, "ended"), Some((inner.len(), digest(inner))));
    }

    /// Of a log of three entries, cut at many bytes, those that are whole are found, from the end and from the beginning.
    #[test]
    fn cut_at_many_bytes() {
        let path = std::env::temp_dir().join(format!("hondivole-log-{}", std::process::id()));
        let whole: Vec<_> = [entry(1, 0, 1), entry(2, 1, 2), entry(3, 2, 3)].iter().map(Entry::bytes).collect();
        let all = whole.concat();
        for cut in (0..=all.len()).filter(|cut| cut % 5 == 0 || cut % whole[0].len() == 0) {
            std::fs::write(&path, &all[..cut]).unwrap();
            let entries = cut / whole[0].len();
            let log = Log::open(&path, None, entries as u64).unwrap();
            assert_eq!((log.next, log.end), (entries as u64 + 1, (entries * whole[0].len()) as u64));
            assert_eq!(std::fs::metadata(&path).unwrap().len(), log.end);
        }
        // The last call's table did not reach the disk; then a table of another history.
        std::fs::write(&path, &all).unwrap();
        assert!(Log::open(&path, None, 1).is_err());
        let log = Log::open(&path, None, 2).unwrap();
        assert_eq!((log.next, log.end), (3, (2 * whole[0].len()) as u64));
        std::fs::remove_file(&path).unwrap();
    }

    /// A log that grows, or whose last entry is cut off and written anew, between the look at it and the look at its table.
    #[test]
    fn led_while_others_write() {
        let path = std::env::temp_dir().join(format!("hondivole-led-{}", std::process::id()));
        let [one, two, three, other] = [entry(1, 0, 1), entry(2, 1, 2), entry(3, 2, 3), entry(2, 1, 7)].map(|entry| entry.bytes());
        let whole = [&one[..], &two, &three].concat();
        // What stands there at first, what another process leaves there just before the table is looked at, and that table; then what has to count.
        type Case<'c> = (&'c [u8], &'c [u8], u64, &'c [u64]);
        let cases: [Case; 9] = [
            (&whole, &whole, 3, &[1, 2, 3]),
            // The last entry's table isn't there yet.
            (&whole, &whole, 2, &[1, 2]),
            // An entry that is half written, and its table isn't there; or both are, in the meantime.
            (&whole[..whole.len() - 9], &whole[..whole.len() - 9], 2, &[1, 2]),
            (&whole[..whole.len() - 9], &whole, 2, &[1, 2]),
            (&whole[..whole.len() - 9], &whole, 3, &[1, 2, 3]),
            (&whole[..2 * one.len() + 20], &whole, 3, &[1, 2, 3]),
            // Two calls more.
            (&one, &whole, 3, &[1, 2, 3]),
            // A call that did not reach the table is cut off, and another one made.
            (&whole[..2 * one.len()], &[&one[..], &other].concat(), 7, &[1, 2]),
            (&whole[..2 * one.len()], &one, 1, &[1]),
        ];
        for (i, (first, then, table, counts)) in cases.into_iter().enumerate() {
            std::fs::write(&path, first).unwrap();
            let mut seen = Vec::new();
            let mut after = 0;
            let look = || {
                if std::fs::read(&path).unwrap() != then {
                    std::fs::write(&path, then).unwrap();
                }
                Some(table)
            };
            let led = led(&path, look, |entry| {
                after = entry.after;
                seen.push(entry.number);
                Ok(())
            });
            assert_eq!((led.unwrap().here, &seen[..], after), (Some(true), counts, table), "{i}");
        }
        // Another table, none, and damage.
        std::fs::write(&path, &whole).unwrap();
        assert_eq!(led(&path, || Some(9), |_| Ok(())).unwrap().here, Some(false));
        assert_eq!(led(&path, || None, |_| Ok(())).unwrap().here, None);
        assert!(led(&path, || Some(3), |_| Err("no".into())).is_err());
        std::fs::write(&path, [&one[..], b"entry x"].concat()).unwrap();
        assert!(led(&path, || Some(1), |_| Ok(())).is_err());
        std::fs::remove_file(&path).unwrap();
    }

    /// What can't be one torn entry stays, byte for byte, and so does a log that can't be counted on; a torn one is cut off, zeros too.
    #[test]
    fn only_one_torn_entry_is_cut() {
        let path = std::env::temp_dir().join(format!("hondivole-torn-{}", std::process::id()));
        let whole: Vec<_> = [entry(1, 0, 1), entry(2, 1, 2), entry(3, 2, 3)].iter().map(Entry::bytes).collect();
        let (all, length) = (whole.concat(), whole[0].len());
        let damaged = |at: usize, end: usize| {
            let mut bytes = all[..end].to_vec();
            bytes[at] ^= 1;
            bytes
        };
        let last = entry(u64::MAX, 0, 1).bytes();
        let kept: [&[u8]; 7] = [
            b"09:30 the desk opens\n",
            &[b"entry 00000009 0123456789abcdef\n".as_slice(), &[b'x'; 74]].concat(),
            &[&whole[0][..], b"entry x"].concat(),
            &damaged(40, 2 * length + 40),
            &damaged(length + 40, 2 * length + 40),
            &damaged(length + 3, 3 * length - 1),
            &last,
        ];
        for (i, bytes) in kept.into_iter().enumerate() {
            std::fs::write(&path, bytes).unwrap();
            assert!(Log::open(&path, None, 1).is_err(), "{i}");
            assert_eq!(std::fs::read(&path).unwrap(), bytes, "{i}");
        }
        for tail in [&[0; 100][..], b"entry", b"entry 00000", &whole[1][..40], &whole[1][..length - 1]] {
            std::fs::write(&path, [&whole[0], tail].concat()).unwrap();
            assert_eq!(Log::open(&path, None, 1).unwrap().end, length as u64);
            assert_eq!(std::fs::read(&path).unwrap(), whole[0]);
        }
        // A call that no entry can hold is not written.
        let mut log = Log::open(&path, None, 1).unwrap();
        let call = Call { words: vec!["flow".into(), "1".into()], bytes: vec![b' '; MOST] };
        assert!(log.add(&call, &Answer::default(), 1, 1).is_err());
        assert_eq!(std::fs::read(&path).unwrap(), whole[0]);
        std::fs::remove_file(&path).unwrap();
    }
}
