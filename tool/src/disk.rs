//! Files read up to a limit, and written whole or not at all.

use std::fs::{self, File, Metadata, OpenOptions, TryLockError};
use std::io::{self, ErrorKind, Read, Write};
use std::os::unix::fs::{MetadataExt, OpenOptionsExt, PermissionsExt, fchown};
use std::path::{Path, PathBuf};

use crate::fault::Fault;
use crate::place::with;

/// No table has more bytes.
pub const MOST_TABLE_BYTES: u64 = 65_792;

/// A file's bytes, and at most one more than the limit: that one tells whoever judges them that there are too many.
pub fn read(path: &Path, limit: u64) -> Result<Vec<u8>, Fault> {
    let file = File::open(path).map_err(|error| Fault::file(path, error))?;
    read_from(&file, path, limit)
}

/// The same of a file that is open, from where it is.
pub fn read_from(file: &File, path: &Path, limit: u64) -> Result<Vec<u8>, Fault> {
    let mut bytes = Vec::new();
    file.take(limit + 1).read_to_end(&mut bytes).map_err(|error| Fault::file(path, error))?;
    Ok(bytes)
}

/// A file's bytes, or the fault that there are more than the limit.
pub fn read_whole(path: &Path, limit: u64) -> Result<Vec<u8>, Fault> {
    let bytes = read(path, limit)?;
    if bytes.len() as u64 > limit {
        return Err(Fault::file(path, format!("this is longer than {limit} bytes")));
    }
    Ok(bytes)
}

/// What a new file's permissions are where there is no table to take them from.
const OWN: u32 = 0o600;

/// Opens a log or a lock to read it and to add to it. Where there is none it is made with the table's permissions, its user's own in any case,
/// and with the table's owner where that can be set; without a table it is its user's alone.
pub fn open_or_make(path: &Path, like: Option<&Metadata>) -> io::Result<File> {
    let mode = like.map_or(0, |like| like.mode() & 0o777) | OWN;
    let mut options = OpenOptions::new();
    options.read(true).append(true);
    match options.clone().create_new(true).mode(mode).open(path) {
        Ok(file) => {
            if let Some(like) = like {
                owned_as_can_be(&file, like)?;
                file.set_permissions(fs::Permissions::from_mode(mode))?;
            }
            Ok(file)
        }
        Err(error) if error.kind() == ErrorKind::AlreadyExists => options.open(path),
        Err(error) => Err(error),
    }
}

fn owned_like(file: &File, like: &Metadata) -> io::Result<()> {
    let own = file.metadata()?;
    if (own.uid(), own.gid()) == (like.uid(), like.gid()) {
        return Ok(());
    }
    fchown(file, Some(like.uid()), Some(like.gid()))
}

fn owned_as_can_be(file: &File, like: &Metadata) -> io::Result<()> {
    match owned_like(file, like) {
        Err(error) if error.kind() == ErrorKind::PermissionDenied => Ok(()),
        other => other,
    }
}

/// Whether a name is still that of an open file, and not of none or of another.
pub fn is_named(file: &File, path: &Path) -> io::Result<bool> {
    let own = file.metadata()?;
    match fs::metadata(path) {
        Ok(there) => Ok((own.dev(), own.ino()) == (there.dev(), there.ino())),
        Err(error) if error.kind() == ErrorKind::NotFound => Ok(false),
        Err(error) => Err(error),
    }
}

/// Locks a file for this process alone, and calls `waits` where it has to wait. Whoever waited may have got the lock of a file that was removed or
/// replaced meanwhile; then the one that has the name now is opened and waited for.
pub fn locked(path: &Path, open: impl Fn() -> io::Result<File>, waits: impl Fn()) -> Result<File, Fault> {
    let taken = || -> io::Result<File> {
        loop {
            let file = open()?;
            match file.try_lock() {
                Ok(()) => {}
                Err(TryLockError::WouldBlock) => {
                    waits();
                    file.lock()?;
                }
                Err(TryLockError::Error(error)) => return Err(error),
            }
            if is_named(&file, path)? {
                return Ok(file);
            }
        }
    };
    taken().map_err(|error| Fault::file(path, error))
}

/// Opens a table to lock it and to read it. It is opened for writing too where that may be, since some network's disks lock no other.
pub fn open_to_lock(path: &Path) -> io::Result<File> {
    let mut options = OpenOptions::new();
    options.read(true);
    options.clone().append(true).open(path).or_else(|_| options.open(path))
}

/// A new file beside the one that it is to replace, synced. It is removed again unless it is renamed or kept.
pub struct Draft {
    draft: PathBuf,
    target: PathBuf,
    file: Option<File>,
    kept: bool,
}

impl Draft {
    /// Writes and syncs it, with owner and permissions of the file that it will replace; without one it is its user's alone.
    pub fn write(target: &Path, bytes: &[u8], like: Option<&Metadata>) -> Result<Draft, Fault> {
        Draft::filled(target, |draft| draft.fill(bytes, like, owned_like))
    }

    /// The same, with the owner only where that can be set.
    pub fn write_as_can_be(target: &Path, bytes: &[u8], like: Option<&Metadata>) -> Result<Draft, Fault> {
        Draft::filled(target, |draft| draft.fill(bytes, like, owned_as_can_be))
    }

    fn filled(target: &Path, fill: impl FnOnce(&mut Draft) -> io::Result<()>) -> Result<Draft, Fault> {
        let mut draft = Draft { draft: with(target, ".new"), target: target.into(), file: None, kept: false };
        fill(&mut draft).map_err(|error| Fault::file(&draft.draft, error))?;
        Ok(draft)
    }

    fn fill(&mut self, bytes: &[u8], like: Option<&Metadata>, owned: fn(&File, &Metadata) -> io::Result<()>) -> io::Result<()> {
        // What a crash left there is nobody's any more: whoever writes here holds the lock.
        match fs::remove_file(&self.draft) {
            Err(error) if error.kind() != ErrorKind::NotFound => return Err(error),
            _ => {}
        }
        let mut file = OpenOptions::new().write(true).create_new(true).mode(OWN).open(&self.draft)?;
        if let Some(like) = like {
            owned(&file, like)?;
            file.set_permissions(like.permissions())?;
        }
        file.write_all(bytes)?;
        file.sync_all()?;
        self.file = Some(file);
        Ok(())
    }

    /// Renames it over the file that it replaces, locked, so that nobody has the lock of the new one before whoever had that of the old.
    pub fn rename_locked(mut self) -> Result<Option<File>, Fault> {
        let file = self.file.take();
        if let Some(file) = &file {
            file.lock().map_err(|error| Fault::file(&self.draft, error))?;
        }
        self.rename()?;
        Ok(file)
    }

    /// Renames it over the file that it replaces. It lasts once the folder is synced.
    pub fn rename(mut self) -> Result<(), Fault> {
        fs::rename(&self.draft, &self.target).map_err(|error| Fault::file(&self.target, error))?;
        self.kept = true;
        Ok(())
    }

    /// Leaves it where it is, whatever becomes of it.
    pub fn keep(&mut self) {
        self.kept = true;
    }
}

impl Drop for Draft {
    fn drop(&mut self) {
        if !self.kept {
            let _ = fs::remove_file(&self.draft);
        }
    }
}

/// Syncs a folder, so that names in it last.
pub fn sync_folder(folder: &Path) -> Result<(), Fault> {
    File::open(folder).and_then(|folder| folder.sync_all()).map_err(|error| Fault::file(folder, error))
}
