//! Where a table and the files beside it stand.
//!
//! Symbolic links are followed first, so that a table has one lock and one log under whichever name it is called, and a change replaces the
//! table and not a link to it.

use std::ffi::OsString;
use std::fs;
use std::path::{Path, PathBuf};

use crate::fault::Fault;

/// What the names of the files beside a table end in.
const BESIDE: [&str; 3] = [".log", ".lock", ".new"];

/// A table's place.
#[derive(Clone, Debug)]
pub struct Place {
    /// The table itself.
    pub table: PathBuf,
    /// The log of its calls.
    pub log: PathBuf,
    /// What is locked while it is changed.
    pub lock: PathBuf,
    /// The folder of all three.
    pub folder: PathBuf,
}

impl Place {
    /// The place of a table that is there.
    pub fn of_table(path: &Path) -> Result<Place, Fault> {
        let table = fs::canonicalize(path).map_err(|error| Fault::file(path, error))?;
        if !fs::metadata(&table).map_err(|error| Fault::file(path, error))?.is_file() {
            return Err(Fault::file(path, "this is no file"));
        }
        Place::beside(table)
    }

    /// The place of a table that is to be made.
    pub fn of_new(path: &Path) -> Result<Place, Fault> {
        if fs::symlink_metadata(path).is_ok() {
            return Err(Fault::file(path, "there is such a file already"));
        }
        Place::of(path)?.named()
    }

    /// The place, where its table's name can't be that of a file beside another table.
    pub fn named(self) -> Result<Place, Fault> {
        let name = self.table.file_name().unwrap_or_default().as_encoded_bytes();
        match BESIDE.into_iter().find(|end| name.ends_with(end.as_bytes())) {
            None => Ok(self),
            Some(end) => Err(Fault::file(&self.table, format!("no table is named *{end}: a file beside a table is"))),
        }
    }

    /// The place of a path, whether there is something or not.
    pub fn of(path: &Path) -> Result<Place, Fault> {
        if let Ok(there) = fs::canonicalize(path) {
            return Place::beside(there);
        }
        let name = path.file_name().ok_or_else(|| Fault::file(path, "this is no file's name"))?;
        let parent = path.parent().filter(|parent| !parent.as_os_str().is_empty()).unwrap_or(Path::new("."));
        let folder = fs::canonicalize(parent).map_err(|error| Fault::file(parent, error))?;
        Place::beside(folder.join(name))
    }

    fn beside(table: PathBuf) -> Result<Place, Fault> {
        let folder = table.parent().ok_or_else(|| Fault::file(&table, "this stands in no folder"))?.to_path_buf();
        Ok(Place { log: with(&table, ".log"), lock: with(&table, ".lock"), table, folder })
    }
}

/// A file's name with something behind it.
pub fn with(path: &Path, end: &str) -> PathBuf {
    let mut name = OsString::from(path);
    name.push(end);
    name.into()
}
