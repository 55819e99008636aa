//! What `flow --message` is given for an outcome message.

use std::path::Path;

use hondivole::MessageValues;

use crate::args::Args;
use crate::disk;
use crate::fault::Fault;
use crate::time;
use crate::words;

/// The values' names, as the message has them.
const NAMES: [&str; 9] = [
    "data_ora_creazione_flusso",
    "data_ora_esito_operazione",
    "codice_ente",
    "descrizione_ente",
    "codice_istat_ente",
    "codice_fiscale_ente",
    "codice_tramite_ente",
    "codice_tramite_BT",
    "identificativo_flusso_BT",
];

/// No file of values needs more bytes.
const MOST_BYTES: u64 = 65_536;

/// The nine values, in the order of [`NAMES`].
pub struct Values([String; 9]);

impl Values {
    /// From the file of `--values` and, over it, from each `--value NAME=TEXT`. A time that isn't given is the clock's.
    pub fn given(args: &Args) -> Result<Values, Fault> {
        let mut values = Values(Default::default());
        if let Some(path) = args.one("--values")? {
            let path = Path::new(path);
            let text = String::from_utf8(disk::read_whole(path, MOST_BYTES)?).map_err(|_| Fault::file(path, "this is no text"))?;
            for line in text.lines().filter(|line| !line.is_empty() && !line.starts_with('#')) {
                let wrong = || Fault::file(path, format!("'{}' is no NAME=TEXT of a message's values", words::shown(line)));
                values.set(line).ok_or_else(wrong)?;
            }
        }
        for value in args.all("--value") {
            values.set(value).ok_or_else(|| args.wrong(&format!("'{value}' is no NAME=TEXT of a message's values")))?;
        }
        for when in values.0.iter_mut().take(2).filter(|when| when.is_empty()) {
            *when = time::now();
        }
        Ok(values)
    }

    fn set(&mut self, line: &str) -> Option<()> {
        let (name, text) = line.split_once('=')?;
        let at = NAMES.iter().position(|each| *each == name)?;
        self.0[at] = text.into();
        Some(())
    }

    /// The values as the library takes them.
    pub fn lent(&self) -> MessageValues<'_> {
        let [created, outcome, ente, descrizione, istat, fiscale, tramite_ente, tramite_bt, flusso_bt] = &self.0;
        MessageValues {
            created,
            outcome,
            codice_ente: ente,
            descrizione_ente: descrizione,
            codice_istat_ente: istat,
            codice_fiscale_ente: fiscale,
            codice_tramite_ente: tramite_ente,
            codice_tramite_bt: tramite_bt,
            identificativo_flusso_bt: flusso_bt,
        }
    }
}
