//! Safe types over the order desk library.
//!
//! A bank's order desk keeps one [`Table`] for the bodies it serves. A body sends flows of payment and collection orders
//! ([`Table::flow`]); each order is accepted or refused. The bank notifies executions and reversals of lines ([`Table::execute`],
//! [`Table::reverse`]), and a body's [`Totals`] can be asked for at any time ([`Table::totals`]). Whatever is refused comes back as a
//! [`Refusal`]. What became of a flow's orders is told to the body in an outcome message ([`write_message`], [`read_message`]).
//! A year whose orders are done with is closed ([`Table::close`]), which frees their slots. A table that a disk fault has damaged can be
//! repaired ([`Table::salvage`]).
//!
//! ```
//! use hondivole::{Date, Edition, Kind, Notice, Refusal, Table};
//!
//! let mut table = Table::open("01234", &[("000471", 4), ("471", 4)])?;
//!
//! let flow = concat!(
//!     "<flusso_ordinativi>",
//!     "<codice_ABI_BT>01234</codice_ABI_BT><identificativo_flusso>A1</identificativo_flusso>",
//!     "<data_ora_creazione_flusso>2021-03-01T09:30:00</data_ora_creazione_flusso>",
//!     "<codice_ente_BT>471</codice_ente_BT><esercizio>2021</esercizio>",
//!     "<mandato><tipo_operazione>INSERIMENTO</tipo_operazione><numero_mandato>12</numero_mandato>",
//!     "<data_mandato>2021-03-01</data_mandato><importo_mandato>150.00</importo_mandato>",
//!     "<informazioni_beneficiario><progressivo_beneficiario>1</progressivo_beneficiario>",
//!     "<importo_beneficiario>150.00</importo_beneficiario>",
//!     "<beneficiario><anagrafica_beneficiario>Rossi</anagrafica_beneficiario></beneficiario>",
//!     "</informazioni_beneficiario></mandato>",
//!     "</flusso_ordinativi>",
//! );
//! let mut outcomes = [0; 16];
//! let answer = table.flow(Edition::Oil, flow.as_bytes(), &mut outcomes)?;
//! assert_eq!(answer.accepted(), 1);
//!
//! let day = Date { year: 2021, month: 3, day: 3 };
//! let line = Notice { body: "471", kind: Kind::Mandato, esercizio: 2021, number: 12, line: 1, day };
//! assert_eq!(table.execute(&line)?, 15_000);
//! assert_eq!(table.totals("471")?.balance, -15_000);
//! assert_eq!(table.totals("000471")?.used, 0);
//! # Ok::<(), Refusal>(())
//! ```

mod date;
pub mod ffi;
mod field;
mod flow;
mod message;
mod refusal;
mod salvage;
mod table;

pub use date::Date;
pub use field::{Field, InWords, field_at};
pub use flow::{Edition, FlowAnswer, Kind, Operation, OrderOutcome};
pub use message::{
    Entry, Given, MOST_VALUES_BYTES, MOST_WRITTEN_BYTES, Message, MessageValues, read_message, rewrite_message, write_message,
};
pub use refusal::{Cause, Refusal};
pub use salvage::{MOST_REPORT_BYTES, Salvage};
pub use table::{Movement, Notice, Table, Totals, request};

/// The outcome bytes of the most orders a flow can hold: 64 of 16 bytes.
///
/// ```
/// use hondivole::{MOST_OUTCOME_BYTES, OrderOutcome};
///
/// assert_eq!(MOST_OUTCOME_BYTES, 64 * OrderOutcome::BYTES);
/// ```
pub const MOST_OUTCOME_BYTES: usize = 64 * OrderOutcome::BYTES;
