//! What is compared: the functions on tables and messages, as the C header has them.

use reference::message::Given;
use reference::{Notice, message};

/// Functions of `include/hondivole.h`, with slices for pointers and lengths. Each answers with document 01's code and writes
/// all its results on every path.
pub trait Engine {
    /// What the engine is, in a few words.
    fn name(&self) -> String;

    /// Opens a table.
    fn open(&self, request: &[u8], table: &mut [u8]) -> u64;

    /// Converts a table 1.
    fn convert(&self, old: &[u8], table: &mut [u8]) -> u64;

    /// Takes a flow.
    fn flow(
        &self,
        table: &mut [u8],
        edition: u64,
        flow: &[u8],
        outcomes: &mut [u8],
        place: &mut u64,
        orders: &mut u64,
        accepted: &mut u64,
        cause: &mut u64,
        steps: &mut u64,
    ) -> u64;

    /// Takes a notice of execution.
    fn execute(&self, table: &mut [u8], body: &[u8], notice: &Notice, cents: &mut u64) -> u64;

    /// Takes a notice of reversal.
    fn reverse(&self, table: &mut [u8], body: &[u8], notice: &Notice, cents: &mut u64) -> u64;

    /// Reports a body's totals.
    fn totals(&self, table: &[u8], body: &[u8], used: &mut u64, paid: &mut u64, collected: &mut u64, balance: &mut i64) -> u64;

    /// Writes a message. An engine that has no messages of its own answers as the reference does, here and in the two below.
    fn message_write(
        &self,
        edition: u64,
        flow: &[u8],
        outcomes: &[u8],
        given: &Given,
        message: &mut [u8],
        length: &mut u64,
    ) -> u64 {
        let answer = message::write(edition, flow, outcomes, given, message);
        *length = answer.length;
        answer.code
    }

    /// Reads a message.
    fn message_read(
        &self,
        edition: u64,
        message: &[u8],
        values: &mut [u8],
        entries: &mut u64,
        place: &mut u64,
        cause: &mut u64,
    ) -> u64 {
        let answer = message::read(edition, message, values);
        (*entries, *place, *cause) = (answer.entries, answer.place, answer.cause);
        answer.code
    }

    /// Reads a message and writes it again.
    fn message_rewrite(&self, edition: u64, message: &[u8], again: &mut [u8], length: &mut u64) -> u64 {
        let answer = message::rewrite(edition, message, again);
        *length = answer.length;
        answer.code
    }

    /// Checks a cash journal's movements.
    fn journal(&self, table: &[u8], body: &[u8], movements: &[u8]) -> u64;

    /// Repairs a damaged table. An engine that has no repair of its own answers as the reference does.
    fn salvage(&self, table: &mut [u8], report: &mut [u8], blanked: &mut u64) -> u64 {
        let answer = reference::salvage(table, report);
        *blanked = answer.blanked;
        answer.code
    }

    /// Closes a year. An engine that has no close of its own answers as the reference does.
    fn close(&self, table: &mut [u8], body: &[u8], year: u64, removed: &mut u64) -> u64 {
        let answer = reference::close(table, body, year);
        *removed = answer.removed;
        answer.code
    }
}

/// The reference as an engine.
pub struct Reference;

impl Engine for Reference {
    fn name(&self) -> String {
        "the reference".into()
    }

    fn open(&self, request: &[u8], table: &mut [u8]) -> u64 {
        reference::open(request, table)
    }

    fn convert(&self, old: &[u8], table: &mut [u8]) -> u64 {
        reference::convert(old, table)
    }

    fn flow(
        &self,
        table: &mut [u8],
        edition: u64,
        flow: &[u8],
        outcomes: &mut [u8],
        place: &mut u64,
        orders: &mut u64,
        accepted: &mut u64,
        cause: &mut u64,
        steps: &mut u64,
    ) -> u64 {
        let answer = reference::flow(table, edition, flow, outcomes);
        (*place, *orders, *accepted) = (answer.place, answer.orders, answer.accepted);
        (*cause, *steps) = (answer.cause, answer.steps);
        answer.code
    }

    fn execute(&self, table: &mut [u8], body: &[u8], notice: &Notice, cents: &mut u64) -> u64 {
        let answer = reference::execute(table, body, notice);
        *cents = answer.cents;
        answer.code
    }

    fn reverse(&self, table: &mut [u8], body: &[u8], notice: &Notice, cents: &mut u64) -> u64 {
        let answer = reference::reverse(table, body, notice);
        *cents = answer.cents;
        answer.code
    }

    fn totals(&self, table: &[u8], body: &[u8], used: &mut u64, paid: &mut u64, collected: &mut u64, balance: &mut i64) -> u64 {
        let answer = reference::totals(table, body);
        (*used, *paid, *collected, *balance) = (answer.used, answer.paid, answer.collected, answer.balance);
        answer.code
    }

    fn journal(&self, table: &[u8], body: &[u8], movements: &[u8]) -> u64 {
        reference::journal(table, body, movements)
    }
}

/// The library as an engine: its C functions.
#[cfg(feature = "native")]
pub struct Library;

#[cfg(feature = "native")]
impl Engine for Library {
    fn name(&self) -> String {
        "the library".into()
    }

    fn open(&self, request: &[u8], table: &mut [u8]) -> u64 {
        // SAFETY: the pointers and lengths are those of slices that don't overlap.
        unsafe { hondivole::ffi::hondivole_open(request.as_ptr(), request.len(), table.as_mut_ptr(), table.len()) }
    }

    fn convert(&self, old: &[u8], table: &mut [u8]) -> u64 {
        // SAFETY: the pointers and lengths are those of slices that don't overlap.
        unsafe { hondivole::ffi::hondivole_convert(old.as_ptr(), old.len(), table.as_mut_ptr(), table.len()) }
    }

    fn flow(
        &self,
        table: &mut [u8],
        edition: u64,
        flow: &[u8],
        outcomes: &mut [u8],
        place: &mut u64,
        orders: &mut u64,
        accepted: &mut u64,
        cause: &mut u64,
        steps: &mut u64,
    ) -> u64 {
        // SAFETY: the pointers and lengths are those of slices and numbers that don't overlap.
        unsafe {
            hondivole::ffi::hondivole_flow(
                table.as_mut_ptr(),
                table.len(),
                edition,
                flow.as_ptr(),
                flow.len(),
                outcomes.as_mut_ptr(),
                outcomes.len(),
                place,
                orders,
                accepted,
                cause,
                steps,
            )
        }
    }

    fn execute(&self, table: &mut [u8], body: &[u8], notice: &Notice, cents: &mut u64) -> u64 {
        // SAFETY: the pointers and lengths are those of slices and of a number that don't overlap.
        unsafe {
            hondivole::ffi::hondivole_execute(
                table.as_mut_ptr(),
                table.len(),
                body.as_ptr(),
                body.len(),
                notice.kind,
                notice.esercizio,
                notice.number,
                notice.line,
                notice.date.0,
                notice.date.1,
                notice.date.2,
                cents,
            )
        }
    }

    fn reverse(&self, table: &mut [u8], body: &[u8], notice: &Notice, cents: &mut u64) -> u64 {
        // SAFETY: the pointers and lengths are those of slices and of a number that don't overlap.
        unsafe {
            hondivole::ffi::hondivole_reverse(
                table.as_mut_ptr(),
                table.len(),
                body.as_ptr(),
                body.len(),
                notice.kind,
                notice.esercizio,
                notice.number,
                notice.line,
                notice.date.0,
                notice.date.1,
                notice.date.2,
                cents,
            )
        }
    }

    fn totals(&self, table: &[u8], body: &[u8], used: &mut u64, paid: &mut u64, collected: &mut u64, balance: &mut i64) -> u64 {
        // SAFETY: the pointers and lengths are those of slices and numbers that don't overlap.
        unsafe {
            hondivole::ffi::hondivole_totals(table.as_ptr(), table.len(), body.as_ptr(), body.len(), used, paid, collected, balance)
        }
    }

    fn message_write(
        &self,
        edition: u64,
        flow: &[u8],
        outcomes: &[u8],
        given: &Given,
        message: &mut [u8],
        length: &mut u64,
    ) -> u64 {
        let [created, outcome, ente, descrizione, istat, fiscale, tramite_ente, tramite_bt, flusso_bt] = *given;
        // SAFETY: the pointers and lengths are those of slices and of a number that don't overlap.
        unsafe {
            hondivole::ffi::hondivole_message_write(
                edition,
                flow.as_ptr(),
                flow.len(),
                outcomes.as_ptr(),
                outcomes.len(),
                created.as_ptr(),
                created.len(),
                outcome.as_ptr(),
                outcome.len(),
                ente.as_ptr(),
                ente.len(),
                descrizione.as_ptr(),
                descrizione.len(),
                istat.as_ptr(),
                istat.len(),
                fiscale.as_ptr(),
                fiscale.len(),
                tramite_ente.as_ptr(),
                tramite_ente.len(),
                tramite_bt.as_ptr(),
                tramite_bt.len(),
                flusso_bt.as_ptr(),
                flusso_bt.len(),
                message.as_mut_ptr(),
                message.len(),
                length,
            )
        }
    }

    fn message_read(
        &self,
        edition: u64,
        message: &[u8],
        values: &mut [u8],
        entries: &mut u64,
        place: &mut u64,
        cause: &mut u64,
    ) -> u64 {
        // SAFETY: the pointers and lengths are those of slices and numbers that don't overlap.
        unsafe {
            hondivole::ffi::hondivole_message_read(
                edition,
                message.as_ptr(),
                message.len(),
                values.as_mut_ptr(),
                values.len(),
                entries,
                place,
                cause,
            )
        }
    }

    fn message_rewrite(&self, edition: u64, message: &[u8], again: &mut [u8], length: &mut u64) -> u64 {
        // SAFETY: the pointers and lengths are those of slices and of a number that don't overlap.
        unsafe {
            hondivole::ffi::hondivole_message_rewrite(
                edition,
                message.as_ptr(),
                message.len(),
                again.as_mut_ptr(),
                again.len(),
                length,
            )
        }
    }

    fn journal(&self, table: &[u8], body: &[u8], movements: &[u8]) -> u64 {
        // SAFETY: the pointers and lengths are those of slices.
        unsafe {
            hondivole::ffi::hondivole_journal(
                table.as_ptr(),
                table.len(),
                body.as_ptr(),
                body.len(),
                movements.as_ptr(),
                movements.len(),
            )
        }
    }

    fn salvage(&self, table: &mut [u8], report: &mut [u8], blanked: &mut u64) -> u64 {
        // SAFETY: the pointers and lengths are those of slices and of a number that don't overlap.
        unsafe { hondivole::ffi::hondivole_salvage(table.as_mut_ptr(), table.len(), report.as_mut_ptr(), report.len(), blanked) }
    }

    fn close(&self, table: &mut [u8], body: &[u8], year: u64, removed: &mut u64) -> u64 {
        // SAFETY: the pointers and lengths are those of slices and of a number that don't overlap.
        unsafe { hondivole::ffi::hondivole_close(table.as_mut_ptr(), table.len(), body.as_ptr(), body.len(), year, removed) }
    }
}
