//! The fifteen C functions as `include/hondivole.h` declares them.
//!
//! All but [`hondivole_field_at`] answer with a code (0, or the number of a [`Refusal`](crate::Refusal)); each writes all its results on every path.
//!
//! ```
//! use hondivole::ffi::hondivole_open;
//!
//! let request = b"01234\x03471\0\0\0\0\0\0\0\0\0\0\0\0\0\0\0\x01";
//! let mut table = [0; 160];
//! // SAFETY: the pointers and lengths are those of two arrays that don't overlap.
//! let code = unsafe { hondivole_open(request.as_ptr(), request.len(), table.as_mut_ptr(), table.len()) };
//! assert_eq!(code, 0);
//! ```

unsafe extern "C" {
    /// Opens a table: see [`Table::open`](crate::Table::open).
    ///
    /// # Safety
    ///
    /// `request` points at `request_len` bytes that can be read, `table` at `table_len` bytes that can be written, and they don't
    /// overlap.
    pub fn hondivole_open(request: *const u8, request_len: usize, table: *mut u8, table_len: usize) -> u64;

    /// Converts a table 1 into a table 2: see [`Table::convert`](crate::Table::convert).
    ///
    /// # Safety
    ///
    /// `old` points at `old_len` bytes that can be read, `table` at `table_len` bytes that can be written, and they don't overlap.
    pub fn hondivole_convert(old: *const u8, old_len: usize, table: *mut u8, table_len: usize) -> u64;

    /// Takes a flow: see [`Table::flow`](crate::Table::flow).
    ///
    /// # Safety
    ///
    /// Each pointer is good for its length, the last five for one number each; `table`, `outcomes` and the five numbers can be
    /// written, and no two of all these overlap.
    pub fn hondivole_flow(
        table: *mut u8,
        table_len: usize,
        edition: u64,
        flow: *const u8,
        flow_len: usize,
        outcomes: *mut u8,
        outcomes_len: usize,
        place: *mut u64,
        orders: *mut u64,
        accepted: *mut u64,
        cause: *mut u64,
        steps: *mut u64,
    ) -> u64;

    /// Takes a notice of execution: see [`Table::execute`](crate::Table::execute).
    ///
    /// # Safety
    ///
    /// Each pointer is good for its length, the last for one number; `table` and `cents` can be written, and no two of them overlap.
    pub fn hondivole_execute(
        table: *mut u8,
        table_len: usize,
        body: *const u8,
        body_len: usize,
        kind: u64,
        esercizio: u64,
        number: u64,
        line: u64,
        year: u64,
        month: u64,
        day: u64,
        cents: *mut u64,
    ) -> u64;

    /// Takes a notice of reversal: see [`Table::reverse`](crate::Table::reverse).
    ///
    /// # Safety
    ///
    /// As for [`hondivole_execute`].
    pub fn hondivole_reverse(
        table: *mut u8,
        table_len: usize,
        body: *const u8,
        body_len: usize,
        kind: u64,
        esercizio: u64,
        number: u64,
        line: u64,
        year: u64,
        month: u64,
        day: u64,
        cents: *mut u64,
    ) -> u64;

    /// Reports a body's totals: see [`Table::totals`](crate::Table::totals).
    ///
    /// # Safety
    ///
    /// Each pointer is good for its length, the last four for one number each; the numbers can be written, and no two of all these
    /// overlap.
    pub fn hondivole_totals(
        table: *const u8,
        table_len: usize,
        body: *const u8,
        body_len: usize,
        used: *mut u64,
        paid: *mut u64,
        collected: *mut u64,
        balance: *mut i64,
    ) -> u64;

    /// Checks a cash journal's movements: see [`Table::journal`](crate::Table::journal).
    ///
    /// # Safety
    ///
    /// Each pointer is good for its length.
    pub fn hondivole_journal(
        table: *const u8,
        table_len: usize,
        body: *const u8,
        body_len: usize,
        movements: *const u8,
        movements_len: usize,
    ) -> u64;

    /// Closes a year of a body's books: see [`Table::close`](crate::Table::close).
    ///
    /// # Safety
    ///
    /// Each pointer is good for its length, the last for one number; `table` and `removed` can be written, and no two of all these overlap.
    pub fn hondivole_close(table: *mut u8, table_len: usize, body: *const u8, body_len: usize, year: u64, removed: *mut u64)
    -> u64;

    /// Repairs a damaged table: see [`Table::salvage`](crate::Table::salvage).
    ///
    /// # Safety
    ///
    /// Each pointer is good for its length, the last for one number; all three can be written, and no two of them overlap.
    pub fn hondivole_salvage(table: *mut u8, table_len: usize, report: *mut u8, report_len: usize, blanked: *mut u64) -> u64;

    /// Where the name and the text of the element at a place stand: see [`field_at`](crate::field_at).
    ///
    /// # Safety
    ///
    /// `flow` is good for its length, the last four pointers for one number each; the numbers can be written, and no two of all these
    /// overlap.
    pub fn hondivole_field_at(
        flow: *const u8,
        flow_len: usize,
        place: u64,
        name: *mut u64,
        name_len: *mut u64,
        text: *mut u64,
        text_len: *mut u64,
    );

    /// The first TARGET day on or after a date: see [`Date::first_target_day`](crate::Date::first_target_day).
    ///
    /// # Safety
    ///
    /// The three pointers are good for one number each, which can be written, and no two of them overlap.
    pub fn hondivole_first_target_day(
        year: u64,
        month: u64,
        day: u64,
        first_year: *mut u64,
        first_month: *mut u64,
        first_day: *mut u64,
    ) -> u64;

    /// The number of days between two dates: see [`Date::days_to`](crate::Date::days_to).
    ///
    /// # Safety
    ///
    /// `days` is good for one number, which can be written.
    pub fn hondivole_days_between(year: u64, month: u64, day: u64, to_year: u64, to_month: u64, to_day: u64, days: *mut i64)
    -> u64;

    /// Writes the outcome message of a flow: see [`write_message`](crate::write_message).
    ///
    /// # Safety
    ///
    /// Each pointer is good for the length that follows it, the last for one number; `message` and `length` can be written, and neither
    /// overlaps with anything else.
    pub fn hondivole_message_write(
        edition: u64,
        flow: *const u8,
        flow_len: usize,
        outcomes: *const u8,
        outcomes_len: usize,
        created: *const u8,
        created_len: usize,
        outcome: *const u8,
        outcome_len: usize,
        codice_ente: *const u8,
        codice_ente_len: usize,
        descrizione_ente: *const u8,
        descrizione_ente_len: usize,
        codice_istat_ente: *const u8,
        codice_istat_ente_len: usize,
        codice_fiscale_ente: *const u8,
        codice_fiscale_ente_len: usize,
        codice_tramite_ente: *const u8,
        codice_tramite_ente_len: usize,
        codice_tramite_bt: *const u8,
        codice_tramite_bt_len: usize,
        identificativo_flusso_bt: *const u8,
        identificativo_flusso_bt_len: usize,
        message: *mut u8,
        message_len: usize,
        length: *mut u64,
    ) -> u64;

    /// Reads an outcome message: see [`read_message`](crate::read_message).
    ///
    /// # Safety
    ///
    /// Each pointer is good for its length, the last three for one number each; `values` and the numbers can be written, and no two of all
    /// these overlap.
    pub fn hondivole_message_read(
        edition: u64,
        message: *const u8,
        message_len: usize,
        values: *mut u8,
        values_len: usize,
        entries: *mut u64,
        place: *mut u64,
        cause: *mut u64,
    ) -> u64;

    /// Reads an outcome message and writes it again: see [`rewrite_message`](crate::rewrite_message).
    ///
    /// # Safety
    ///
    /// Each pointer is good for its length, the last for one number; `again` and `length` can be written, and no two of them overlap.
    pub fn hondivole_message_rewrite(
        edition: u64,
        message: *const u8,
        message_len: usize,
        again: *mut u8,
        again_len: usize,
        length: *mut u64,
    ) -> u64;
}
