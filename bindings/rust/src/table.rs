//! Order tables and the calls on them.

use crate::{Date, Edition, FlowAnswer, Kind, Refusal, ffi};

/// What the bank's notice of an execution or a reversal names: one line of an order.
///
/// ```
/// use hondivole::{Date, Kind, Notice};
///
/// let day = Date { year: 2021, month: 3, day: 3 };
/// let notice = Notice { body: "000471", kind: Kind::Mandato, esercizio: 2021, number: 12, line: 1, day };
/// assert_eq!(notice.body, "000471");
/// ```
#[derive(Clone, Copy, Debug, PartialEq, Eq)]
pub struct Notice<'b> {
    /// The body's code; 000471 and 471 are two bodies.
    pub body: &'b str,
    /// Mandato or reversale.
    pub kind: Kind,
    /// The year of the books.
    pub esercizio: u16,
    /// The order's number.
    pub number: u32,
    /// The line, counted from 1.
    pub line: u8,
    /// The date, which has to be a TARGET day.
    pub day: Date,
}

/// A body's totals.
///
/// ```
/// use hondivole::{Refusal, Table, Totals};
///
/// let table = Table::open("01234", &[("471", 4)])?;
/// assert_eq!(table.totals("471")?, Totals { used: 0, paid: 0, collected: 0, balance: 0 });
/// # Ok::<(), Refusal>(())
/// ```
#[derive(Clone, Copy, Debug, Default, PartialEq, Eq)]
pub struct Totals {
    /// How many slots are used; annulled orders keep theirs.
    pub used: usize,
    /// Cents paid: executed lines of mandati.
    pub paid: u64,
    /// Cents collected: executed lines of reversali.
    pub collected: u64,
    /// Collected less paid, in cents.
    pub balance: i64,
}

/// A movement of the bank's cash journal (giornale di cassa): a line of an order, and its cents.
///
/// ```
/// use hondivole::{Kind, Movement};
///
/// let movement = Movement { kind: Kind::Mandato, line: 1, esercizio: 2021, number: 12, cents: 10_000 };
/// assert_eq!(movement.bytes()[..8], [1, 1, 7, 229, 0, 0, 0, 12]);
/// ```
#[derive(Clone, Copy, Debug, PartialEq, Eq)]
pub struct Movement {
    /// Mandato or reversale.
    pub kind: Kind,
    /// The line, counted from 1.
    pub line: u8,
    /// The year of the books.
    pub esercizio: u16,
    /// The order's number.
    pub number: u32,
    /// The line's amount in cents.
    pub cents: u64,
}

impl Movement {
    /// The movement's 16 bytes.
    ///
    /// ```
    /// # use hondivole::{Kind, Movement};
    /// let movement = Movement { kind: Kind::Reversale, line: 2, esercizio: 2021, number: 12, cents: 258 };
    /// assert_eq!(movement.bytes()[14..], [1, 2]);
    /// ```
    pub fn bytes(&self) -> [u8; 16] {
        let mut bytes = [0; 16];
        (bytes[0], bytes[1]) = (self.kind as u8, self.line);
        bytes[2..4].copy_from_slice(&self.esercizio.to_be_bytes());
        bytes[4..8].copy_from_slice(&self.number.to_be_bytes());
        bytes[8..].copy_from_slice(&self.cents.to_be_bytes());
        bytes
    }
}

/// Lays out the request to open a table: five ABI digits, and 20 bytes for each body's code and slots. [`Table::open`] does it by itself.
///
/// # Errors
///
/// [`Refusal::RequestWrong`] where the ABI hasn't five bytes or a code has more than 16; the library judges the rest.
///
/// ```
/// use hondivole::{Refusal, request};
///
/// let bytes = request("01234", &[("000471", 4), ("471", 4)])?;
/// assert_eq!(bytes.len(), 5 + 2 * 20);
/// assert_eq!(&bytes[5..12], b"\x06000471");
/// # Ok::<(), Refusal>(())
/// ```
pub fn request(abi: &str, bodies: &[(&str, u16)]) -> Result<Vec<u8>, Refusal> {
    if abi.len() != 5 {
        return Err(Refusal::RequestWrong);
    }
    let mut request = abi.as_bytes().to_vec();
    for (code, slots) in bodies {
        let mut entry = [0; 20];
        let (room, code) = (&mut entry[1..17], code.as_bytes());
        room.get_mut(..code.len()).ok_or(Refusal::RequestWrong)?.copy_from_slice(code);
        entry[0] = code.len() as u8;
        entry[18..].copy_from_slice(&slots.to_be_bytes());
        request.extend(entry);
    }
    Ok(request)
}

/// An order table: its bytes, owned (`Table`, a `Vec<u8>`) or borrowed (`Table<&mut [u8]>`, or `Table<&[u8]>` for totals and journals only).
///
/// Every call looks at all the bytes first and refuses with [`Refusal::TableNotValid`] what is no valid table, so that any bytes may be
/// taken for one. A refused call changes no byte.
///
/// ```
/// use hondivole::{Date, Edition, Kind, Notice, Refusal, Table};
///
/// # let flow = include_bytes!("run.xml").as_slice();
/// let mut table = Table::open("01234", &[("000471", 4), ("471", 4)])?;
/// let mut outcomes = [0; 32];
/// assert_eq!(table.flow(Edition::Oil, flow, &mut outcomes)?.accepted(), 1);
///
/// let day = Date { year: 2021, month: 3, day: 3 };
/// let line = Notice { body: "000471", kind: Kind::Mandato, esercizio: 2021, number: 12, line: 1, day };
/// assert_eq!(table.execute(&line), Ok(10_000));
/// assert_eq!(table.totals("000471")?.balance, -10_000);
/// assert_eq!(table.totals("471")?.balance, 0);
///
/// // The bytes can be kept, and borrowed again later.
/// let mut bytes = table.into_bytes();
/// assert_eq!(Table::over(&mut bytes).reverse(&line), Ok(10_000));
/// assert_eq!(Table::over(&bytes).totals("000471")?.balance, 0);
/// # Ok::<(), Refusal>(())
/// ```
#[derive(Clone, Copy, Debug, PartialEq, Eq)]
pub struct Table<B = Vec<u8>> {
    bytes: B,
}

impl Table {
    /// Opens a table for a bank's five ABI digits and its bodies, each a code of 1 to 16 letters and digits and 1 to 512 slots; every
    /// slot is empty.
    ///
    /// # Errors
    ///
    /// [`Refusal::RequestWrong`] for wrong digits, codes or slots, a code repeated, not 1 to 16 bodies, or a table above 65,792 bytes.
    ///
    /// ```
    /// use hondivole::{Refusal, Table};
    ///
    /// let table = Table::open("01234", &[("000471", 4), ("471", 4)])?;
    /// assert_eq!(table.bytes().len(), 880);
    /// assert_eq!(Table::open("1234", &[("471", 4)]), Err(Refusal::RequestWrong));
    /// assert_eq!(Table::open("01234", &[("471", 4), ("471", 4)]), Err(Refusal::RequestWrong));
    /// # Ok::<(), Refusal>(())
    /// ```
    pub fn open(abi: &str, bodies: &[(&str, u16)]) -> Result<Table, Refusal> {
        let request = request(abi, bodies)?;
        let length = bodies.iter().map(|(_, slots)| 48 + 96 * usize::from(*slots)).sum::<usize>() + 16;
        let mut bytes = vec![0; length];
        // SAFETY: the pointers and lengths are those of two vectors.
        let code = unsafe { ffi::hondivole_open(request.as_ptr(), request.len(), bytes.as_mut_ptr(), bytes.len()) };
        Refusal::answer(code, 0, 0)?;
        Ok(Table { bytes })
    }

    /// Converts a table of the old form, table 1, whose entries have 32 bytes and keep no totals, into a table with the same bank, bodies
    /// and records.
    ///
    /// # Errors
    ///
    /// [`Refusal::TableNotValid`] where the bytes are no valid table 1.
    ///
    /// ```
    /// use hondivole::{Refusal, Table};
    ///
    /// // One body, 471, of one empty slot.
    /// let mut old = [0; 16 + 32 + 96];
    /// old[..13].copy_from_slice(b"\0\x01\0\x01\0\0\0\x9001234");
    /// old[16..20].copy_from_slice(b"\x03471");
    /// (old[35], old[39]) = (1, 48);
    /// let table = Table::convert(&old)?;
    /// assert_eq!(table, Table::open("01234", &[("471", 1)])?);
    /// assert_eq!(Table::convert(table.bytes()), Err(Refusal::TableNotValid));
    /// # Ok::<(), Refusal>(())
    /// ```
    pub fn convert(old: &[u8]) -> Result<Table, Refusal> {
        let bodies = old.first_chunk().map_or(0, |count| usize::from(u16::from_be_bytes(*count)));
        let mut bytes = vec![0; old.len() + 16 * bodies];
        // SAFETY: the pointers and lengths are those of a slice and of a vector.
        let code = unsafe { ffi::hondivole_convert(old.as_ptr(), old.len(), bytes.as_mut_ptr(), bytes.len()) };
        Refusal::answer(code, 0, 0)?;
        Ok(Table { bytes })
    }
}

impl<B: AsRef<[u8]>> Table<B> {
    /// Takes bytes for a table. They may be any bytes; each call looks at them.
    ///
    /// ```
    /// use hondivole::{Refusal, Table};
    ///
    /// assert_eq!(Table::over([0; 880]).totals("471"), Err(Refusal::TableNotValid));
    /// ```
    pub fn over(bytes: B) -> Table<B> {
        Table { bytes }
    }

    /// The table's bytes.
    ///
    /// ```
    /// # use hondivole::{Refusal, Table};
    /// let table = Table::open("01234", &[("471", 1)])?;
    /// assert_eq!(&table.bytes()[8..13], b"01234");
    /// # Ok::<(), Refusal>(())
    /// ```
    pub fn bytes(&self) -> &[u8] {
        self.bytes.as_ref()
    }

    /// Gives the bytes back.
    ///
    /// ```
    /// # use hondivole::{Refusal, Table};
    /// let bytes: Vec<u8> = Table::open("01234", &[("471", 1)])?.into_bytes();
    /// assert_eq!(bytes.len(), 160);
    /// # Ok::<(), Refusal>(())
    /// ```
    pub fn into_bytes(self) -> B {
        self.bytes
    }

    /// Reports a body's totals.
    ///
    /// # Errors
    ///
    /// [`Refusal::TableNotValid`] and [`Refusal::NoSuchBody`].
    ///
    /// ```
    /// # use hondivole::{Refusal, Table};
    /// let table = Table::open("01234", &[("471", 1)])?;
    /// assert_eq!(table.totals("471")?.used, 0);
    /// assert_eq!(table.totals("000471"), Err(Refusal::NoSuchBody));
    /// # Ok::<(), Refusal>(())
    /// ```
    pub fn totals(&self, body: &str) -> Result<Totals, Refusal> {
        let table = self.bytes.as_ref();
        let (mut used, mut paid, mut collected, mut balance) = (0, 0, 0, 0);
        // SAFETY: the pointers and lengths are those of slices and of numbers that live here.
        let code = unsafe {
            ffi::hondivole_totals(
                table.as_ptr(),
                table.len(),
                body.as_ptr(),
                body.len(),
                &mut used,
                &mut paid,
                &mut collected,
                &mut balance,
            )
        };
        Refusal::answer(code, 0, 0)?;
        Ok(Totals { used: used as usize, paid, collected, balance })
    }

    /// Checks the movements of the bank's cash journal, 16 bytes each, against a body's executed lines: each of these is listed once, with
    /// its cents, and nothing else is listed. Their order is free.
    ///
    /// # Errors
    ///
    /// The refusals of codes 1, 7 and 29, then of the first bad movement 30, 31 or 32, then 33.
    ///
    /// ```
    /// # use hondivole::{Date, Edition, Kind, Movement, Notice, Refusal, Table};
    /// # let flow = include_bytes!("run.xml").as_slice();
    /// let mut table = Table::open("01234", &[("000471", 4)])?;
    /// table.flow(Edition::Oil, flow, &mut [0; 32])?;
    /// assert_eq!(table.journal("000471", &[]), Ok(()));
    /// let day = Date { year: 2021, month: 3, day: 3 };
    /// table.execute(&Notice { body: "000471", kind: Kind::Mandato, esercizio: 2021, number: 12, line: 2, day })?;
    /// assert_eq!(table.journal("000471", &[]), Err(Refusal::LineMissing));
    /// let movement = Movement { kind: Kind::Mandato, line: 2, esercizio: 2021, number: 12, cents: 5_000 };
    /// assert_eq!(table.journal("000471", &movement.bytes()), Ok(()));
    /// assert_eq!(table.journal("000471", &movement.bytes()[..15]), Err(Refusal::MovementsWrong));
    /// # Ok::<(), Refusal>(())
    /// ```
    pub fn journal(&self, body: &str, movements: &[u8]) -> Result<(), Refusal> {
        let table = self.bytes.as_ref();
        // SAFETY: the pointers and lengths are those of slices.
        let code = unsafe {
            ffi::hondivole_journal(table.as_ptr(), table.len(), body.as_ptr(), body.len(), movements.as_ptr(), movements.len())
        };
        Refusal::answer(code, 0, 0)
    }
}

impl<B: AsMut<[u8]>> Table<B> {
    /// Takes a body's flow of an edition: serves its orders one after another and writes 16 outcome bytes for each into the lent buffer;
    /// [`MOST_OUTCOME_BYTES`](crate::MOST_OUTCOME_BYTES) are enough for any flow. Bytes past the last order's stay as they are.
    ///
    /// # Errors
    ///
    /// The refusals of codes 1 to 8, and 36 between 7 and 8; neither table nor outcomes change then. An order that is refused is no error: it has its verdict
    /// among the [outcomes](FlowAnswer::outcomes).
    ///
    /// ```
    /// # use hondivole::{Edition, Refusal, Table};
    /// # let flow = include_bytes!("run.xml").as_slice();
    /// let mut table = Table::open("01234", &[("000471", 4)])?;
    /// assert_eq!(table.flow(Edition::Oil, flow, &mut [0; 31]), Err(Refusal::OutcomesTooShort));
    /// assert_eq!(table.flow(Edition::Oil, flow, &mut [0; 32])?.orders(), 2);
    /// # Ok::<(), Refusal>(())
    /// ```
    pub fn flow<'o>(&mut self, edition: Edition, flow: &[u8], outcomes: &'o mut [u8]) -> Result<FlowAnswer<'o>, Refusal> {
        let table = self.bytes.as_mut();
        let (mut place, mut orders, mut accepted, mut cause, mut steps) = (0, 0, 0, 0, 0);
        // SAFETY: the pointers and lengths are those of slices that don't overlap and of numbers that live here.
        let code = unsafe {
            ffi::hondivole_flow(
                table.as_mut_ptr(),
                table.len(),
                edition as u64,
                flow.as_ptr(),
                flow.len(),
                outcomes.as_mut_ptr(),
                outcomes.len(),
                &mut place,
                &mut orders,
                &mut accepted,
                &mut cause,
                &mut steps,
            )
        };
        Refusal::answer(code, place, cause)?;
        let (written, _) = outcomes.as_chunks();
        Ok(FlowAnswer { accepted: accepted as usize, steps, outcomes: &written[..orders as usize] })
    }

    /// Takes the bank's notice that a line is executed; the answer is the line's amount in cents.
    ///
    /// # Errors
    ///
    /// The refusals of codes 1, 27, 28, 7, 16, 17, 20 and 21; no byte changes then.
    ///
    /// ```
    /// # use hondivole::{Date, Edition, Kind, Notice, Refusal, Table};
    /// # let flow = include_bytes!("run.xml").as_slice();
    /// let mut table = Table::open("01234", &[("000471", 4)])?;
    /// table.flow(Edition::Oil, flow, &mut [0; 32])?;
    /// let day = Date { year: 2021, month: 3, day: 3 };
    /// let line = Notice { body: "000471", kind: Kind::Mandato, esercizio: 2021, number: 12, line: 2, day };
    /// assert_eq!(table.execute(&line), Ok(5_000));
    /// assert_eq!(table.execute(&line), Err(Refusal::AlreadyExecuted));
    /// # Ok::<(), Refusal>(())
    /// ```
    pub fn execute(&mut self, notice: &Notice) -> Result<u64, Refusal> {
        self.notify(notice, ffi::hondivole_execute)
    }

    /// Takes the bank's notice that an executed line is reversed (storno); the answer is the line's amount in cents.
    ///
    /// # Errors
    ///
    /// The refusals of codes 1, 27, 28, 7, 16, 17, 20 and 22; no byte changes then.
    ///
    /// ```
    /// # use hondivole::{Date, Edition, Kind, Notice, Refusal, Table};
    /// # let flow = include_bytes!("run.xml").as_slice();
    /// let mut table = Table::open("01234", &[("000471", 4)])?;
    /// table.flow(Edition::Oil, flow, &mut [0; 32])?;
    /// let day = Date { year: 2021, month: 3, day: 3 };
    /// let line = Notice { body: "000471", kind: Kind::Mandato, esercizio: 2021, number: 12, line: 2, day };
    /// assert_eq!(table.reverse(&line), Err(Refusal::NotExecuted));
    /// table.execute(&line)?;
    /// assert_eq!(table.reverse(&line), Ok(5_000));
    /// # Ok::<(), Refusal>(())
    /// ```
    pub fn reverse(&mut self, notice: &Notice) -> Result<u64, Refusal> {
        self.notify(notice, ffi::hondivole_reverse)
    }

    /// Closes a year of a body's books: its orders of that esercizio are removed, the others move up, and the freed slots are used by later
    /// orders. The answer is how many were removed, annulled ones among them. A flow of that or an earlier year is refused from then on, and
    /// [`totals`](Table::totals) speak of the orders still there.
    ///
    /// # Errors
    ///
    /// The refusals of codes 1, 7, 37, 36, 38 and 39; no byte changes then.
    ///
    /// ```
    /// # use hondivole::{Date, Edition, Kind, Notice, Refusal, Table};
    /// # let flow = include_bytes!("run.xml").as_slice();
    /// let mut table = Table::open("01234", &[("000471", 4)])?;
    /// table.flow(Edition::Oil, flow, &mut [0; 32])?;
    /// assert_eq!(table.close("000471", 2021), Err(Refusal::LineWaiting));
    /// let day = Date { year: 2021, month: 3, day: 3 };
    /// for line in 1..=2 {
    ///     table.execute(&Notice { body: "000471", kind: Kind::Mandato, esercizio: 2021, number: 12, line, day })?;
    /// }
    /// assert_eq!(table.close("000471", 2021), Ok(1));
    /// assert_eq!(table.flow(Edition::Oil, flow, &mut [0; 32]), Err(Refusal::YearClosed));
    /// # Ok::<(), Refusal>(())
    /// ```
    pub fn close(&mut self, body: &str, year: u16) -> Result<usize, Refusal> {
        let table = self.bytes.as_mut();
        let mut removed = 0;
        // SAFETY: the pointers and lengths are those of slices that don't overlap and of a number that lives here.
        let code =
            unsafe { ffi::hondivole_close(table.as_mut_ptr(), table.len(), body.as_ptr(), body.len(), year.into(), &mut removed) };
        Refusal::answer(code, 0, 0)?;
        Ok(removed as usize)
    }

    /// The table's bytes, for a call that changes them.
    pub(crate) fn bytes_mut(&mut self) -> &mut [u8] {
        self.bytes.as_mut()
    }

    fn notify(&mut self, notice: &Notice, function: NoticeFunction) -> Result<u64, Refusal> {
        let table = self.bytes.as_mut();
        let mut cents = 0;
        // SAFETY: the pointers and lengths are those of slices that don't overlap and of a number that lives here.
        let code = unsafe {
            function(
                table.as_mut_ptr(),
                table.len(),
                notice.body.as_ptr(),
                notice.body.len(),
                notice.kind as u64,
                notice.esercizio.into(),
                notice.number.into(),
                notice.line.into(),
                notice.day.year,
                notice.day.month,
                notice.day.day,
                &mut cents,
            )
        };
        Refusal::answer(code, 0, 0)?;
        Ok(cents)
    }
}

/// The type of the two notice functions.
type NoticeFunction = unsafe extern "C" fn(*mut u8, usize, *const u8, usize, u64, u64, u64, u64, u64, u64, u64, *mut u64) -> u64;
