//! Outcome messages for the schools.

use std::fmt;

use crate::{Date, Edition, Kind, Operation, Refusal, Table, ffi};

/// The most bytes of a message that is written: 64 refused reversali, every value as long as it may be.
///
/// ```
/// assert_eq!(hondivole::MOST_WRITTEN_BYTES, 35_122);
/// ```
pub const MOST_WRITTEN_BYTES: usize = 35_122;

/// The bytes that the values of any message fit in: 80, and 48 for each of 64 entries.
///
/// ```
/// assert_eq!(hondivole::MOST_VALUES_BYTES, 80 + 48 * 64);
/// ```
pub const MOST_VALUES_BYTES: usize = 3_152;

/// What the caller gives for a message: two times and seven texts, which a flow doesn't have or this library doesn't read.
///
/// A time is YYYY-MM-DDThh:mm:ss and then `Z`, or a sign and hh:mm to 23:59. A text has 1 to 140 bytes and is written as given: `&` stands in
/// it only as one of `&amp;` `&lt;` `&gt;` `&quot;` `&apos;`, and `<` and `]]>` don't. An empty ISTAT code is left out.
///
/// ```
/// use hondivole::MessageValues;
///
/// let values = MessageValues {
///     created: "2021-03-01T09:31:00+01:00",
///     outcome: "2021-03-01T09:30:30+01:00",
///     codice_ente: "UFABCD",
///     descrizione_ente: "I.C. Giovanni Pascoli",
///     codice_istat_ente: "",
///     codice_fiscale_ente: "80012345678",
///     codice_tramite_ente: "A2A-12345678",
///     codice_tramite_bt: "A2A-87654321",
///     identificativo_flusso_bt: "BT-238444",
/// };
/// assert_eq!(values.misformed(), None);
/// ```
#[derive(Clone, Copy, Debug, PartialEq, Eq)]
pub struct MessageValues<'v> {
    /// When the message was created: `data_ora_creazione_flusso` of its header.
    pub created: &'v str,
    /// When the orders got their outcome: `data_ora_esito_operazione` of every entry.
    pub outcome: &'v str,
    /// `codice_ente`
    pub codice_ente: &'v str,
    /// `descrizione_ente`
    pub descrizione_ente: &'v str,
    /// `codice_istat_ente`; left out where it is empty.
    pub codice_istat_ente: &'v str,
    /// `codice_fiscale_ente`
    pub codice_fiscale_ente: &'v str,
    /// `codice_tramite_ente`
    pub codice_tramite_ente: &'v str,
    /// `codice_tramite_BT`
    pub codice_tramite_bt: &'v str,
    /// `identificativo_flusso_BT`
    pub identificativo_flusso_bt: &'v str,
}

/// One of the things that a message is written from.
///
/// ```
/// use hondivole::Given;
///
/// assert_eq!(Given::CodiceFiscaleEnte.to_string(), "codice_fiscale_ente hasn't 1 to 140 bytes of text");
/// assert_eq!(Given::Created.to_string(), "the message's time isn't YYYY-MM-DDThh:mm:ss with Z, or a sign and hh:mm to 23:59");
/// assert_eq!(Given::Outcomes.to_string(), "the outcome bytes aren't this flow's");
/// ```
#[derive(Clone, Copy, Debug, PartialEq, Eq, Hash)]
pub enum Given {
    /// The outcome bytes.
    Outcomes,
    /// [`MessageValues::created`]
    Created,
    /// [`MessageValues::outcome`]
    Outcome,
    /// [`MessageValues::codice_ente`]
    CodiceEnte,
    /// [`MessageValues::descrizione_ente`]
    DescrizioneEnte,
    /// [`MessageValues::codice_istat_ente`]
    CodiceIstatEnte,
    /// [`MessageValues::codice_fiscale_ente`]
    CodiceFiscaleEnte,
    /// [`MessageValues::codice_tramite_ente`]
    CodiceTramiteEnte,
    /// [`MessageValues::codice_tramite_bt`]
    CodiceTramiteBt,
    /// [`MessageValues::identificativo_flusso_bt`]
    IdentificativoFlussoBt,
}

impl fmt::Display for Given {
    fn fmt(&self, to: &mut fmt::Formatter) -> fmt::Result {
        let name = match self {
            Given::Outcomes => return to.write_str("the outcome bytes aren't this flow's"),
            Given::Created => return write!(to, "the message's time {TIME}"),
            Given::Outcome => return write!(to, "the time of outcome {TIME}"),
            Given::CodiceEnte => "codice_ente",
            Given::DescrizioneEnte => "descrizione_ente",
            Given::CodiceIstatEnte => "codice_istat_ente",
            Given::CodiceFiscaleEnte => "codice_fiscale_ente",
            Given::CodiceTramiteEnte => "codice_tramite_ente",
            Given::CodiceTramiteBt => "codice_tramite_BT",
            Given::IdentificativoFlussoBt => "identificativo_flusso_BT",
        };
        write!(to, "{name} hasn't 1 to 140 bytes of text")
    }
}

const TIME: &str = "isn't YYYY-MM-DDThh:mm:ss with Z, or a sign and hh:mm to 23:59";

impl MessageValues<'_> {
    fn all(&self) -> [(Given, &str); 9] {
        [
            (Given::Created, self.created),
            (Given::Outcome, self.outcome),
            (Given::CodiceEnte, self.codice_ente),
            (Given::DescrizioneEnte, self.descrizione_ente),
            (Given::CodiceIstatEnte, self.codice_istat_ente),
            (Given::CodiceFiscaleEnte, self.codice_fiscale_ente),
            (Given::CodiceTramiteEnte, self.codice_tramite_ente),
            (Given::CodiceTramiteBt, self.codice_tramite_bt),
            (Given::IdentificativoFlussoBt, self.identificativo_flusso_bt),
        ]
    }

    /// The first of the nine values that hasn't its form. The library judges them itself and answers one code for all: this is how
    /// [`write_message`] finds which one it was.
    ///
    /// ```
    /// # use hondivole::{Given, MessageValues};
    /// # let right = MessageValues { created: "2021-03-01T09:31:00Z", outcome: "2021-03-01T09:30:30Z", codice_ente: "U",
    /// #     descrizione_ente: "D", codice_istat_ente: "", codice_fiscale_ente: "8", codice_tramite_ente: "A", codice_tramite_bt: "B",
    /// #     identificativo_flusso_bt: "BT" };
    /// assert_eq!(right.misformed(), None);
    /// assert_eq!(MessageValues { descrizione_ente: "Rossi & Bianchi", ..right }.misformed(), Some(Given::DescrizioneEnte));
    /// assert_eq!(MessageValues { outcome: "2021-03-01T09:30:30+1:00", ..right }.misformed(), Some(Given::Outcome));
    /// ```
    pub fn misformed(&self) -> Option<Given> {
        let stands = |given: Given, value: &str| match given {
            Given::Created | Given::Outcome => is_time(value.as_bytes()).is_some(),
            Given::CodiceIstatEnte if value.is_empty() => true,
            _ => (1..=140).contains(&value.len()) && is_text(value),
        };
        self.all().into_iter().find(|&(given, value)| !stands(given, value)).map(|(given, _)| given)
    }
}

fn is_text(text: &str) -> bool {
    let references = ["&amp;", "&lt;", "&gt;", "&quot;", "&apos;"];
    let refused = |c: char| matches!(c, '\0'..='\u{8}' | '\u{B}' | '\u{C}' | '\u{E}'..='\u{1F}' | '\u{FFFE}' | '\u{FFFF}' | '<');
    !text.contains(refused)
        && !text.contains("]]>")
        && text.match_indices('&').all(|(at, _)| references.iter().any(|reference| text[at..].starts_with(reference)))
}

/// The number that two digits write, up to a greatest one.
fn two_digits(text: &[u8], most: u8) -> Option<u8> {
    match *text {
        [tens @ b'0'..=b'9', ones @ b'0'..=b'9'] => Some(10 * (tens - b'0') + (ones - b'0')).filter(|number| *number <= most),
        _ => None,
    }
}

fn is_time(text: &[u8]) -> Option<()> {
    let part = |from: usize, most: u8| two_digits(text.get(from..from + 2)?, most);
    let marks = [(4, b'-'), (7, b'-'), (10, b'T'), (13, b':'), (16, b':')];
    if text.get(..2)? != b"20" || marks.iter().any(|&(at, mark)| text.get(at) != Some(&mark)) {
        return None;
    }
    let (year, month, day) = (part(2, 99)?, part(5, 12)?, part(8, 31)?);
    // In 2000 to 2099 every fourth year has a 29 February.
    let last = match month {
        2 if year % 4 == 0 => 29,
        2 => 28,
        4 | 6 | 9 | 11 => 30,
        _ => 31,
    };
    let in_the_day = part(11, 23).and(part(14, 59)).and(part(17, 59)).is_some();
    let zone = match text.get(19..)? {
        b"Z" => true,
        [b'+' | b'-', hours @ .., b':', m1, m2] => two_digits(hours, 23).is_some() && two_digits(&[*m1, *m2], 59).is_some(),
        _ => false,
    };
    (month > 0 && (1..=last).contains(&day) && in_the_day && zone).then_some(())
}

/// Writes the outcome message of a flow and its outcome bytes into the lent buffer; [`MOST_WRITTEN_BYTES`] are enough for any. The answer is
/// the message, which is the buffer's beginning; bytes past it stay as they are. All reversali stand before all mandati.
///
/// # Errors
///
/// The refusals of codes 2 to 5 for the flow; [`Refusal::ValuesWrong`], which says what is wrong; and [`Refusal::BufferTooShort`]. No byte
/// changes then.
///
/// ```
/// use hondivole::{Edition, Given, MOST_WRITTEN_BYTES, MessageValues, Refusal, Table, write_message};
///
/// # let flow = include_bytes!("run.xml").as_slice();
/// let mut table = Table::open("01234", &[("000471", 4)])?;
/// let mut outcomes = [0; 32];
/// table.flow(Edition::Oil, flow, &mut outcomes)?;
/// let values = MessageValues {
///     created: "2021-03-01T09:31:00+01:00",
///     outcome: "2021-03-01T09:30:30+01:00",
///     codice_ente: "UFABCD",
///     descrizione_ente: "I.C. Giovanni Pascoli",
///     codice_istat_ente: "",
///     codice_fiscale_ente: "80012345678",
///     codice_tramite_ente: "A2A-12345678",
///     codice_tramite_bt: "A2A-87654321",
///     identificativo_flusso_bt: "BT-238444",
/// };
/// let mut buffer = [0; MOST_WRITTEN_BYTES];
/// let message = write_message(Edition::Oil, flow, &outcomes, &values, &mut buffer)?;
/// assert!(message.starts_with("<messaggi_esito_applicativo><testata_messaggio><codice_ABI_BT>01234</codice_ABI_BT>"));
///
/// let refusal = write_message(Edition::Oil, flow, &outcomes, &MessageValues { codice_ente: "", ..values }, &mut buffer).unwrap_err();
/// assert_eq!(refusal, Refusal::ValuesWrong { given: Some(Given::CodiceEnte) });
/// assert_eq!((refusal.code(), refusal.to_string().as_str()), (41, "codice_ente hasn't 1 to 140 bytes of text"));
/// # Ok::<(), Refusal>(())
/// ```
pub fn write_message<'b>(
    edition: Edition,
    flow: &[u8],
    outcomes: &[u8],
    values: &MessageValues,
    buffer: &'b mut [u8],
) -> Result<&'b str, Refusal> {
    let [created, outcome, ente, descrizione, istat, fiscale, tramite_ente, tramite_bt, flusso_bt] =
        values.all().map(|given| given.1);
    let mut length = 0;
    // SAFETY: the pointers and lengths are those of slices, of which the buffer alone is written, and of a number that lives here.
    let code = unsafe {
        ffi::hondivole_message_write(
            edition as u64,
            flow.as_ptr(),
            flow.len(),
            outcomes.as_ptr(),
            outcomes.len(),
            created.as_ptr(),
            created.len(),
            outcome.as_ptr(),
            outcome.len(),
            ente.as_ptr(),
            ente.len(),
            descrizione.as_ptr(),
            descrizione.len(),
            istat.as_ptr(),
            istat.len(),
            fiscale.as_ptr(),
            fiscale.len(),
            tramite_ente.as_ptr(),
            tramite_ente.len(),
            tramite_bt.as_ptr(),
            tramite_bt.len(),
            flusso_bt.as_ptr(),
            flusso_bt.len(),
            buffer.as_mut_ptr(),
            buffer.len(),
            &mut length,
        )
    };
    match code {
        5 => Err(where_it_breaks(edition, flow)),
        41 => Err(Refusal::ValuesWrong { given: Some(values.misformed().unwrap_or(Given::Outcomes)) }),
        _ => Refusal::answer(code, 0, 0).map(|()| written(buffer, length)),
    }
}

/// The field that a flow is refused for with code 5. The writer tells neither its place nor its cause; a table does, any table.
fn where_it_breaks(edition: Edition, flow: &[u8]) -> Refusal {
    let mut table = Table::open("00000", &[("0", 1)]).expect("a table of one body and one slot is opened");
    table.flow(edition, flow, &mut []).expect_err("a flow that the writer refuses with 5 is refused by every table")
}

fn written(buffer: &[u8], length: u64) -> &str {
    str::from_utf8(&buffer[..length as usize]).expect("a message is text")
}

/// Reads a message and writes its values anew into the lent buffer, without white space, mark, declaration or elements that are passed over.
/// Reading what is written gives the same values, and what [`write_message`] wrote comes out byte for byte. The answer is the new message,
/// which is the buffer's beginning; bytes past it stay as they are.
///
/// # Errors
///
/// The refusals of codes 2 to 5, which [`Refusal::of_message`] tells in words, and [`Refusal::BufferTooShort`]. No byte changes then.
///
/// ```
/// use hondivole::{Edition, MOST_WRITTEN_BYTES, Refusal, rewrite_message};
///
/// let message = include_str!("message.xml");
/// let mut buffer = [0; MOST_WRITTEN_BYTES];
/// let wider = message.replace("><", ">\n<");
/// assert_eq!(rewrite_message(Edition::Oil, wider.as_bytes(), &mut buffer)?, message);
/// # Ok::<(), Refusal>(())
/// ```
pub fn rewrite_message<'b>(edition: Edition, message: &[u8], buffer: &'b mut [u8]) -> Result<&'b str, Refusal> {
    let mut length = 0;
    // SAFETY: the pointers and lengths are those of slices that don't overlap and of a number that lives here.
    let code = unsafe {
        ffi::hondivole_message_rewrite(
            edition as u64,
            message.as_ptr(),
            message.len(),
            buffer.as_mut_ptr(),
            buffer.len(),
            &mut length,
        )
    };
    if code == 5 {
        // Reading tells the place and the cause too.
        return Err(read_message(edition, message, &mut []).expect_err("a message that isn't rewritten for a field can't be read"));
    }
    Refusal::answer(code, 0, 0)?;
    Ok(written(buffer, length))
}

/// Reads a message. Its texts are shown as parts of the message, not as copies; what its entries say is written into the lent values, for
/// which [`MOST_VALUES_BYTES`] are always enough. Bytes past what is needed stay as they are.
///
/// # Errors
///
/// The refusals of codes 2 to 5, which [`Refusal::of_message`] tells in words, and [`Refusal::BufferTooShort`]. No byte changes then.
///
/// ```
/// use hondivole::{Edition, Kind, MOST_VALUES_BYTES, Refusal, read_message};
///
/// let bytes = include_bytes!("message.xml");
/// let mut values = [0; MOST_VALUES_BYTES];
/// let message = read_message(Edition::Oil, bytes, &mut values)?;
/// assert_eq!((message.codice_ente_bt, message.codice_istat_ente), ("000471", None));
/// let refused: Vec<_> = message.entries().filter(|entry| entry.verdict.is_err()).collect();
/// assert_eq!((refused.len(), refused[0].kind, refused[0].number), (1, Kind::Reversale, 12));
/// # Ok::<(), Refusal>(())
/// ```
pub fn read_message<'m, 'v>(edition: Edition, message: &'m [u8], values: &'v mut [u8]) -> Result<Message<'m, 'v>, Refusal> {
    let (mut entries, mut place, mut cause) = (0, 0, 0);
    // SAFETY: the pointers and lengths are those of slices that don't overlap and of numbers that live here.
    let code = unsafe {
        ffi::hondivole_message_read(
            edition as u64,
            message.as_ptr(),
            message.len(),
            values.as_mut_ptr(),
            values.len(),
            &mut entries,
            &mut place,
            &mut cause,
        )
    };
    Refusal::answer(code, place, cause)?;
    let (header, entries_in) = values.split_at(80);
    let text = |pair: usize| part(message, header[8 * pair..].first_chunk().expect("ten pairs of eight bytes"));
    let (entries_in, _) = entries_in.as_chunks();
    Ok(Message {
        codice_abi_bt: text(0),
        created: text(1),
        codice_ente: text(2),
        descrizione_ente: text(3),
        codice_istat_ente: Some(text(4)).filter(|text| !text.is_empty()),
        codice_fiscale_ente: text(5),
        codice_tramite_ente: text(6),
        codice_tramite_bt: text(7),
        codice_ente_bt: text(8),
        identificativo_flusso_bt: text(9),
        message,
        entries: &entries_in[..entries as usize],
    })
}

/// The part of a message that a place and a length name.
fn part<'m>(message: &'m [u8], pair: &[u8; 8]) -> &'m str {
    let [p0, p1, p2, p3, l0, l1, l2, l3] = *pair;
    let (place, length) = (u32::from_be_bytes([p0, p1, p2, p3]) as usize, u32::from_be_bytes([l0, l1, l2, l3]) as usize);
    str::from_utf8(&message[place..place + length]).expect("a text of a message is UTF-8")
}

/// A message that was read: its header, and its entries.
///
/// ```
/// use hondivole::{Edition, Refusal, read_message};
///
/// let bytes = include_bytes!("message.xml");
/// let mut values = [0; 80 + 2 * 48];
/// let message = read_message(Edition::Oil, bytes, &mut values)?;
/// assert_eq!(message.created, "2021-03-01T09:31:00+01:00");
/// assert_eq!(message.entries().len(), 2);
/// # Ok::<(), Refusal>(())
/// ```
#[derive(Clone, Copy, Debug, PartialEq, Eq)]
pub struct Message<'m, 'v> {
    /// `codice_ABI_BT`
    pub codice_abi_bt: &'m str,
    /// When the message was created: `data_ora_creazione_flusso`.
    pub created: &'m str,
    /// `codice_ente`
    pub codice_ente: &'m str,
    /// `descrizione_ente`
    pub descrizione_ente: &'m str,
    /// `codice_istat_ente`; `None` where the message has none.
    pub codice_istat_ente: Option<&'m str>,
    /// `codice_fiscale_ente`
    pub codice_fiscale_ente: &'m str,
    /// `codice_tramite_ente`
    pub codice_tramite_ente: &'m str,
    /// `codice_tramite_BT`
    pub codice_tramite_bt: &'m str,
    /// `codice_ente_BT`: the body's code.
    pub codice_ente_bt: &'m str,
    /// `identificativo_flusso_BT`
    pub identificativo_flusso_bt: &'m str,
    message: &'m [u8],
    entries: &'v [[u8; 48]],
}

/// What a message says of one order.
///
/// ```
/// use hondivole::{Date, Edition, Operation, Refusal, read_message};
///
/// let bytes = include_bytes!("message.xml");
/// let mut values = [0; 80 + 2 * 48];
/// let message = read_message(Edition::Oil, bytes, &mut values)?;
/// let entry = message.entries().next().unwrap();
/// assert_eq!((entry.operation, entry.verdict), (Operation::Inserimento, Err(Refusal::LinesDontSum)));
/// assert_eq!((entry.esercizio, entry.total), (2021, 2_000));
/// assert_eq!(entry.date, Date { year: 2021, month: 3, day: 1 });
/// # Ok::<(), Refusal>(())
/// ```
#[derive(Clone, Copy, Debug, PartialEq, Eq)]
pub struct Entry<'m> {
    /// Mandato or reversale.
    pub kind: Kind,
    /// What the order asked for.
    pub operation: Operation,
    /// Whether it was accepted; if not, why.
    pub verdict: Result<(), Refusal>,
    /// The flow that it came in.
    pub identificativo_flusso: &'m str,
    /// The year of the books.
    pub esercizio: u16,
    /// The order's number.
    pub number: u32,
    /// The order's date.
    pub date: Date,
    /// The order's total in cents.
    pub total: u64,
    /// When it got its outcome: `data_ora_esito_operazione`.
    pub outcome: &'m str,
}

impl<'m, 'v> Message<'m, 'v> {
    /// The entries, in the message's order: reversali, then mandati.
    ///
    /// ```
    /// # use hondivole::{Edition, Kind, Refusal, read_message};
    /// let bytes = include_bytes!("message.xml");
    /// let mut values = [0; 80 + 2 * 48];
    /// let kinds: Vec<_> = read_message(Edition::Oil, bytes, &mut values)?.entries().map(|entry| entry.kind).collect();
    /// assert_eq!(kinds, [Kind::Reversale, Kind::Mandato]);
    /// # Ok::<(), Refusal>(())
    /// ```
    pub fn entries(&self) -> impl ExactSizeIterator<Item = Entry<'m>> + use<'m, 'v> {
        let message = self.message;
        self.entries.iter().map(move |bytes| entry(message, bytes).expect("a message that was read has entries of orders"))
    }
}

fn entry<'m>(message: &'m [u8], bytes: &[u8; 48]) -> Option<Entry<'m>> {
    let number = |from: usize, to: usize| bytes[from..to].iter().fold(0, |number, byte| number << 8 | u64::from(*byte));
    Some(Entry {
        kind: Kind::of_number(bytes[0])?,
        operation: Operation::of_number(bytes[1])?,
        verdict: Refusal::of_code(bytes[2].into(), 0, 0)?,
        esercizio: number(4, 6) as u16,
        number: number(8, 12) as u32,
        date: Date { year: number(12, 14), month: number(14, 15), day: number(15, 16) },
        total: number(16, 24),
        identificativo_flusso: part(message, bytes[24..].first_chunk()?),
        outcome: part(message, bytes[32..].first_chunk()?),
    })
}
