//! Document 02, Req 01: the outcome message of source document 000, 10.2.5, written, read, and written again.
//!
//! A message is held as plain values ([`Message`]); writing turns values into bytes, reading turns bytes into values, and writing again does
//! the one after the other.

use crate::Edition;
use crate::fields::{self, Broken, Cause, Operation, cause};
use crate::markup::{self, Content, Element, is_text};
use crate::table::{Date, Kind};
use crate::{LONGEST_FLOW, MOST_ORDERS, OUTCOME, structure};

/// The most bytes of a message that is read.
pub const LONGEST_MESSAGE: usize = 65_536;

/// The most bytes of a caller's text.
pub const LONGEST_TEXT: usize = 140;

/// The bytes of `values` before the entries: ten places and lengths.
pub const HEADER_VALUES: usize = 80;

/// The bytes of `values` for an entry.
pub const ENTRY_VALUES: usize = 48;

/// What the caller gives for a message, in the order of the C function: the message's time, the time of outcome, and seven texts.
pub type Given<'g> = [&'g [u8]; 9];

/// The names of the nine, as the message has them.
pub const GIVEN: [&str; 9] = [
    "data_ora_creazione_flusso",
    "data_ora_esito_operazione",
    "codice_ente",
    "descrizione_ente",
    "codice_istat_ente",
    "codice_fiscale_ente",
    "codice_tramite_ente",
    "codice_tramite_BT",
    "identificativo_flusso_BT",
];

/// The place of the ISTAT code among the nine: it alone may be empty.
pub const ISTAT: usize = 4;

/// The header's ten names, in the order of the values; all but the last stand in `testata_messaggio`.
pub const HEADER: [&str; 10] = [
    "codice_ABI_BT",
    "data_ora_creazione_flusso",
    "codice_ente",
    "descrizione_ente",
    "codice_istat_ente",
    "codice_fiscale_ente",
    "codice_tramite_ente",
    "codice_tramite_BT",
    "codice_ente_BT",
    "identificativo_flusso_BT",
];

/// The values of a message.
#[derive(Clone, Debug, PartialEq, Eq)]
pub struct Message {
    /// The header's ten texts; the ISTAT code is empty where the message has none.
    pub header: [Vec<u8>; 10],
    /// The reversali, then the mandati.
    pub entries: Vec<Entry>,
}

/// What a message says of one order.
#[derive(Clone, Debug, PartialEq, Eq)]
pub struct Entry {
    /// Mandato or reversale.
    pub kind: Kind,
    /// What the order asked for.
    pub operation: Operation,
    /// Its outcome code.
    pub code: u8,
    /// The flow that it came in.
    pub identifier: Vec<u8>,
    /// The year of the books.
    pub esercizio: u16,
    /// Its number.
    pub number: u32,
    /// Its date.
    pub date: Date,
    /// Its total in cents.
    pub total: u64,
    /// The time of outcome.
    pub time: Vec<u8>,
}

/// The answer to writing, and to writing again.
#[derive(Clone, Copy, Debug, Default, PartialEq, Eq)]
pub struct WriteAnswer {
    /// 0, or the refusal's code.
    pub code: u64,
    /// The message's length, 0 on refusal.
    pub length: u64,
}

/// The answer to reading.
#[derive(Clone, Copy, Debug, Default, PartialEq, Eq)]
pub struct ReadAnswer {
    /// 0, or the refusal's code.
    pub code: u64,
    /// How many entries the message has, 0 on refusal.
    pub entries: u64,
    /// The place of the field that breaks with code 5, else 0.
    pub place: u64,
    /// What is wrong with it, 1 to 4, else 0.
    pub cause: u64,
}

/// Whether an order can get this outcome code.
pub fn is_order_code(code: u8) -> bool {
    matches!(code, 0 | 12..=19 | 24..=26)
}

/// 10.2.5's word for an operation that was accepted or refused.
pub fn word(operation: Operation, refused: bool) -> &'static str {
    match (operation, refused) {
        (Operation::Inserimento, false) => "ACQUISITO",
        (Operation::Inserimento, true) => "NON ACQUISITO",
        (Operation::Variazione, false) => "VARIATO",
        (Operation::Variazione, true) => "NON VARIATO",
        (Operation::Annullo, false) => "ANNULLATO",
        (Operation::Annullo, true) => "NON ANNULLATO",
        (Operation::Sostituzione, false) => "SOSTITUITO",
        (Operation::Sostituzione, true) => "NON SOSTITUITO",
    }
}

const OPERATIONS: [Operation; 4] = [Operation::Inserimento, Operation::Variazione, Operation::Annullo, Operation::Sostituzione];

fn order_name(kind: Kind) -> &'static str {
    match kind {
        Kind::Mandato => "mandato",
        Kind::Reversale => "reversale",
    }
}

fn party_name(kind: Kind) -> &'static str {
    match kind {
        Kind::Mandato => "beneficiario",
        Kind::Reversale => "versante",
    }
}

/// The name of the element that a refused order has its error in.
pub fn element_in_error(kind: Kind, code: u8) -> String {
    match code {
        12 => format!("progressivo_{}", party_name(kind)),
        13 | 19 => format!("importo_{}", order_name(kind)),
        _ => format!("numero_{}", order_name(kind)),
    }
}

/// A time as document 01's, and then `Z` or a sign and hh:mm to 23:59.
pub fn time_with_zone(text: &[u8]) -> Option<()> {
    let (time, zone) = text.split_at_checked(19)?;
    fields::date_and_time(time)?;
    match zone {
        b"Z" => Some(()),
        [b'+' | b'-', h1, h2, b':', m1, m2] => {
            let value = |tens: &u8, ones: &u8| {
                let digits = tens.is_ascii_digit() && ones.is_ascii_digit();
                digits.then(|| 10 * (tens - b'0') + (ones - b'0'))
            };
            (value(h1, h2)? <= 23 && value(m1, m2)? <= 59).then_some(())
        }
        _ => None,
    }
}

const TIME_WITH_ZONE: &[&[u8]] = &[b"0000-00-00T00:00:00Z", b"0000-00-00T00:00:00+00:00", b"0000-00-00T00:00:00-00:00"];

/// Whether a caller's value has the right form; `place` is that among the nine.
pub fn given_stands(place: usize, value: &[u8]) -> bool {
    match place {
        0 | 1 => time_with_zone(value).is_some(),
        ISTAT if value.is_empty() => true,
        _ => (1..=LONGEST_TEXT).contains(&value.len()) && is_text(value),
    }
}

/// Writes the message of a flow and its outcome bytes.
pub fn write(edition: u64, flow: &[u8], outcomes: &[u8], given: &Given, message: &mut [u8]) -> WriteAnswer {
    match message_of(edition, flow, outcomes, given) {
        Err(code) => WriteAnswer { code, length: 0 },
        Ok(values) => put(&bytes(&values), message),
    }
}

/// Reads a message and writes its values anew.
pub fn rewrite(edition: u64, message: &[u8], again: &mut [u8]) -> WriteAnswer {
    match values_of(edition, message) {
        Err(refused) => WriteAnswer { code: refused.code, length: 0 },
        Ok(read) => put(&bytes(&read.values()), again),
    }
}

fn put(written: &[u8], buffer: &mut [u8]) -> WriteAnswer {
    match buffer.get_mut(..written.len()) {
        None => WriteAnswer { code: 40, length: 0 },
        Some(place) => {
            place.copy_from_slice(written);
            WriteAnswer { code: 0, length: written.len() as u64 }
        }
    }
}

/// The values of the message that is to be written, or the refusal's code.
pub fn message_of(edition: u64, flow: &[u8], outcomes: &[u8], given: &Given) -> Result<Message, u64> {
    let edition = Edition::numbered(edition).ok_or(23u64)?;
    if flow.len() > LONGEST_FLOW {
        return Err(2);
    }
    let root = markup::read(flow, edition == Edition::Opi).ok_or(3u64)?;
    let raw = structure::read(&root, edition).ok_or(4u64)?;
    let read = fields::read(&raw, edition).map_err(|_| 5u64)?;
    if outcomes.len() < OUTCOME * read.orders.len() {
        return Err(41);
    }
    for (order, outcome) in read.orders.iter().zip(outcomes.chunks(OUTCOME)) {
        let mut due = vec![order.kind as u8, order.operation as u8, outcome[2], order.lines.len() as u8];
        due.extend(order.number.to_be_bytes());
        due.extend(order.total.to_be_bytes());
        if due != outcome || !is_order_code(outcome[2]) {
            return Err(41);
        }
    }
    if !given.iter().enumerate().all(|(place, value)| given_stands(place, value)) {
        return Err(41);
    }
    let [created, time, ente, descrizione, istat, fiscale, tramite_ente, tramite_bt, flusso_bt] = *given;
    let header = [&read.abi, created, ente, descrizione, istat, fiscale, tramite_ente, tramite_bt, &read.body, flusso_bt];
    let all = read.orders.iter().zip(outcomes.chunks(OUTCOME)).map(|(order, outcome)| Entry {
        kind: order.kind,
        operation: order.operation,
        code: outcome[2],
        identifier: raw.identifier.text.to_vec(),
        esercizio: read.esercizio,
        number: order.number,
        date: order.date,
        total: order.total,
        time: time.to_vec(),
    });
    let (reversali, mandati): (Vec<_>, Vec<_>) = all.partition(|entry| entry.kind == Kind::Reversale);
    Ok(Message { header: header.map(<[u8]>::to_vec), entries: [reversali, mandati].concat() })
}

fn put_element(to: &mut Vec<u8>, name: &str, inside: impl AsRef<[u8]>) {
    to.extend(format!("<{name}>").bytes());
    to.extend(inside.as_ref());
    to.extend(format!("</{name}>").bytes());
}

/// The bytes of a message: nothing stands between its elements, before them or after them.
pub fn bytes(message: &Message) -> Vec<u8> {
    let mut testata = Vec::new();
    for (place, (name, text)) in HEADER.iter().zip(&message.header).enumerate().take(9) {
        if place != ISTAT || !text.is_empty() {
            put_element(&mut testata, name, text);
        }
    }
    let mut inside = Vec::new();
    put_element(&mut inside, "testata_messaggio", testata);
    put_element(&mut inside, HEADER[9], &message.header[9]);
    for entry in &message.entries {
        let name = match entry.kind {
            Kind::Reversale => "esito_reversali",
            Kind::Mandato => "esito_mandati",
        };
        put_element(&mut inside, name, entry_bytes(entry));
    }
    let mut written = Vec::new();
    put_element(&mut written, "messaggi_esito_applicativo", inside);
    written
}

fn entry_bytes(entry: &Entry) -> Vec<u8> {
    let order = order_name(entry.kind);
    let Date { year, month, day } = entry.date;
    let mut inside = Vec::new();
    put_element(&mut inside, "identificativo_flusso", &entry.identifier);
    put_element(&mut inside, "esercizio", entry.esercizio.to_string());
    put_element(&mut inside, &format!("numero_{order}"), entry.number.to_string());
    put_element(&mut inside, &format!("data_{order}"), format!("{year:04}-{month:02}-{day:02}"));
    put_element(&mut inside, "importo", format!("{}.{:02}", entry.total / 100, entry.total % 100));
    put_element(&mut inside, "esito_operazione", word(entry.operation, entry.code != 0));
    put_element(&mut inside, "data_ora_esito_operazione", &entry.time);
    if entry.code != 0 {
        let mut error = Vec::new();
        put_element(&mut error, "codice_errore", entry.code.to_string());
        put_element(&mut error, "descrizione", entry.code.to_string());
        put_element(&mut error, "elemento", element_in_error(entry.kind, entry.code));
        put_element(&mut inside, "lista_errori", error);
    }
    inside
}

/// Reads a message: writes where its texts stand and what its entries say into the values.
pub fn read(edition: u64, message: &[u8], values: &mut [u8]) -> ReadAnswer {
    match values_of(edition, message) {
        Err(refused) => refused,
        Ok(read) => {
            let shown = read.shown();
            match values.get_mut(..shown.len()) {
                None => ReadAnswer { code: 40, ..ReadAnswer::default() },
                Some(place) => {
                    place.copy_from_slice(&shown);
                    ReadAnswer { entries: read.entries.len() as u64, ..ReadAnswer::default() }
                }
            }
        }
    }
}

/// A part of the message: a field's text, and where it and its element stand.
#[derive(Clone, Copy, Debug, PartialEq, Eq)]
pub struct Part<'m> {
    /// The place of the element's `<`.
    pub at: usize,
    /// The place of the text.
    pub from: usize,
    /// The text.
    pub text: &'m [u8],
}

impl Part<'_> {
    fn shown(&self) -> [u8; 8] {
        let numbers = [self.from as u32, self.text.len() as u32].map(u32::to_be_bytes);
        numbers.concat().try_into().expect("two numbers of four bytes")
    }
}

/// A message that was read, as parts of its bytes.
#[derive(Clone, Debug, PartialEq, Eq)]
pub struct Read<'m> {
    header: [Option<Part<'m>>; 10],
    entries: Vec<(Entry, Part<'m>, Part<'m>)>,
}

impl Read<'_> {
    /// The values.
    pub fn values(&self) -> Message {
        let header = self.header.map(|part| part.map_or(Vec::new(), |part| part.text.to_vec()));
        Message { header, entries: self.entries.iter().map(|(entry, _, _)| entry.clone()).collect() }
    }

    /// The bytes that a caller is shown.
    fn shown(&self) -> Vec<u8> {
        let mut shown: Vec<u8> = self.header.iter().flat_map(|part| part.map_or([0; 8], |part| part.shown())).collect();
        for (entry, identifier, time) in &self.entries {
            shown.extend([entry.kind as u8, entry.operation as u8, entry.code, 0]);
            shown.extend(entry.esercizio.to_be_bytes());
            shown.extend([0; 2]);
            shown.extend(entry.number.to_be_bytes());
            shown.extend(entry.date.year.to_be_bytes());
            shown.extend([entry.date.month, entry.date.day]);
            shown.extend(entry.total.to_be_bytes());
            shown.extend(identifier.shown());
            shown.extend(time.shown());
            shown.extend([0; 8]);
        }
        shown
    }
}

fn refused(code: u64) -> ReadAnswer {
    ReadAnswer { code, ..ReadAnswer::default() }
}

/// The message that these bytes are, or the refusal.
pub fn values_of(edition: u64, message: &[u8]) -> Result<Read<'_>, ReadAnswer> {
    let edition = Edition::numbered(edition).ok_or(refused(23))?;
    if message.len() > LONGEST_MESSAGE {
        return Err(refused(2));
    }
    let root = markup::read(message, edition == Edition::Opi).ok_or(refused(3))?;
    let raw = raw_message(&root).ok_or(refused(4))?;
    read_fields(&raw).map_err(|broken| ReadAnswer { place: broken.at as u64, cause: broken.cause as u64, ..refused(5) })
}

/// A message's fields, still as text: the header's, then the entries'.
struct RawMessage<'m> {
    header: [Option<Part<'m>>; 10],
    entries: Vec<RawEntry<'m>>,
}

struct RawEntry<'m> {
    kind: Kind,
    identifier: Part<'m>,
    esercizio: Part<'m>,
    number: Part<'m>,
    date: Part<'m>,
    total: Part<'m>,
    word: Part<'m>,
    time: Part<'m>,
    /// `codice_errore`, `descrizione`, `elemento`.
    error: Option<[Part<'m>; 3]>,
}

/// A name under a parent, and how often it stands there at least and at most.
type Row<'r> = (&'r str, usize, usize);

/// The named children of an element, row by row; `None` where they don't stand in the rows' order or not as often as they say. Children
/// of other names are passed over.
fn children<'e, 'm>(parent: &'e Element<'m>, rows: &[Row]) -> Option<Vec<Vec<&'e Element<'m>>>> {
    let Content::Elements(children) = &parent.content else {
        return None;
    };
    let row_of = |child: &Element| rows.iter().position(|row| row.0.as_bytes() == child.name);
    let mut found = vec![Vec::new(); rows.len()];
    let mut last = 0;
    for child in children {
        if let Some(row) = row_of(child) {
            if row < last {
                return None;
            }
            last = row;
            found[row].push(child);
        }
    }
    let counted = found.iter().zip(rows).all(|(found, row)| (row.1..=row.2).contains(&found.len()));
    counted.then_some(found)
}

/// A childless named element holds text only.
fn part<'m>(element: &Element<'m>) -> Option<Part<'m>> {
    match element.content {
        Content::Text(text) => Some(Part { at: element.at, from: element.at + element.name.len() + 2, text }),
        Content::Elements(_) => None,
    }
}

fn raw_message<'m>(root: &Element<'m>) -> Option<RawMessage<'m>> {
    if root.name != b"messaggi_esito_applicativo" {
        return None;
    }
    let rows =
        [("testata_messaggio", 1, 1), (HEADER[9], 1, 1), ("esito_reversali", 0, MOST_ORDERS), ("esito_mandati", 0, MOST_ORDERS)];
    let inside = children(root, &rows)?;
    let (reversali, mandati) = (&inside[2], &inside[3]);
    if !(1..=MOST_ORDERS).contains(&(reversali.len() + mandati.len())) {
        return None;
    }
    let mut rows = HEADER.map(|name| (name, 1, 1));
    rows[ISTAT].1 = 0;
    let mut header = [None; 10];
    for (place, found) in children(inside[0][0], &rows[..9])?.iter().enumerate() {
        if let Some(element) = found.first() {
            header[place] = Some(part(element)?);
        }
    }
    header[9] = Some(part(inside[1][0])?);
    let reversali = reversali.iter().map(|element| raw_entry(element, Kind::Reversale));
    let mandati = mandati.iter().map(|element| raw_entry(element, Kind::Mandato));
    Some(RawMessage { header, entries: reversali.chain(mandati).collect::<Option<_>>()? })
}

fn raw_entry<'m>(element: &Element<'m>, kind: Kind) -> Option<RawEntry<'m>> {
    let (order, party) = (order_name(kind), party_name(kind));
    let (number, date, progressivo) = (format!("numero_{order}"), format!("data_{order}"), format!("progressivo_{party}"));
    // Table 17's own name for a line: known there, and never written.
    let never = (&*progressivo, 0, 0);
    let rows = [
        ("identificativo_flusso", 1, 1),
        ("esercizio", 1, 1),
        (&number, 1, 1),
        never,
        (&date, 1, 1),
        ("importo", 1, 1),
        ("esito_operazione", 1, 1),
        ("data_ora_esito_operazione", 1, 1),
        ("lista_errori", 0, 1),
    ];
    let inside = children(element, &rows)?;
    let error = match inside[8].first() {
        None => None,
        Some(list) => {
            let rows = [never, ("codice_errore", 1, 1), ("descrizione", 1, 1), ("elemento", 1, 1)];
            let inside = children(list, &rows)?;
            Some([part(inside[1][0])?, part(inside[2][0])?, part(inside[3][0])?])
        }
    };
    Some(RawEntry {
        kind,
        identifier: part(inside[0][0])?,
        esercizio: part(inside[1][0])?,
        number: part(inside[2][0])?,
        date: part(inside[4][0])?,
        total: part(inside[5][0])?,
        word: part(inside[6][0])?,
        time: part(inside[7][0])?,
        error,
    })
}

fn broken(part: &Part, cause: Cause) -> Broken {
    Broken { at: part.at, cause }
}

fn field<T>(part: &Part, form: impl FnOnce(&[u8]) -> Option<T>, longest: usize, shapes: &[&[u8]]) -> Result<T, Broken> {
    form(part.text).ok_or_else(|| broken(part, cause(part.text, longest, shapes)))
}

fn text(text: &[u8]) -> Option<()> {
    (1..=LONGEST_TEXT).contains(&text.len()).then_some(())
}

/// Reads every field in the order they stand in; `Err` has the first that breaks.
fn read_fields<'m>(raw: &RawMessage<'m>) -> Result<Read<'m>, Broken> {
    for (place, part) in raw.header.iter().enumerate() {
        let Some(part) = part else { continue };
        match place {
            0 => drop(field(part, fields::abi, 5, &[])?),
            1 => field(part, time_with_zone, 25, TIME_WITH_ZONE)?,
            8 => drop(field(part, fields::body_code, 16, &[])?),
            _ => field(part, text, LONGEST_TEXT, &[])?,
        }
    }
    let entries = raw.entries.iter().map(read_entry).collect::<Result<_, _>>()?;
    Ok(Read { header: raw.header, entries })
}

fn read_entry<'m>(raw: &RawEntry<'m>) -> Result<(Entry, Part<'m>, Part<'m>), Broken> {
    field(&raw.identifier, fields::identifier, 35, &[])?;
    let esercizio = field(&raw.esercizio, fields::esercizio, 4, &[b"0000"])?;
    let number = field(&raw.number, fields::number, 7, fields::NUMBER)?;
    let date = field(&raw.date, fields::date, 10, &[b"0000-00-00"])?;
    let total = field(&raw.total, fields::amount, 12, &[])?;
    let (operation, refused) = field(&raw.word, operation_of, 14, &[])?;
    if refused != raw.error.is_some() {
        return Err(broken(&raw.word, Cause::Form));
    }
    field(&raw.time, time_with_zone, 25, TIME_WITH_ZONE)?;
    let mut code = 0;
    if let Some([number, description, element]) = &raw.error {
        code = field(number, error_code, 2, &[b"00"])?;
        let name = element_in_error(raw.kind, code);
        field(description, |text| (text == number.text).then_some(()), 2, &[])?;
        field(element, |text| (text == name.as_bytes()).then_some(()), 24, &[])?;
    }
    let (identifier, time) = (raw.identifier.text.to_vec(), raw.time.text.to_vec());
    let entry = Entry { kind: raw.kind, operation, code, identifier, esercizio, number, date, total, time };
    Ok((entry, raw.identifier, raw.time))
}

/// The operation that a word is of, and whether it says that the operation is refused.
fn operation_of(text: &[u8]) -> Option<(Operation, bool)> {
    let all = OPERATIONS.into_iter().flat_map(|operation| [(operation, false), (operation, true)]);
    all.into_iter().find(|&(operation, refused)| word(operation, refused).as_bytes() == text)
}

/// Two digits that are the code of a refused order.
fn error_code(text: &[u8]) -> Option<u8> {
    let code: u8 = match text {
        [b'0'..=b'9', b'0'..=b'9'] => std::str::from_utf8(text).ok()?.parse().ok()?,
        _ => return None,
    };
    (code != 0 && is_order_code(code)).then_some(code)
}
