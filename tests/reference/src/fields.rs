//! The fields: the exact form of each, and the values they stand for.

use crate::Edition;
use crate::markup::replaced;
use crate::structure::{Field, RawFlow, RawLine, RawNamed, RawOrder};
use crate::table::{Date, Kind};

/// What an order asks for, numbered as in document 01's field table.
#[derive(Clone, Copy, Debug, PartialEq, Eq)]
pub enum Operation {
    /// A new order.
    Inserimento = 1,
    /// A changed order.
    Variazione = 2,
    /// An order withdrawn.
    Annullo = 3,
    /// A new order whose lines replace executed ones.
    Sostituzione = 4,
}

/// A flow whose fields all stand.
#[derive(Clone, Debug, PartialEq, Eq)]
pub struct Flow {
    /// The bank.
    pub abi: [u8; 5],
    /// The body's code, byte by byte.
    pub body: Vec<u8>,
    /// The year of the books.
    pub esercizio: u16,
    /// The orders as written.
    pub orders: Vec<FlowOrder>,
}

/// An order of a flow.
#[derive(Clone, Debug, PartialEq, Eq)]
pub struct FlowOrder {
    /// Mandato or reversale.
    pub kind: Kind,
    /// What it asks for.
    pub operation: Operation,
    /// Its number.
    pub number: u32,
    /// Its date.
    pub date: Date,
    /// Its total in cents.
    pub total: u64,
    /// Its lines.
    pub lines: Vec<FlowLine>,
}

/// A line of an order of a flow.
#[derive(Clone, Copy, Debug, PartialEq, Eq)]
pub struct FlowLine {
    /// Its progressivo.
    pub progressivo: u16,
    /// Its amount in cents.
    pub amount: u64,
    /// The line that it replaces, in a SOSTITUZIONE.
    pub named: Option<NamedLine>,
}

/// A line that is to be replaced, of the same kind and body.
#[derive(Clone, Copy, Debug, PartialEq, Eq)]
pub struct NamedLine {
    /// Its order's number.
    pub number: u32,
    /// The line's number in it.
    pub line: u16,
    /// Its order's year.
    pub esercizio: u16,
}

/// What is wrong with a field, numbered as in document 02, Req 03.
#[derive(Clone, Copy, Debug, PartialEq, Eq)]
pub enum Cause {
    /// Empty.
    Empty = 1,
    /// Longer than the longest allowed text.
    Long = 2,
    /// Wrong form.
    Form = 3,
    /// Right form but a value outside its range.
    Range = 4,
}

/// The first field that breaks.
#[derive(Clone, Copy, Debug, PartialEq, Eq)]
pub struct Broken {
    /// The place of its element's `<`.
    pub at: usize,
    /// What is wrong with it.
    pub cause: Cause,
}

/// The shapes of a number, a date and a time, `0` standing for any digit: a text of such a shape that breaks has a value outside its range.
const YEAR: &[&[u8]] = &[b"0000"];
pub(crate) const NUMBER: &[&[u8]] = &[b"0", b"00", b"000", b"0000", b"00000", b"000000", b"0000000"];
const DATE: &[&[u8]] = &[b"0000-00-00"];
const DATE_AND_TIME: &[&[u8]] = &[b"0000-00-00T00:00:00"];
const DATE_AND_ZONE: &[&[u8]] = &[b"0000-00-00T00:00:00Z", b"0000-00-00T00:00:00+00:00", b"0000-00-00T00:00:00-00:00"];

/// The cause of a text that breaks.
pub(crate) fn cause(text: &[u8], longest: usize, shapes: &[&[u8]]) -> Cause {
    let shaped: Vec<u8> = text.iter().map(|byte| if byte.is_ascii_digit() { b'0' } else { *byte }).collect();
    if text.is_empty() {
        Cause::Empty
    } else if text.len() > longest {
        Cause::Long
    } else if shapes.contains(&&shaped[..]) {
        Cause::Range
    } else {
        Cause::Form
    }
}

/// Reads every field of a flow of an edition, in the order they stand in; `Err` has the first that breaks.
pub fn read(raw: &RawFlow, edition: Edition) -> Result<Flow, Broken> {
    let abi = read_field(&raw.abi, abi, 5, &[])?;
    read_field(&raw.identifier, identifier, 35, &[])?;
    match edition {
        Edition::Oil => read_field(&raw.created, date_and_time, 19, DATE_AND_TIME)?,
        Edition::Opi => read_field(&raw.created, date_and_zone, 25, DATE_AND_ZONE)?,
    }
    let body = read_field(&raw.body, body_code, 16, &[])?;
    let esercizio = read_field(&raw.esercizio, esercizio, 4, YEAR)?;
    let orders = raw.orders.iter().map(read_order).collect::<Result<_, _>>()?;
    Ok(Flow { abi, body, esercizio, orders })
}

fn read_order(raw: &RawOrder) -> Result<FlowOrder, Broken> {
    Ok(FlowOrder {
        kind: raw.kind,
        operation: read_field(&raw.operation, operation, 12, &[])?,
        number: read_field(&raw.number, number, 7, NUMBER)?,
        date: read_field(&raw.date, date, 10, DATE)?,
        total: read_field(&raw.total, amount, 12, &[])?,
        lines: raw.lines.iter().map(read_line).collect::<Result<_, _>>()?,
    })
}

fn read_line(raw: &RawLine) -> Result<FlowLine, Broken> {
    let progressivo = read_field(&raw.progressivo, progressivo, 3, &[])?;
    let amount = read_field(&raw.amount, amount, 12, &[])?;
    // A name that breaks is empty or too long, and one that is too long by its own count has still more bytes.
    read_field(&raw.name, party_name, 140, &[])?;
    let named = raw.named.as_ref().map(read_named).transpose()?;
    Ok(FlowLine { progressivo, amount, named })
}

fn read_named(raw: &RawNamed) -> Result<NamedLine, Broken> {
    Ok(NamedLine {
        number: read_field(&raw.number, number, 7, NUMBER)?,
        line: read_field(&raw.line, progressivo, 3, &[])?,
        esercizio: read_field(&raw.esercizio, esercizio, 4, YEAR)?,
    })
}

fn read_field<T>(field: &Field, form: fn(&[u8]) -> Option<T>, longest: usize, shapes: &[&[u8]]) -> Result<T, Broken> {
    form(field.text).ok_or_else(|| Broken { at: field.at, cause: cause(field.text, longest, shapes) })
}

/// The number that `least` to `most` digits write; `None` for anything else.
fn digits(text: &[u8], least: usize, most: usize) -> Option<u64> {
    let fits = (least..=most).contains(&text.len()) && text.iter().all(u8::is_ascii_digit);
    fits.then(|| text.iter().fold(0, |value, digit| value * 10 + u64::from(digit - b'0')))
}

/// `codice_ABI_BT`: five digits.
pub fn abi(text: &[u8]) -> Option<[u8; 5]> {
    digits(text, 5, 5)?;
    text.try_into().ok()
}

/// `identificativo_flusso`: 1 to 35 of letters, digits, `-` `_` `.`.
pub fn identifier(text: &[u8]) -> Option<()> {
    let allowed = |byte: &u8| byte.is_ascii_alphanumeric() || b"-_.".contains(byte);
    ((1..=35).contains(&text.len()) && text.iter().all(allowed)).then_some(())
}

/// `data_ora_creazione_flusso`: a date, `T`, and a time of the day.
pub fn date_and_time(text: &[u8]) -> Option<()> {
    let (day, time) = text.split_at_checked(10)?;
    date(day)?;
    let time = time.strip_prefix(b"T")?;
    let parts: Vec<_> = time.split(|&byte| byte == b':').collect();
    let [hours, minutes, seconds] = parts.try_into().ok()?;
    let below = |text, bound| digits(text, 2, 2).is_some_and(|value| value < bound);
    (below(hours, 24) && below(minutes, 60) && below(seconds, 60)).then_some(())
}

/// The same with a zone: `Z`, or a sign, hours and minutes of 00:00 to 23:59.
pub fn date_and_zone(text: &[u8]) -> Option<()> {
    if let Some(time) = text.strip_suffix(b"Z") {
        return date_and_time(time);
    }
    let (time, zone) = text.split_at_checked(19)?;
    let [b'+' | b'-', hours @ .., b':', tens, ones] = zone else {
        return None;
    };
    let stands = digits(hours, 2, 2)? < 24 && digits(&[*tens, *ones], 2, 2)? < 60;
    stands.then_some(())?;
    date_and_time(time)
}

/// `codice_ente_BT`: 1 to 16 letters and digits.
pub fn body_code(text: &[u8]) -> Option<Vec<u8>> {
    let stands = (1..=16).contains(&text.len()) && text.iter().all(u8::is_ascii_alphanumeric);
    stands.then(|| text.to_vec())
}

/// `esercizio`: four digits, 2000 to 2099.
pub fn esercizio(text: &[u8]) -> Option<u16> {
    let year = digits(text, 4, 4)?;
    (2000..=2099).contains(&year).then_some(year as u16)
}

/// `tipo_operazione`.
pub fn operation(text: &[u8]) -> Option<Operation> {
    match text {
        b"INSERIMENTO" => Some(Operation::Inserimento),
        b"VARIAZIONE" => Some(Operation::Variazione),
        b"ANNULLO" => Some(Operation::Annullo),
        b"SOSTITUZIONE" => Some(Operation::Sostituzione),
        _ => None,
    }
}

/// `numero_...`: 1 to 7 digits, not 0.
pub fn number(text: &[u8]) -> Option<u32> {
    let value = digits(text, 1, 7)?;
    (value > 0).then_some(value as u32)
}

/// `data_...`: YYYY-MM-DD, a real date of 2000 to 2099.
pub fn date(text: &[u8]) -> Option<Date> {
    let parts: Vec<_> = text.split(|&byte| byte == b'-').collect();
    let [year, month, day] = parts.try_into().ok()?;
    let date = Date { year: digits(year, 4, 4)? as u16, month: digits(month, 2, 2)? as u8, day: digits(day, 2, 2)? as u8 };
    date.stands().then_some(date)
}

/// `importo_...`: 1 to 9 digits, a point, two digits, in cents.
pub fn amount(text: &[u8]) -> Option<u64> {
    let point = text.iter().position(|&byte| byte == b'.')?;
    let (euros, cents) = (&text[..point], &text[point + 1..]);
    if euros.len() > 1 && euros[0] == b'0' {
        return None;
    }
    Some(digits(euros, 1, 9)? * 100 + digits(cents, 2, 2)?)
}

/// `progressivo_...`: 1 to 3 digits.
pub fn progressivo(text: &[u8]) -> Option<u16> {
    digits(text, 1, 3).map(|value| value as u16)
}

/// `anagrafica_...`: 1 to 140 characters, each of the five references counting as one.
pub fn party_name(text: &[u8]) -> Option<()> {
    let name = String::from_utf8(replaced(text)).ok()?;
    (1..=140).contains(&name.chars().count()).then_some(())
}

#[cfg(test)]
mod tests {
    use super::*;

    #[test]
    fn p1_to_p4_amounts() {
        assert_eq!(amount(b"0.00"), Some(0), "P1");
        assert_eq!(amount(b"999999999.99"), Some(99_999_999_999), "P2");
        assert_eq!(amount(b"00.50"), None, "P3");
        assert_eq!(amount(b"0.5"), None, "P4");
        for broken in [
            "",
            ".",
            ".50",
            "1",
            "1.",
            "1.5",
            "1.000",
            "1,00",
            "-1.00",
            "+1.00",
            "1000000000.00",
            " 1.00",
            "1.00 ",
            "000.00",
            "1.0a",
            "1.1.1",
            "1.-1",
            "a.00",
        ] {
            assert_eq!(amount(broken.as_bytes()), None, "{broken}");
        }
    }

    #[test]
    fn p5_to_p7_numbers() {
        assert_eq!(number(b"0000012"), Some(12), "P5");
        assert_eq!(number(b"00000012"), None, "P6");
        assert_eq!(number(b"0"), None, "P7");
        assert_eq!(number(b"9999999"), Some(9_999_999));
        for broken in ["", "0000000", "1a", " 1", "-1", "+1", "1.0"] {
            assert_eq!(number(broken.as_bytes()), None, "{broken}");
        }
    }

    #[test]
    fn p8_and_p9_dates() {
        assert!(date(b"2000-02-29").is_some(), "P8");
        assert!(date(b"2021-02-29").is_none(), "P9");
        for stands in ["2000-01-01", "2099-12-31", "2096-02-29", "2021-04-30"] {
            assert!(date(stands.as_bytes()).is_some(), "{stands}");
        }
        for broken in [
            "",
            "1999-12-31",
            "2100-01-01",
            "2021-04-31",
            "2021-00-01",
            "2021-13-01",
            "2021-01-00",
            "2021-1-01",
            "2021-01-1",
            "2021/01/01",
            "20210101",
            "2021-01-01 ",
            "2021-01-01-",
            "02021-01-01",
        ] {
            assert!(date(broken.as_bytes()).is_none(), "{broken}");
        }
    }

    #[test]
    fn p10_a_code_is_no_number() {
        assert_ne!(body_code(b"000471"), body_code(b"471"), "P10");
        assert_eq!(body_code(b"000471"), Some(b"000471".to_vec()));
        assert!(body_code(b"0123456789abcdeZ").is_some());
        for broken in ["", "0123456789abcdefg", "4 71", "47-1", "471\0", "47\u{e0}"] {
            assert!(body_code(broken.as_bytes()).is_none(), "{broken}");
        }
    }

    #[test]
    fn causes_in_their_order() {
        assert_eq!(cause(b"", 7, NUMBER), Cause::Empty);
        assert_eq!(cause(b"00000000", 7, NUMBER), Cause::Long);
        assert_eq!(cause(b"&amp;&amp;", 7, NUMBER), Cause::Long);
        assert_eq!(cause(b"1a", 7, NUMBER), Cause::Form);
        assert_eq!(cause(b"0", 7, NUMBER), Cause::Range);
        assert_eq!(cause(b"2021-02-29", 10, DATE), Cause::Range);
        assert_eq!(cause(b"2021-2-29", 10, DATE), Cause::Form);
        assert_eq!(cause(b"2021-02-29T00:00:0x", 19, DATE_AND_TIME), Cause::Form);
        assert_eq!(cause(b"CANCELLATO", 12, &[]), Cause::Form);
        assert_eq!(cause(b"CANCELLAZIONE", 12, &[]), Cause::Long);
        assert_eq!(cause(b"00.50", 12, &[]), Cause::Form);
    }

    #[test]
    fn the_other_forms() {
        assert_eq!(abi(b"01234"), Some(*b"01234"));
        for broken in ["", "1234", "012345", "0123a", " 1234"] {
            assert_eq!(abi(broken.as_bytes()), None, "{broken}");
        }
        assert!(identifier(&[b'-'; 35]).is_some());
        for broken in [&b""[..], &[b'a'; 36], b"a b", b"a/b", b"\xC3\xA0"] {
            assert!(identifier(broken).is_none());
        }
        assert!(date_and_time(b"2021-03-01T00:00:00").is_some());
        assert!(date_and_time(b"2021-03-01T23:59:59").is_some());
        for broken in [
            "2021-03-01",
            "2021-03-01T24:00:00",
            "2021-03-01T23:60:00",
            "2021-03-01T23:59:60",
            "2021-03-01t09:30:00",
            "2021-03-01 09:30:00",
            "2021-03-01T09:30:00Z",
            "2021-03-01T9:30:00",
            "2021-03-01T09:30",
            "2021-02-29T09:30:00",
            "2021-03-01T09:30:00:00",
            "",
            "2021-03-01T09-30-00",
        ] {
            assert!(date_and_time(broken.as_bytes()).is_none(), "{broken}");
        }
        assert_eq!(esercizio(b"2000"), Some(2000));
        assert_eq!(esercizio(b"2099"), Some(2099));
        for broken in ["1999", "2100", "02021", "202", " 2021", "2021 ", ""] {
            assert_eq!(esercizio(broken.as_bytes()), None, "{broken}");
        }
        assert_eq!(operation(b"ANNULLO"), Some(Operation::Annullo));
        for broken in ["annullo", "ANNULL", "ANNULLO ", ""] {
            assert_eq!(operation(broken.as_bytes()), None, "{broken}");
        }
        assert_eq!(progressivo(b"000"), Some(0));
        assert_eq!(progressivo(b"001"), Some(1));
        assert_eq!(progressivo(b"999"), Some(999));
        for broken in ["", "0001", "1a"] {
            assert_eq!(progressivo(broken.as_bytes()), None, "{broken}");
        }
        assert!(party_name(b" ").is_some());
        assert!(party_name("&quot;".repeat(140).as_bytes()).is_some());
        assert!(party_name("&quot;".repeat(141).as_bytes()).is_none());
        for letter in ["\u{e0}", "\u{20ac}", "\u{1f600}"] {
            assert!(party_name(letter.repeat(140).as_bytes()).is_some(), "{letter}");
            assert!(party_name(letter.repeat(141).as_bytes()).is_none(), "{letter}");
        }
        assert!(party_name("e\u{301}".repeat(70).as_bytes()).is_some());
        assert!(party_name("e\u{301}".repeat(71).as_bytes()).is_none());
        assert!(party_name("\r\n".repeat(71).as_bytes()).is_none());
        assert!(party_name(b"").is_none());
    }
}
