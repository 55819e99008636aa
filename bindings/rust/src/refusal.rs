//! Why a call, an order or a notice is refused.

use std::error::Error;
use std::fmt;

use crate::Given;

/// What is wrong with a field that breaks: the first of these that applies.
///
/// ```
/// use hondivole::Cause;
///
/// assert_eq!(Cause::Long.number(), 2);
/// assert_eq!(Cause::Long.to_string(), "longer than the longest allowed text");
/// ```
#[derive(Clone, Copy, Debug, PartialEq, Eq, Hash)]
pub enum Cause {
    /// 1: empty.
    Empty = 1,
    /// 2: longer than the longest allowed text.
    Long = 2,
    /// 3: wrong form.
    Misformed = 3,
    /// 4: right form but a value outside its range.
    OutOfRange = 4,
}

impl Cause {
    /// The cause's number in a flow's answer.
    ///
    /// ```
    /// use hondivole::Cause;
    ///
    /// assert_eq!(Cause::Empty.number(), 1);
    /// ```
    pub fn number(&self) -> u8 {
        *self as u8
    }

    /// The cause with this number; `None` for 0, which goes with every code but 5, and for a number that is none.
    ///
    /// ```
    /// use hondivole::Cause;
    ///
    /// assert_eq!(Cause::from_number(4), Some(Cause::OutOfRange));
    /// assert_eq!(Cause::from_number(0), None);
    /// ```
    pub fn from_number(number: u64) -> Option<Cause> {
        [Cause::Empty, Cause::Long, Cause::Misformed, Cause::OutOfRange]
            .into_iter()
            .find(|cause| u64::from(cause.number()) == number)
    }
}

impl fmt::Display for Cause {
    fn fmt(&self, to: &mut fmt::Formatter) -> fmt::Result {
        to.write_str(match self {
            Cause::Empty => "empty",
            Cause::Long => "longer than the longest allowed text",
            Cause::Misformed => "wrong form",
            Cause::OutOfRange => "right form but a value outside its range",
        })
    }
}

/// Why something is refused: document 01's codes 1 to 22 (11 is given no more), and those of later requests.
///
/// ```
/// use hondivole::{Refusal, Table};
///
/// let table = Table::open("01234", &[("000471", 4)])?;
/// let refusal = table.totals("471").unwrap_err();
/// assert_eq!(refusal, Refusal::NoSuchBody);
/// assert_eq!(refusal.code(), 7);
/// assert_eq!(refusal.to_string(), "no body of the table has this code");
/// # Ok::<(), Refusal>(())
/// ```
#[derive(Clone, Copy, Debug, PartialEq, Eq, Hash)]
pub enum Refusal {
    /// 1: the table isn't valid.
    TableNotValid,
    /// 2: the flow is longer than 32,768 bytes.
    FlowTooLong,
    /// 3: the flow's markup breaks.
    MarkupBreaks,
    /// 4: the flow's structure breaks.
    StructureBreaks,
    /// 5: a field of the flow breaks.
    FieldBreaks {
        /// The byte of `<` of the first element that breaks, counted from 0 at the flow's first byte.
        place: usize,
        /// What is wrong with that element's text.
        cause: Cause,
    },
    /// 6: the flow's `codice_ABI_BT` isn't the table's.
    OtherBank,
    /// 7: no body has this code.
    NoSuchBody,
    /// 8: the outcome buffer has under 16 bytes per order.
    OutcomesTooShort,
    /// 9: what a table is to be opened with is wrong.
    RequestWrong,
    /// 10: the buffer to open a table in hasn't the needed length.
    BufferLengthWrong,
    /// 12: an order's lines aren't numbered 1, 2, 3 and so on.
    LinesMisnumbered,
    /// 13: an order's line amounts don't sum to its total.
    LinesDontSum,
    /// 14: an INSERIMENTO or SOSTITUZIONE of an order that the body already has.
    OrderExists,
    /// 15: an INSERIMENTO or SOSTITUZIONE, and the body has no empty slot.
    NoEmptySlot,
    /// 16: the body has no such order.
    NoSuchOrder,
    /// 17: the order is annulled.
    OrderAnnulled,
    /// 18: a line of the order is executed or replaced.
    LineExecuted,
    /// 19: an ANNULLO whose total or lines differ from the record.
    RecordDiffers,
    /// 20: the order has no such line.
    NoSuchLine,
    /// 21: an execution of a line that is already executed, or replaced.
    AlreadyExecuted,
    /// 22: a reversal of a line that isn't executed, or is replaced.
    NotExecuted,
    /// 23: the number names no edition of a flow. (No [`Edition`](crate::Edition) gets it.)
    NoSuchEdition,
    /// 24: a SOSTITUZIONE names a line that the body hasn't.
    NamedLineAbsent,
    /// 25: a SOSTITUZIONE names a line that isn't executed, or that is replaced, also earlier in this order.
    NamedLineNotExecuted,
    /// 26: a SOSTITUZIONE names a line of another amount.
    NamedLineOtherAmount,
    /// 27: no date, or outside the years 2002 to 2099.
    NoDateServed,
    /// 28: the date is no TARGET day.
    ClosingDay,
    /// 40: the buffer is shorter than the message or its values.
    BufferTooShort,
    /// 41: a message can't be written from what the caller gives.
    ValuesWrong {
        /// What is wrong, where the one who made the call knows: the library answers the code alone, and
        /// [`write_message`](crate::write_message) looks for it.
        given: Option<Given>,
    },
    /// 29: a journal has over 4,096 or not whole movements.
    MovementsWrong,
    /// 30: a journal lists a line that is no executed one of the body.
    NotAnExecutedLine,
    /// 31: a journal lists a line with other cents.
    OtherCents,
    /// 32: a journal lists a line that it listed before.
    ListedBefore,
    /// 33: an executed line is missing in a journal.
    LineMissing,
    /// 34: a table can't be repaired, since its head or entries aren't valid.
    ContentsNotValid,
    /// 35: a repair's report doesn't fit into its buffer. ([`Table::salvage`](crate::Table::salvage) lends enough, and never gets it.)
    ReportTooShort,
    /// 36: a flow's year that the body has closed, or an earlier one; a close of a year that isn't later than the last one closed.
    YearClosed,
    /// 37: a close of what is no year of 2000 to 2099.
    NoYearServed,
    /// 38: a close of a year, and an order of an earlier one remains.
    EarlierYearRemains,
    /// 39: a close of a year, and an acquired order of it has a waiting line.
    LineWaiting,
}

impl Refusal {
    /// The code that document 01 gives this refusal.
    ///
    /// ```
    /// use hondivole::Refusal;
    ///
    /// assert_eq!(Refusal::TableNotValid.code(), 1);
    /// assert_eq!(Refusal::NotExecuted.code(), 22);
    /// ```
    pub fn code(&self) -> u8 {
        match self {
            Refusal::TableNotValid => 1,
            Refusal::FlowTooLong => 2,
            Refusal::MarkupBreaks => 3,
            Refusal::StructureBreaks => 4,
            Refusal::FieldBreaks { .. } => 5,
            Refusal::OtherBank => 6,
            Refusal::NoSuchBody => 7,
            Refusal::OutcomesTooShort => 8,
            Refusal::RequestWrong => 9,
            Refusal::BufferLengthWrong => 10,
            Refusal::LinesMisnumbered => 12,
            Refusal::LinesDontSum => 13,
            Refusal::OrderExists => 14,
            Refusal::NoEmptySlot => 15,
            Refusal::NoSuchOrder => 16,
            Refusal::OrderAnnulled => 17,
            Refusal::LineExecuted => 18,
            Refusal::RecordDiffers => 19,
            Refusal::NoSuchLine => 20,
            Refusal::AlreadyExecuted => 21,
            Refusal::NotExecuted => 22,
            Refusal::NoSuchEdition => 23,
            Refusal::NamedLineAbsent => 24,
            Refusal::NamedLineNotExecuted => 25,
            Refusal::NamedLineOtherAmount => 26,
            Refusal::NoDateServed => 27,
            Refusal::ClosingDay => 28,
            Refusal::BufferTooShort => 40,
            Refusal::ValuesWrong { .. } => 41,
            Refusal::MovementsWrong => 29,
            Refusal::NotAnExecutedLine => 30,
            Refusal::OtherCents => 31,
            Refusal::ListedBefore => 32,
            Refusal::LineMissing => 33,
            Refusal::ContentsNotValid => 34,
            Refusal::ReportTooShort => 35,
            Refusal::YearClosed => 36,
            Refusal::NoYearServed => 37,
            Refusal::EarlierYearRemains => 38,
            Refusal::LineWaiting => 39,
        }
    }

    /// The refusal that has this code; `None` for 0 and for a number that is no code. Place and cause are told with code 5 only.
    ///
    /// ```
    /// use hondivole::{Cause, Refusal};
    ///
    /// assert_eq!(Refusal::from_code(7, 0, 0), Some(Refusal::NoSuchBody));
    /// assert_eq!(Refusal::from_code(5, 375, 3), Some(Refusal::FieldBreaks { place: 375, cause: Cause::Misformed }));
    /// assert_eq!(Refusal::from_code(5, 375, 0), None);
    /// assert_eq!(Refusal::from_code(0, 0, 0), None);
    /// assert_eq!(Refusal::from_code(99, 0, 0), None);
    /// ```
    pub fn from_code(code: u64, place: u64, cause: u64) -> Option<Refusal> {
        Refusal::of_code(code, place, cause)?.err()
    }

    /// What a code stands for: `Ok` for 0, and `None` for a code or a cause that there isn't. Place and cause are told with code 5 only.
    pub(crate) fn of_code(code: u64, place: u64, cause: u64) -> Option<Result<(), Refusal>> {
        let refusal = match code {
            0 => return Some(Ok(())),
            1 => Refusal::TableNotValid,
            2 => Refusal::FlowTooLong,
            3 => Refusal::MarkupBreaks,
            4 => Refusal::StructureBreaks,
            5 => Refusal::FieldBreaks { place: place as usize, cause: Cause::from_number(cause)? },
            6 => Refusal::OtherBank,
            7 => Refusal::NoSuchBody,
            8 => Refusal::OutcomesTooShort,
            9 => Refusal::RequestWrong,
            10 => Refusal::BufferLengthWrong,
            12 => Refusal::LinesMisnumbered,
            13 => Refusal::LinesDontSum,
            14 => Refusal::OrderExists,
            15 => Refusal::NoEmptySlot,
            16 => Refusal::NoSuchOrder,
            17 => Refusal::OrderAnnulled,
            18 => Refusal::LineExecuted,
            19 => Refusal::RecordDiffers,
            20 => Refusal::NoSuchLine,
            21 => Refusal::AlreadyExecuted,
            22 => Refusal::NotExecuted,
            23 => Refusal::NoSuchEdition,
            24 => Refusal::NamedLineAbsent,
            25 => Refusal::NamedLineNotExecuted,
            26 => Refusal::NamedLineOtherAmount,
            27 => Refusal::NoDateServed,
            28 => Refusal::ClosingDay,
            40 => Refusal::BufferTooShort,
            41 => Refusal::ValuesWrong { given: None },
            29 => Refusal::MovementsWrong,
            30 => Refusal::NotAnExecutedLine,
            31 => Refusal::OtherCents,
            32 => Refusal::ListedBefore,
            33 => Refusal::LineMissing,
            34 => Refusal::ContentsNotValid,
            35 => Refusal::ReportTooShort,
            36 => Refusal::YearClosed,
            37 => Refusal::NoYearServed,
            38 => Refusal::EarlierYearRemains,
            39 => Refusal::LineWaiting,
            _ => return None,
        };
        Some(Err(refusal))
    }

    /// The answer of a call that has this code.
    pub(crate) fn answer(code: u64, place: u64, cause: u64) -> Result<(), Refusal> {
        Refusal::of_code(code, place, cause).expect("a call answers with a code of document 01, and 5 with a cause")
    }
}

impl fmt::Display for Refusal {
    fn fmt(&self, to: &mut fmt::Formatter) -> fmt::Result {
        to.write_str(match self {
            Refusal::TableNotValid => "the table isn't valid",
            Refusal::FlowTooLong => "the flow is longer than 32,768 bytes",
            Refusal::MarkupBreaks => "the flow's markup breaks",
            Refusal::StructureBreaks => "the flow's structure breaks",
            Refusal::FieldBreaks { place, cause } => {
                return write!(to, "the field whose element begins at byte {place} of the flow breaks: {cause}");
            }
            Refusal::OtherBank => "the flow's codice_ABI_BT isn't the table's",
            Refusal::NoSuchBody => "no body of the table has this code",
            Refusal::OutcomesTooShort => "the outcome buffer has under 16 bytes per order",
            Refusal::RequestWrong => "a table can't be opened with these ABI digits, codes and slots",
            Refusal::BufferLengthWrong => "the buffer hasn't the length that the table needs",
            Refusal::LinesMisnumbered => "the order's lines aren't numbered 1, 2, 3 and so on",
            Refusal::LinesDontSum => "the order's line amounts don't sum to its total",
            Refusal::OrderExists => "the body already has an order of this kind, esercizio and number",
            Refusal::NoEmptySlot => "the body has no empty slot",
            Refusal::NoSuchOrder => "the body has no order of this kind, esercizio and number",
            Refusal::OrderAnnulled => "the order is annulled",
            Refusal::LineExecuted => "a line of the order is executed or replaced",
            Refusal::RecordDiffers => "the order's total or lines differ from the record",
            Refusal::NoSuchLine => "the order has no such line",
            Refusal::AlreadyExecuted => "the line is already executed, or replaced",
            Refusal::NotExecuted => "the line isn't executed, or is replaced",
            Refusal::NoSuchEdition => "there is no edition of this number",
            Refusal::NamedLineAbsent => "the body has no such line to replace",
            Refusal::NamedLineNotExecuted => "the line to replace isn't executed, or is replaced already",
            Refusal::NamedLineOtherAmount => "the line to replace has another amount",
            Refusal::NoDateServed => "no date of the years 2002 to 2099",
            Refusal::ClosingDay => "the date is no TARGET day",
            Refusal::BufferTooShort => "the buffer is shorter than the message or its values",
            Refusal::ValuesWrong { given: None } => "the outcome bytes aren't this flow's, or a caller's value has a wrong form",
            Refusal::ValuesWrong { given: Some(given) } => return given.fmt(to),
            Refusal::MovementsWrong => "the journal has over 4,096 or not whole movements",
            Refusal::NotAnExecutedLine => "the journal lists a line that is no executed one of the body",
            Refusal::OtherCents => "the journal lists a line with other cents",
            Refusal::ListedBefore => "the journal lists a line that it listed before",
            Refusal::LineMissing => "an executed line is missing in the journal",
            Refusal::ContentsNotValid => "the table's head or entries aren't valid",
            Refusal::ReportTooShort => "the buffer is shorter than the report",
            Refusal::YearClosed => "the body has closed this year, or a later one",
            Refusal::NoYearServed => "no year of 2000 to 2099",
            Refusal::EarlierYearRemains => "the body has an order of an earlier year",
            Refusal::LineWaiting => "an acquired order of this year has a waiting line",
        })
    }
}

impl Error for Refusal {}

#[cfg(test)]
mod tests {
    use super::*;

    #[test]
    fn codes_go_both_ways() {
        assert_eq!(Refusal::of_code(0, 0, 0), Some(Ok(())));
        assert_eq!(Refusal::of_code(11, 0, 0), None);
        assert_eq!(Refusal::of_code(5, 7, 5), None);
        let mut sentences = std::collections::HashSet::new();
        for code in (1..=10).chain(12..=41) {
            let refusal = Refusal::of_code(code, 7, 1).unwrap().unwrap_err();
            assert_eq!(u64::from(refusal.code()), code);
            assert!(sentences.insert(refusal.to_string()));
        }
    }

    #[test]
    fn the_header_says_the_same() {
        let header = include_str!("../../../include/hondivole.h");
        for code in (1..=10).chain(12..=41).filter(|code| *code != 5) {
            let sentence = Refusal::from_code(code, 0, 0).unwrap().to_string();
            assert!(header.contains(&format!("return \"{sentence}\";")), "{sentence}");
        }
        for number in 1..=4 {
            let words = Cause::from_number(number).unwrap().to_string();
            assert!(header.contains(&format!("return \"{words}\";")), "{words}");
        }
    }
}
