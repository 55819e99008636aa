//! What a flow is answered with.

use crate::Refusal;

/// The edition of a flow; a body may mix them.
///
/// ```
/// use hondivole::Edition;
///
/// assert_eq!(Edition::Oil as u64, 1);
/// assert_eq!(Edition::Opi as u64, 2);
/// ```
#[derive(Clone, Copy, Debug, PartialEq, Eq, Hash)]
pub enum Edition {
    /// Edition 1: the flat header of OIL, no attributes, a creation time without zone.
    Oil = 1,
    /// Edition 2: the header of OPI 1.2.2 in `testata_flusso`, an Id that may stand on the root, a creation time with its zone.
    Opi = 2,
}

/// A payment or a collection order.
///
/// ```
/// use hondivole::Kind;
///
/// assert_eq!(Kind::Mandato as u8, 1);
/// assert_eq!(Kind::Reversale as u8, 2);
/// ```
#[derive(Clone, Copy, Debug, PartialEq, Eq, Hash)]
pub enum Kind {
    /// A payment order.
    Mandato = 1,
    /// A collection order.
    Reversale = 2,
}

impl Kind {
    /// The kind that has this number; `None` where none has it.
    pub(crate) fn of_number(number: u8) -> Option<Kind> {
        [Kind::Mandato, Kind::Reversale].into_iter().find(|kind| *kind as u8 == number)
    }
}

/// What an order asks for.
///
/// ```
/// use hondivole::Operation;
///
/// assert_eq!(Operation::Inserimento as u8, 1);
/// assert_eq!(Operation::Sostituzione as u8, 4);
/// ```
#[derive(Clone, Copy, Debug, PartialEq, Eq, Hash)]
pub enum Operation {
    /// A new order.
    Inserimento = 1,
    /// A changed order.
    Variazione = 2,
    /// An order withdrawn.
    Annullo = 3,
    /// A new order whose lines replace executed ones, and are executed at once.
    Sostituzione = 4,
}

impl Operation {
    /// The operation that has this number; `None` where none has it.
    pub(crate) fn of_number(number: u8) -> Option<Operation> {
        let all = [Operation::Inserimento, Operation::Variazione, Operation::Annullo, Operation::Sostituzione];
        all.into_iter().find(|operation| *operation as u8 == number)
    }
}

/// What became of one order of a flow: its 16 outcome bytes, read.
///
/// ```
/// use hondivole::{Kind, Operation, OrderOutcome, Refusal};
///
/// let bytes = *b"\x02\x01\x0D\x01\0\0\0\x0C\0\0\0\0\0\0\x07\xD0";
/// let outcome = OrderOutcome::from_bytes(&bytes).unwrap();
/// assert_eq!(outcome.kind, Kind::Reversale);
/// assert_eq!(outcome.operation, Operation::Inserimento);
/// assert_eq!((outcome.number, outcome.lines, outcome.total), (12, 1, 2000));
/// assert_eq!(outcome.verdict, Err(Refusal::LinesDontSum));
/// assert_eq!(OrderOutcome::from_bytes(&[0; 16]), None);
/// ```
#[derive(Clone, Copy, Debug, PartialEq, Eq)]
pub struct OrderOutcome {
    /// Mandato or reversale.
    pub kind: Kind,
    /// What the order asked for.
    pub operation: Operation,
    /// The order's number.
    pub number: u32,
    /// How many lines the flow gives it.
    pub lines: u8,
    /// The total that the flow gives it, in cents.
    pub total: u64,
    /// Whether it was accepted; if not, why.
    pub verdict: Result<(), Refusal>,
}

impl OrderOutcome {
    /// How many bytes an outcome has.
    pub const BYTES: usize = 16;

    /// Reads an outcome from its bytes; `None` when no order could have got them.
    pub fn from_bytes(bytes: &[u8; 16]) -> Option<OrderOutcome> {
        let kind = Kind::of_number(bytes[0])?;
        let operation = Operation::of_number(bytes[1])?;
        if !matches!(bytes[2], 0 | 12..=19 | 24..=26) || !matches!(bytes[3], 1..=8) {
            return None;
        }
        let [_, _, code, lines, n0, n1, n2, n3, total @ ..] = *bytes;
        Some(OrderOutcome {
            kind,
            operation,
            number: u32::from_be_bytes([n0, n1, n2, n3]),
            lines,
            total: u64::from_be_bytes(total),
            verdict: Refusal::of_code(code.into(), 0, 0)?,
        })
    }
}

/// The answer to a flow that was taken: how many of its orders were accepted, how many slots their searches looked at, and what became of
/// each.
///
/// ```
/// use hondivole::{Edition, Refusal, Table, MOST_OUTCOME_BYTES};
///
/// # let flow = include_bytes!("run.xml").as_slice();
/// let mut table = Table::open("01234", &[("000471", 4), ("471", 4)])?;
/// let mut outcomes = [0; MOST_OUTCOME_BYTES];
/// // Document 01's run: a mandato, and a reversale whose line doesn't sum to its total.
/// let answer = table.flow(Edition::Oil, flow, &mut outcomes)?;
/// assert_eq!((answer.orders(), answer.accepted()), (2, 1));
/// let verdicts: Vec<_> = answer.outcomes().map(|outcome| outcome.verdict).collect();
/// assert_eq!(verdicts, [Ok(()), Err(Refusal::LinesDontSum)]);
/// # Ok::<(), Refusal>(())
/// ```
#[derive(Clone, Copy, Debug, PartialEq, Eq)]
pub struct FlowAnswer<'o> {
    pub(crate) accepted: usize,
    pub(crate) steps: u64,
    pub(crate) outcomes: &'o [[u8; 16]],
}

impl<'o> FlowAnswer<'o> {
    /// How many orders the flow holds.
    ///
    /// ```
    /// # use hondivole::{Edition, Refusal, Table};
    /// # let flow = include_bytes!("run.xml").as_slice();
    /// let mut table = Table::open("01234", &[("000471", 4)])?;
    /// assert_eq!(table.flow(Edition::Oil, flow, &mut [0; 32])?.orders(), 2);
    /// # Ok::<(), Refusal>(())
    /// ```
    pub fn orders(&self) -> usize {
        self.outcomes.len()
    }

    /// How many of them were accepted.
    ///
    /// ```
    /// # use hondivole::{Edition, Refusal, Table};
    /// # let flow = include_bytes!("run.xml").as_slice();
    /// let mut table = Table::open("01234", &[("000471", 4)])?;
    /// assert_eq!(table.flow(Edition::Oil, flow, &mut [0; 32])?.accepted(), 1);
    /// # Ok::<(), Refusal>(())
    /// ```
    pub fn accepted(&self) -> usize {
        self.accepted
    }

    /// How many slots of the body the searches for its orders looked at, together: each up to and including the slot found, or all used
    /// slots when there is none; none for an order refused before its search (codes 12 and 13), and none for the lines that a SOSTITUZIONE names. At most the number of orders times the
    /// body's slots.
    ///
    /// ```
    /// # use hondivole::{Edition, Refusal, Table};
    /// # let flow = include_bytes!("run.xml").as_slice();
    /// let mut table = Table::open("01234", &[("000471", 4)])?;
    /// // The mandato meets an empty body, and the reversale's line doesn't sum to its total; then the mandato is found in the first slot.
    /// assert_eq!(table.flow(Edition::Oil, flow, &mut [0; 32])?.steps(), 0);
    /// assert_eq!(table.flow(Edition::Oil, flow, &mut [0; 32])?.steps(), 1);
    /// # Ok::<(), Refusal>(())
    /// ```
    pub fn steps(&self) -> u64 {
        self.steps
    }

    /// What became of each order, in the flow's order.
    ///
    /// ```
    /// # use hondivole::{Edition, Kind, Refusal, Table};
    /// # let flow = include_bytes!("run.xml").as_slice();
    /// let mut table = Table::open("01234", &[("000471", 4)])?;
    /// let mut outcomes = [0; 32];
    /// let answer = table.flow(Edition::Oil, flow, &mut outcomes)?;
    /// let first = answer.outcomes().next().unwrap();
    /// assert_eq!((first.kind, first.number, first.total), (Kind::Mandato, 12, 15_000));
    /// # Ok::<(), Refusal>(())
    /// ```
    pub fn outcomes(&self) -> impl ExactSizeIterator<Item = OrderOutcome> + use<'o> {
        self.outcomes.iter().map(|bytes| OrderOutcome::from_bytes(bytes).expect("a taken flow has 16 outcome bytes per order"))
    }
}
