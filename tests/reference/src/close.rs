//! Document 02, Req 14: closing a year.

use crate::table::{LineState, State, Table, YEARS};

/// The answer to a close.
#[derive(Clone, Copy, Debug, Default, PartialEq, Eq)]
pub struct CloseAnswer {
    /// 0, or the refusal's code.
    pub code: u64,
    /// How many records were removed, 0 on refusal.
    pub removed: u64,
}

/// Closes a year of a body's books: its records are removed, the rest move up, and the entry holds the year from then on.
pub fn close(bytes: &mut [u8], body: &[u8], year: u64) -> CloseAnswer {
    let refused = |code| CloseAnswer { code, removed: 0 };
    let Some(mut table) = Table::decode(bytes) else {
        return refused(1);
    };
    let Some(body) = table.body_mut(body) else {
        return refused(7);
    };
    let Some(year) = u16::try_from(year).ok().filter(|year| YEARS.contains(year)) else {
        return refused(37);
    };
    if body.has_closed(year) {
        return refused(36);
    }
    if body.orders.iter().any(|order| order.esercizio < year) {
        return refused(38);
    }
    let (own, others): (Vec<_>, Vec<_>) = body.orders.drain(..).partition(|order| order.esercizio == year);
    let acquired = own.iter().filter(|order| order.state == State::Acquired);
    if acquired.flat_map(|order| &order.lines).any(|line| line.state == LineState::Waiting) {
        return refused(39);
    }
    (body.orders, body.closed) = (others, year);
    bytes.copy_from_slice(&table.encode());
    CloseAnswer { code: 0, removed: own.len() as u64 }
}
