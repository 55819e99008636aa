//! An engine that looks at a byte it was not lent: a trial of the guards and of a memory checker, which must stop it.

use reference::Notice;

use crate::engine::{Engine, Reference};

/// The reference, but for a byte beside the flow that it reads.
#[derive(Clone, Copy, Debug, PartialEq, Eq)]
pub enum Stray {
    /// It reads the byte after the flow's last.
    ReadsPast,
    /// It reads the byte before the flow's first.
    ReadsBefore,
}

impl Engine for Stray {
    fn name(&self) -> String {
        format!("the straying engine ({self:?})")
    }

    fn open(&self, request: &[u8], table: &mut [u8]) -> u64 {
        Reference.open(request, table)
    }

    fn convert(&self, old: &[u8], table: &mut [u8]) -> u64 {
        Reference.convert(old, table)
    }

    fn flow(
        &self,
        table: &mut [u8],
        edition: u64,
        flow: &[u8],
        outcomes: &mut [u8],
        place: &mut u64,
        orders: &mut u64,
        accepted: &mut u64,
        cause: &mut u64,
        steps: &mut u64,
    ) -> u64 {
        let beside = match self {
            Stray::ReadsPast => flow.as_ptr().wrapping_add(flow.len()),
            Stray::ReadsBefore => flow.as_ptr().wrapping_sub(1),
        };
        // SAFETY: none. This is the fault that a trial is to find: the read is stopped by a guard page or reported by a memory checker.
        let read = unsafe { beside.read_volatile() };
        // A memory checker may wait until a value is used.
        let flow = if read == 0 { &flow.to_vec() } else { flow };
        Reference.flow(table, edition, flow, outcomes, place, orders, accepted, cause, steps)
    }

    fn execute(&self, table: &mut [u8], body: &[u8], notice: &Notice, cents: &mut u64) -> u64 {
        Reference.execute(table, body, notice, cents)
    }

    fn reverse(&self, table: &mut [u8], body: &[u8], notice: &Notice, cents: &mut u64) -> u64 {
        Reference.reverse(table, body, notice, cents)
    }

    fn totals(&self, table: &[u8], body: &[u8], used: &mut u64, paid: &mut u64, collected: &mut u64, balance: &mut i64) -> u64 {
        Reference.totals(table, body, used, paid, collected, balance)
    }

    fn journal(&self, table: &[u8], body: &[u8], movements: &[u8]) -> u64 {
        Reference.journal(table, body, movements)
    }
}
