//! Condition 3, tried: whatever other bodies call in between, each body is served as if it were alone.

use reference::table::{ENTRY, HEAD, SLOT, number_at};
use reference::{Edition, Table, fields, markup, structure, target};

use crate::case::{Call, Case};
use crate::compare::{Difference, Served, Yard};
use crate::engine::Engine;

/// The body that a call names, as its place in the contents; `None` for a call that names no body of the table.
pub fn owner(table: &Table, call: &Call) -> Option<usize> {
    let place = |code: &[u8]| table.bodies.iter().position(|body| body.code == code);
    match call {
        Call::Open { .. }
        | Call::Convert { .. }
        | Call::Salvage { .. }
        | Call::Write { .. }
        | Call::Read { .. }
        | Call::Rewrite { .. } => None,
        Call::Execute { body, notice } | Call::Reverse { body, notice } => {
            if target::day(notice.date) == target::Day::Open {
                place(body)
            } else {
                None
            }
        }
        Call::Totals { body } | Call::Journal { body, .. } | Call::Close { body, .. } => place(body),
        Call::Flow { edition, flow, .. } => {
            let edition = Edition::numbered(*edition)?;
            if flow.len() > reference::LONGEST_FLOW {
                return None;
            }
            let root = markup::read(flow, edition == Edition::Opi)?;
            let flow = fields::read(&structure::read(&root, edition)?, edition).ok()?;
            if flow.abi == table.abi { place(&flow.body) } else { None }
        }
    }
}

impl Yard {
    /// Tries one row of calls on a fresh table three ways: as it stands, body after body in contents order, and each body alone. The
    /// case begins with an opening, a conversion or a repair; nothing is tried when that is refused.
    pub fn isolated(&mut self, engine: &dyn Engine, case: &Case) -> Option<Difference> {
        let (opening, calls) = case.calls.split_first()?;
        let mut fresh = Vec::new();
        let opened = self.serve(engine, &mut fresh, opening).ok()?;
        let begins = |call: &Call| matches!(call, Call::Open { .. } | Call::Convert { .. } | Call::Salvage { .. });
        if !begins(opening) || opened.answer.code() != 0 || calls.iter().any(begins) {
            return None;
        }
        let contents = Table::decode(&fresh)?;
        let owners: Vec<_> = calls.iter().map(|call| owner(&contents, call)).collect();

        // As the calls stand.
        let mut mixed = fresh.clone();
        let mut answers: Vec<Served> = Vec::new();
        for (index, call) in calls.iter().enumerate() {
            let before = mixed.clone();
            match self.serve(engine, &mut mixed, call) {
                Ok(served) => answers.push(served),
                Err(what) => return Some(Difference { call: index + 1, what }),
            }
            if owners[index].is_none() && mixed != before {
                return differs(index, "it names no body and changes the table");
            }
        }

        // Body after body, in contents order; then the calls that name none.
        let mut ordered = fresh.clone();
        for body in (0..contents.bodies.len()).map(Some).chain([None]) {
            for index in (0..calls.len()).filter(|&index| owners[index] == body) {
                if self.serve(engine, &mut ordered, &calls[index]).ok().as_ref() != Some(&answers[index]) {
                    return differs(index, "it is answered otherwise when the bodies are served one after another");
                }
            }
        }
        if ordered != mixed {
            return differs(
                calls.len().saturating_sub(1),
                "the final table is another when the bodies are served one after another",
            );
        }

        // Each body alone: its answers and records are the same, and every other byte is as opened.
        for body in 0..contents.bodies.len() {
            let mut alone = fresh.clone();
            for index in (0..calls.len()).filter(|&index| owners[index] == Some(body)) {
                if self.serve(engine, &mut alone, &calls[index]).ok().as_ref() != Some(&answers[index]) {
                    return differs(index, "it is answered otherwise when its body alone calls");
                }
            }
            let mut expected = fresh.clone();
            for own in owned(&fresh, body) {
                expected[own.clone()].copy_from_slice(&mixed[own]);
            }
            if alone != expected {
                return differs(calls.len().saturating_sub(1), "a body's records are others when it alone calls");
            }
        }

        // A call that names no body has the same answer at any moment, so at the first.
        let mut untouched = fresh.clone();
        for index in (0..calls.len()).filter(|&index| owners[index].is_none()) {
            if self.serve(engine, &mut untouched, &calls[index]).ok().as_ref() != Some(&answers[index]) {
                return differs(index, "it names no body and is answered otherwise at another moment");
            }
        }
        None
    }
}

fn differs(index: usize, what: &str) -> Option<Difference> {
    Some(Difference { call: index + 1, what: format!("isolation: {what}") })
}

/// What a body owns: its entry from byte 24 on, and its slots.
fn owned(table: &[u8], body: usize) -> [std::ops::Range<usize>; 2] {
    let entry = HEAD + ENTRY * body;
    let from = number_at(table, entry + 20, 4) as usize;
    [entry + 24..entry + ENTRY, from..from + SLOT * number_at(table, entry + 18, 2) as usize]
}
