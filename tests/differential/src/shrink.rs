//! Makes a failing case short.
//!
//! Every step proposes a shorter (or, at the same length, plainer) case and keeps it when it still fails: calls left out, bodies, slots,
//! orders and elements left out, bytes left out, texts and numbers made plain.

use std::time::{Duration, Instant};

use reference::table::{ENTRY, HEAD, SLOT, number_at};
use reference::{Edition, Form, LineState, Table, fields, markup, structure};

use crate::case::{Call, Case};
use crate::compare::Yard;
use crate::engine::Reference;
use crate::flows::{DECLARATION, MARK};
use crate::tables;

/// The shortest case that was found which still fails. `fails` is asked many times; after `limit` the best so far is given.
pub fn shortest(case: &Case, limit: Duration, fails: impl FnMut(&Case) -> bool) -> Case {
    let mut search = Search { best: case.clone(), fails, end: Instant::now() + limit, yard: Yard::default() };
    loop {
        let before = search.best.clone();
        search.drop_calls();
        search.fold_calls();
        search.shorten_table();
        search.shorten_calls();
        if search.best == before || search.is_over() {
            return search.best;
        }
    }
}

struct Search<F> {
    best: Case,
    fails: F,
    end: Instant,
    yard: Yard,
}

/// What is made smaller: the length first, then how much of it is not plain, then the numbers.
fn weight(case: &Case) -> (usize, usize, u128) {
    let plain = |bytes: &[u8]| bytes.iter().filter(|byte| !b"\x000Rx ".contains(byte)).count();
    let calls = case.calls.iter().map(|call| match call {
        Call::Open { request, room } => (plain(request), *room as u128),
        Call::Convert { old, room } => (plain(old), *room as u128),
        Call::Salvage { damaged, room } => (plain(damaged), *room as u128),
        Call::Flow { edition, flow, room } => (plain(flow), u128::from(*edition) + *room as u128),
        Call::Execute { body, notice } | Call::Reverse { body, notice } => {
            let (year, month, day) = notice.date;
            let numbers = [notice.kind, notice.esercizio, notice.number, notice.line, year, month, day];
            (plain(body), numbers.map(u128::from).iter().sum())
        }
        Call::Totals { body } => (plain(body), 0),
        Call::Write { edition, flow, outcomes, values, room } => {
            let values = values.iter().map(|value| plain(value)).sum::<usize>();
            (plain(flow) + plain(outcomes) + values, u128::from(*edition) + *room as u128)
        }
        Call::Read { edition, message, room } | Call::Rewrite { edition, message, room } => {
            (plain(message), u128::from(*edition) + *room as u128)
        }
        Call::Journal { body, movements } => (plain(body) + plain(movements), 0),
        Call::Close { body, year } => (plain(body), u128::from(*year)),
    });
    let (untidy, numbers) = calls.fold((plain(&case.table), 0), |sum, call| (sum.0 + call.0, sum.1 + call.1));
    (case.cost(), untidy, numbers)
}

impl<F: FnMut(&Case) -> bool> Search<F> {
    fn is_over(&self) -> bool {
        Instant::now() >= self.end
    }

    /// Keeps the candidate when it is smaller and fails.
    fn propose(&mut self, candidate: Case) -> bool {
        let better = !self.is_over() && weight(&candidate) < weight(&self.best) && (self.fails)(&candidate);
        if better {
            self.best = candidate;
        }
        better
    }

    /// Proposes the best case with one thing changed.
    fn change(&mut self, change: impl FnOnce(&mut Case)) -> bool {
        let mut candidate = self.best.clone();
        change(&mut candidate);
        self.propose(candidate)
    }

    fn drop_calls(&mut self) {
        let mut size = self.best.calls.len();
        while size > 0 {
            let mut from = 0;
            while from < self.best.calls.len() {
                let to = (from + size).min(self.best.calls.len());
                if !self.change(|case| drop(case.calls.drain(from..to))) {
                    from += size;
                }
            }
            size /= 2;
        }
    }

    /// Takes the table that the first calls leave for the case's table, or an opening for a table that is as opened.
    fn fold_calls(&mut self) {
        let mut tables = Vec::new();
        let mut table = self.best.table.clone();
        for call in &self.best.calls {
            let _ = self.yard.serve(&Reference, &mut table, call);
            tables.push(table.clone());
        }
        for (index, table) in tables.into_iter().enumerate().rev() {
            let calls = self.best.calls[index + 1..].to_vec();
            if self.propose(Case { table, calls }) {
                break;
            }
        }
        if let Some(table) = Table::decode(&self.best.table)
            && table.bodies.iter().all(|body| body.orders.is_empty() && body.closed == 0)
        {
            let opening = Call::Open { request: tables::request(&table), room: table.length() };
            self.change(|case| {
                case.table.clear();
                case.calls.insert(0, opening);
            });
        }
    }

    fn shorten_table(&mut self) {
        // Bodies, then slots, by the layout; the fields that count them keep what is wrong with them.
        let mut body = 0;
        while body < count_of_bodies(&self.best.table) {
            let shorter = without_body(&self.best.table, body);
            if !shorter.is_some_and(|table| self.change(|case| case.table = table)) {
                body += 1;
            }
        }
        for body in 0..count_of_bodies(&self.best.table) {
            let mut slot = 0;
            while let Some(table) = without_slot(&self.best.table, body, slot) {
                if self.is_over() {
                    return;
                }
                if !self.change(|case| case.table = table) {
                    slot += 1;
                }
            }
        }
        self.plainer_orders();
        // Stretches of zeros, then single bytes.
        for size in [SLOT, 16, 8, 1] {
            for from in (0..self.best.table.len()).step_by(size) {
                let to = (from + size).min(self.best.table.len());
                if self.best.table[from..to].iter().any(|&byte| byte != 0) {
                    self.change(|case| case.table[from..to].fill(0));
                }
            }
        }
        if count_of_bodies(&self.best.table) == 0 || self.best.table.len() % 32 != 16 {
            self.drop_bytes(|case| &mut case.table);
        }
    }

    /// The records of a valid table with fewer lines and lower numbers.
    fn plainer_orders(&mut self) {
        let Some(table) = Table::decode(&self.best.table) else {
            return;
        };
        for body in 0..table.bodies.len() {
            for year in [0, 2000] {
                let Some(mut table) = Table::decode(&self.best.table) else {
                    return;
                };
                table.bodies[body].closed = year;
                self.change(|case| case.table = table.encode());
            }
            for order in 0..table.bodies[body].orders.len() {
                for step in 0..12 {
                    let Some(mut table) = Table::decode(&self.best.table) else {
                        return;
                    };
                    let Some(record) = table.bodies.get_mut(body).and_then(|body| body.orders.get_mut(order)) else {
                        return;
                    };
                    match step {
                        0..8 if record.lines.len() > 1 => drop(record.lines.pop()),
                        8 => record.lines.iter_mut().for_each(|line| line.amount = 0),
                        9 => record.number = 1,
                        10 => record.lines.iter_mut().for_each(|line| line.state = LineState::Waiting),
                        _ => record.esercizio = 2000,
                    }
                    record.total = record.lines.iter().map(|line| line.amount).sum();
                    self.change(|case| case.table = table.encode());
                }
            }
        }
    }

    fn shorten_calls(&mut self) {
        for index in 0..self.best.calls.len() {
            match self.best.calls[index].clone() {
                Call::Open { .. } => self.shorten_opening(index),
                Call::Flow { .. } => self.shorten_flow(index),
                Call::Execute { .. } | Call::Reverse { .. } => self.shorten_notice(index),
                Call::Convert { .. } => self.shorten_conversion(index),
                Call::Salvage { .. } => self.shorten_salvage(index),
                Call::Close { .. } => self.shorten_close(index),
                Call::Totals { .. } | Call::Journal { .. } => {}
                Call::Write { .. } => {
                    self.shorten_room(index);
                    self.shorten_writing(index);
                }
                Call::Read { .. } | Call::Rewrite { .. } => {
                    self.shorten_room(index);
                    self.shorten_markup(index);
                }
            }
            self.drop_bytes(|case| match &mut case.calls[index] {
                Call::Open { request, .. } => request,
                Call::Convert { old, .. } => old,
                Call::Salvage { damaged, .. } => damaged,
                Call::Flow { flow, .. } | Call::Write { flow, .. } => flow,
                Call::Execute { body, .. } | Call::Reverse { body, .. } | Call::Totals { body } | Call::Close { body, .. } => body,
                Call::Read { message, .. } | Call::Rewrite { message, .. } => message,
                Call::Journal { movements, .. } => movements,
            });
        }
    }

    /// Leaves bytes out, long stretches first.
    fn drop_bytes(&mut self, bytes: impl Fn(&mut Case) -> &mut Vec<u8>) {
        let mut size = bytes(&mut self.best).len().next_power_of_two();
        while size > 0 {
            let mut from = 0;
            while from < bytes(&mut self.best).len() && !self.is_over() {
                let to = (from + size).min(bytes(&mut self.best).len());
                if !self.change(|case| drop(bytes(case).drain(from..to))) {
                    from += size;
                }
            }
            size /= 2;
        }
    }

    fn shorten_opening(&mut self, index: usize) {
        let entries = |case: &Case| match &case.calls[index] {
            Call::Open { request, .. } => request.len().saturating_sub(5) / 20,
            _ => 0,
        };
        let mut entry = 0;
        while entry < entries(&self.best) {
            let dropped = self.change(|case| {
                if let Call::Open { request, room } = &mut case.calls[index] {
                    let at = 5 + 20 * entry;
                    let slots = number_at(request, at + 18, 2) as usize;
                    *room = room.saturating_sub(ENTRY + SLOT * slots);
                    request.drain(at..at + 20);
                }
            });
            if !dropped {
                entry += 1;
            }
        }
        for entry in 0..entries(&self.best) {
            for slots in [1, 2, 3] {
                self.change(|case| {
                    if let Call::Open { request, room } = &mut case.calls[index] {
                        let at = 5 + 20 * entry + 18;
                        let old = number_at(request, at, 2) as usize;
                        *room = (*room + SLOT * slots).saturating_sub(SLOT * old);
                        request[at..at + 2].copy_from_slice(&(slots as u16).to_be_bytes());
                    }
                });
            }
        }
    }

    /// The old table with fewer bodies, slots and orders, where it is valid; the buffer follows it.
    fn shorten_conversion(&mut self, index: usize) {
        let shorter = |old: &[u8], step: usize| {
            let mut table = Table::decode_as(old, Form::One)?;
            let bodies = table.bodies.len();
            match step.checked_sub(bodies) {
                None if bodies > 1 => drop(table.bodies.remove(step)),
                None => return None,
                Some(body) => {
                    let body = table.bodies.get_mut(body)?;
                    body.slots = body.slots.saturating_sub(body.slots.div_ceil(2)).max(1);
                    body.orders.truncate(body.slots);
                }
            }
            Some(table)
        };
        let mut step = 0;
        while step < 2 * 16 {
            let Call::Convert { old, room } = self.best.calls[index].clone() else { return };
            let changed = shorter(&old, step).is_some_and(|table| {
                let before = Table::decode_as(&old, Form::One).map_or(0, |table| table.length());
                let call = Call::Convert { old: table.encode_as(Form::One), room: (room + table.length()).saturating_sub(before) };
                self.change(|case| case.calls[index] = call)
            });
            if !changed {
                step += 1;
            }
        }
    }

    /// The damaged table with fewer bodies and slots and more zeros.
    fn shorten_salvage(&mut self, index: usize) {
        let damaged_of = |case: &Case| match &case.calls[index] {
            Call::Salvage { damaged, .. } => damaged.clone(),
            _ => Vec::new(),
        };
        let with = |case: &mut Case, table: Vec<u8>| {
            if let Call::Salvage { damaged, .. } = &mut case.calls[index] {
                *damaged = table;
            }
        };
        let mut body = 0;
        while body < count_of_bodies(&damaged_of(&self.best)) && !self.is_over() {
            let shorter = without_body(&damaged_of(&self.best), body);
            if !shorter.is_some_and(|table| self.change(|case| with(case, table))) {
                body += 1;
            }
        }
        for body in 0..count_of_bodies(&damaged_of(&self.best)) {
            let mut slot = 0;
            while let Some(table) = without_slot(&damaged_of(&self.best), body, slot)
                && !self.is_over()
            {
                if !self.change(|case| with(case, table)) {
                    slot += 1;
                }
            }
        }
        for size in [SLOT, 8, 1] {
            let length = damaged_of(&self.best).len();
            for from in (0..length).step_by(size) {
                let mut table = damaged_of(&self.best);
                table[from..(from + size).min(length)].fill(0);
                self.change(|case| with(case, table));
            }
        }
        self.shorten_room(index);
    }

    fn shorten_flow(&mut self, index: usize) {
        self.shorten_markup(index);
        let Call::Flow { flow, .. } = &self.best.calls[index] else { return };
        let orders = 16 * crate::flows::orders_in(flow);
        for smaller in [0, 1, orders, orders + 1, orders + 16] {
            self.change(|case| {
                if let Call::Flow { room, .. } = &mut case.calls[index] {
                    *room = smaller;
                }
            });
        }
    }

    /// The buffer that a call on a message or a repair writes.
    fn shorten_room(&mut self, index: usize) {
        for smaller in [0, 1, 4, 8, 16, 176, 2_000] {
            self.change(|case| {
                if let Call::Write { room, .. }
                | Call::Read { room, .. }
                | Call::Rewrite { room, .. }
                | Call::Salvage { room, .. } = &mut case.calls[index]
                {
                    *room = smaller;
                }
            });
        }
    }

    /// What a message is written from: orders left out with their outcomes, then values and flow made plain.
    fn shorten_writing(&mut self, index: usize) {
        let mut order = 0;
        loop {
            let Call::Write { flow, outcomes, .. } = &self.best.calls[index] else { return };
            let mut orders = elements(flow);
            orders.retain(|element| [&b"<mandato>"[..], b"<reversale>"].iter().any(|tag| flow[element.clone()].starts_with(tag)));
            let Some(element) = orders.get(order).cloned() else { break };
            let outcome = (16 * order).min(outcomes.len())..(16 * order + 16).min(outcomes.len());
            let dropped = self.change(|case| {
                if let Call::Write { flow, outcomes, .. } = &mut case.calls[index] {
                    flow.drain(element);
                    outcomes.drain(outcome);
                }
            });
            if !dropped {
                order += 1;
            }
        }
        for place in 0..9 {
            for plain in [&b""[..], b"x", b"2000-01-01T00:00:00Z"] {
                self.change(|case| {
                    if let Call::Write { values, .. } = &mut case.calls[index] {
                        values[place] = plain.to_vec();
                    }
                });
            }
        }
        self.shorten_markup(index);
    }

    /// The markup of a flow or a message made plain and shorter.
    fn shorten_markup(&mut self, index: usize) {
        let markup_of = |case: &Case| match &case.calls[index] {
            Call::Flow { flow, .. } | Call::Write { flow, .. } => flow.clone(),
            Call::Read { message, .. } | Call::Rewrite { message, .. } => message.clone(),
            _ => Vec::new(),
        };
        let with = |case: &mut Case, new: Vec<u8>| match &mut case.calls[index] {
            Call::Flow { flow, .. } => *flow = new,
            Call::Write { edition, flow, outcomes, .. } => {
                // Outcome bytes that are this flow's stay so.
                if refitted(*edition, flow, outcomes).is_some_and(|fitting| outcomes.starts_with(&fitting)) {
                    *outcomes = refitted(*edition, &new, outcomes).unwrap_or_default();
                }
                *flow = new;
            }
            Call::Read { message, .. } | Call::Rewrite { message, .. } => *message = new,
            _ => {}
        };
        for part in [MARK, DECLARATION] {
            if let Some(rest) = markup_of(&self.best).strip_prefix(part) {
                self.change(|case| with(case, rest.to_vec()));
            }
        }
        // Texts made plain, all of one name together, so that sums stay sums.
        for (name, plain) in [
            ("importo", "0.00"),
            ("anagrafica_", "R"),
            ("numero_", "1"),
            ("identificativo_", "R"),
            ("data_mandato", "2000-01-01"),
            ("data_reversale", "2000-01-01"),
            ("data_ora", "2000-01-01T00:00:00"),
            ("data_ora", "2000-01-01T00:00:00Z"),
            ("esercizio", "2000"),
            ("codice_", "R"),
            ("descrizione_", "R"),
        ] {
            let markup = with_texts(&markup_of(&self.best), name.as_bytes(), plain.as_bytes());
            self.change(|case| with(case, markup));
        }
        // Elements left out, the longest first.
        let mut rank = 0;
        loop {
            let markup = markup_of(&self.best);
            let mut elements = elements(&markup);
            elements.sort_by_key(|element| std::cmp::Reverse(element.len()));
            let Some(element) = elements.get(rank).cloned() else { break };
            if self.is_over() {
                return;
            }
            let without = [&markup[..element.start], &markup[element.end..]].concat();
            if !self.change(|case| with(case, without)) {
                rank += 1;
            }
        }
    }

    fn shorten_close(&mut self, index: usize) {
        for smaller in [|_| 0, |_| 2000, |year: u64| year & 0xFFFF, |year: u64| year.saturating_sub(1)] {
            self.change(|case| {
                if let Call::Close { year, .. } = &mut case.calls[index] {
                    *year = smaller(*year);
                }
            });
        }
    }

    fn shorten_notice(&mut self, index: usize) {
        for number in 0..7 {
            for smaller in [|_| 0, |_| 1, |number: u64| number & 0xFFFF, |number| number / 2] {
                self.change(|case| {
                    if let Call::Execute { notice, .. } | Call::Reverse { notice, .. } = &mut case.calls[index] {
                        let (year, month, day) = &mut notice.date;
                        let named =
                            [&mut notice.kind, &mut notice.esercizio, &mut notice.number, &mut notice.line, year, month, day];
                        for (_, value) in named.into_iter().enumerate().filter(|(place, _)| *place == number) {
                            *value = smaller(*value);
                        }
                    }
                });
            }
        }
    }
}

fn count_of_bodies(table: &[u8]) -> usize {
    if table.len() < HEAD { 0 } else { (number_at(table, 0, 2) as usize).min((table.len() - HEAD) / ENTRY) }
}

fn lower(table: &mut [u8], at: usize, width: usize, by: usize) {
    let value = number_at(table, at, width).wrapping_sub(by as u64);
    table[at..at + width].copy_from_slice(&value.to_be_bytes()[8 - width..]);
}

/// Where a body's slots begin when they follow one another as the entries say.
fn slots_before(table: &[u8], body: usize) -> usize {
    (0..body).map(|body| number_at(table, HEAD + ENTRY * body + 18, 2) as usize).sum()
}

/// The table without a body: its entry and slots left out, what counts them lowered.
fn without_body(table: &[u8], body: usize) -> Option<Vec<u8>> {
    let bodies = count_of_bodies(table);
    let slots = number_at(table, HEAD + ENTRY * body + 18, 2) as usize;
    let from = HEAD + ENTRY * bodies + SLOT * slots_before(table, body);
    let to = from + SLOT * slots;
    if to > table.len() {
        return None;
    }
    let mut shorter = table.to_vec();
    lower(&mut shorter, 0, 2, 1);
    lower(&mut shorter, 4, 4, ENTRY + to - from);
    for other in 0..bodies {
        let less = if other > body { ENTRY + to - from } else { ENTRY };
        lower(&mut shorter, HEAD + ENTRY * other + 20, 4, less);
    }
    shorter.drain(from..to);
    shorter.drain(HEAD + ENTRY * body..HEAD + ENTRY * (body + 1));
    Some(shorter)
}

/// The table without one of a body's slots.
fn without_slot(table: &[u8], body: usize, slot: usize) -> Option<Vec<u8>> {
    let bodies = count_of_bodies(table);
    if body >= bodies || slot >= number_at(table, HEAD + ENTRY * body + 18, 2) as usize {
        return None;
    }
    let from = HEAD + ENTRY * bodies + SLOT * (slots_before(table, body) + slot);
    if from + SLOT > table.len() {
        return None;
    }
    let mut shorter = table.to_vec();
    lower(&mut shorter, 4, 4, SLOT);
    lower(&mut shorter, HEAD + ENTRY * body + 18, 2, 1);
    for other in body + 1..bodies {
        lower(&mut shorter, HEAD + ENTRY * other + 20, 4, SLOT);
    }
    shorter.drain(from..from + SLOT);
    Some(shorter)
}

/// The outcome bytes of a flow's orders with the codes that these have; `None` where the flow can't be read.
fn refitted(edition: u64, flow: &[u8], outcomes: &[u8]) -> Option<Vec<u8>> {
    let edition = Edition::numbered(edition)?;
    let root = markup::read(flow, edition == Edition::Opi)?;
    let read = fields::read(&structure::read(&root, edition)?, edition).ok()?;
    let codes = outcomes.chunks(16).map(|outcome| outcome.get(2).copied().unwrap_or_default());
    let refitted = read.orders.iter().zip(codes).flat_map(|(order, code)| {
        let first = [order.kind as u8, order.operation as u8, code, order.lines.len() as u8];
        [&first[..], &order.number.to_be_bytes(), &order.total.to_be_bytes()].concat()
    });
    Some(refitted.collect())
}

/// The elements of a flow, as far as its tags agree.
fn elements(flow: &[u8]) -> Vec<std::ops::Range<usize>> {
    let mut found = Vec::new();
    let mut open: Vec<(&[u8], usize)> = Vec::new();
    let mut at = 0;
    while let Some(ahead) = flow[at..].iter().position(|&byte| byte == b'<') {
        let start = at + ahead;
        let Some(length) = flow[start..].iter().position(|&byte| byte == b'>') else {
            break;
        };
        let end = start + length + 1;
        let inside = &flow[start + 1..end - 1];
        if let Some(name) = inside.strip_prefix(b"/") {
            if let Some(place) = open.iter().rposition(|(other, _)| *other == name) {
                found.push(open[place].1..end);
                open.truncate(place);
            }
        } else {
            open.push((inside, start));
        }
        at = end;
    }
    found
}

/// The flow with the text of all elements whose name begins so replaced.
fn with_texts(flow: &[u8], name: &[u8], text: &[u8]) -> Vec<u8> {
    let mut changed = Vec::new();
    let mut rest = flow;
    let tag = [b"<", name].concat();
    while let Some(at) = rest.windows(tag.len()).position(|window| window == tag) {
        let Some(from) = rest[at..].iter().position(|&byte| byte == b'>').map(|length| at + length + 1) else {
            break;
        };
        let Some(to) = rest[from..].iter().position(|&byte| byte == b'<').map(|length| from + length) else {
            break;
        };
        changed.extend(&rest[..from]);
        changed.extend(if rest[to..].starts_with(b"</") { text } else { &rest[from..to] });
        rest = &rest[to..];
    }
    changed.extend(rest);
    changed
}
