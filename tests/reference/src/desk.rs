//! The calls on a table.

use crate::fields::{self, FlowLine, FlowOrder, Operation};
use crate::table::{Body, Form, Kind, Line, LineState, Order, State, Table, number_at};
use crate::{Edition, LONGEST_FLOW, MOST_ORDERS, OUTCOME, markup, structure, target};
use std::collections::{HashMap, HashSet};

/// The answer to a flow.
#[derive(Clone, Copy, Debug, Default, PartialEq, Eq)]
pub struct FlowAnswer {
    /// 0, or the refusal's code.
    pub code: u64,
    /// The place of the field that breaks with code 5, else 0.
    pub place: u64,
    /// How many orders the flow holds.
    pub orders: u64,
    /// How many of them got outcome code 0.
    pub accepted: u64,
    /// What is wrong with the field that breaks with code 5, 1 to 4, else 0.
    pub cause: u64,
    /// How many slots the searches for its orders looked at.
    pub steps: u64,
}

/// What a notice of execution or reversal names, besides the body.
#[derive(Clone, Copy, Debug, Default, PartialEq, Eq)]
pub struct Notice {
    /// 1 mandato, 2 reversale; anything else matches no order.
    pub kind: u64,
    /// The year of the books.
    pub esercizio: u64,
    /// The order's number.
    pub number: u64,
    /// The line, counted from 1.
    pub line: u64,
    /// Its date: year, month, day.
    pub date: (u64, u64, u64),
}

/// The answer to a notice.
#[derive(Clone, Copy, Debug, Default, PartialEq, Eq)]
pub struct NoticeAnswer {
    /// 0, or the refusal's code.
    pub code: u64,
    /// The line's amount, 0 on refusal.
    pub cents: u64,
}

/// A body's totals.
#[derive(Clone, Copy, Debug, Default, PartialEq, Eq)]
pub struct Totals {
    /// 0, 1 or 7.
    pub code: u64,
    /// The used slots.
    pub used: u64,
    /// Cents of executed mandato lines.
    pub paid: u64,
    /// Cents of executed reversale lines.
    pub collected: u64,
    /// Collected less paid.
    pub balance: i64,
}

/// The step table: one row per operation, one column per situation of the order's record: absent; annulled; acquired with all lines
/// waiting; acquired with a line executed or replaced. A SOSTITUZIONE takes the row of an INSERIMENTO.
pub const STEPS: [[u8; 4]; 3] = [[0, 14, 14, 14], [16, 17, 0, 18], [16, 17, 0, 18]];

/// Opens a table: writes it into a buffer of exactly the needed length, every slot empty. The answer is a code.
pub fn open(request: &[u8], table: &mut [u8]) -> u64 {
    let Some(opened) = opened(request) else {
        return 9;
    };
    if table.len() != opened.length() {
        return 10;
    }
    table.copy_from_slice(&opened.encode());
    0
}

/// The table that a request asks for; `None` when something in it is wrong.
fn opened(request: &[u8]) -> Option<Table> {
    let (abi, rest) = request.split_at_checked(5)?;
    let entries = rest.chunks_exact(20);
    if !entries.remainder().is_empty() {
        return None;
    }
    let mut bodies = Vec::new();
    for entry in entries {
        let (code, after) = entry[1..17].split_at_checked(usize::from(entry[0]))?;
        if after.iter().any(|&byte| byte != 0) || entry[17] != 0 {
            return None;
        }
        bodies.push(Body { code: code.to_vec(), slots: number_at(entry, 18, 2) as usize, closed: 0, orders: Vec::new() });
    }
    let table = Table { abi: abi.try_into().ok()?, bodies };
    table.stands().then_some(table)
}

/// Converts a table 1: writes it as a table 2 into a buffer of exactly the needed length. The answer is a code.
pub fn convert(old: &[u8], table: &mut [u8]) -> u64 {
    let Some(converted) = Table::decode_as(old, Form::One) else {
        return 1;
    };
    if table.len() != converted.length() {
        return 10;
    }
    table.copy_from_slice(&converted.encode());
    0
}

/// The request that opens a table for these bodies (code, slots). Nothing is checked; a code longer than 16 bytes is cut.
pub fn request(abi: &[u8; 5], bodies: &[(&[u8], u16)]) -> Vec<u8> {
    let mut request = abi.to_vec();
    for (code, slots) in bodies {
        let mut entry = [0; 20];
        entry[0] = code.len().min(255) as u8;
        for (place, byte) in entry[1..17].iter_mut().zip(*code) {
            *place = *byte;
        }
        entry[18..].copy_from_slice(&slots.to_be_bytes());
        request.extend(entry);
    }
    request
}

/// Takes a flow of the edition of that number: serves its orders one after another and writes 16 outcome bytes for each.
pub fn flow(table: &mut [u8], edition: u64, flow: &[u8], outcomes: &mut [u8]) -> FlowAnswer {
    match taken(table, edition, flow, outcomes.len()) {
        Err(Refused { code, place, cause }) => FlowAnswer { code, place: place as u64, cause, ..FlowAnswer::default() },
        Ok((changed, written, steps)) => {
            table.copy_from_slice(&changed.encode());
            outcomes[..written.len()].copy_from_slice(&written);
            let codes = written.chunks(OUTCOME).map(|outcome| outcome[2]);
            let orders = codes.len() as u64;
            FlowAnswer { orders, accepted: codes.filter(|&code| code == 0).count() as u64, steps, ..FlowAnswer::default() }
        }
    }
}

/// A flow's refusal. Only a field that breaks has a place and a cause.
struct Refused {
    code: u64,
    place: usize,
    cause: u64,
}

fn refused(code: u64) -> Refused {
    Refused { code, place: 0, cause: 0 }
}

/// The table after the flow, the outcome bytes and the steps of the searches, or the refusal.
fn taken(table: &[u8], edition: u64, flow: &[u8], room: usize) -> Result<(Table, Vec<u8>, u64), Refused> {
    let mut table = Table::decode(table).ok_or(refused(1))?;
    let edition = Edition::numbered(edition).ok_or(refused(23))?;
    if flow.len() > LONGEST_FLOW {
        return Err(refused(2));
    }
    let root = markup::read(flow, edition == Edition::Opi).ok_or(refused(3))?;
    let raw = structure::read(&root, edition).ok_or(refused(4))?;
    let flow = fields::read(&raw, edition).map_err(|broken| Refused { code: 5, place: broken.at, cause: broken.cause as u64 })?;
    if flow.abi != table.abi {
        return Err(refused(6));
    }
    let body = table.body_mut(&flow.body).ok_or(refused(7))?;
    if body.has_closed(flow.esercizio) {
        return Err(refused(36));
    }
    debug_assert!((1..=MOST_ORDERS).contains(&flow.orders.len()));
    if room < OUTCOME * flow.orders.len() {
        return Err(refused(8));
    }
    let mut outcomes = Vec::new();
    let mut steps = 0;
    for order in &flow.orders {
        // Before the order is served: an accepted one changes what there is to look at.
        let looked = looked_at(body, flow.esercizio, order);
        let code = serve(body, flow.esercizio, order);
        if !matches!(code, 12 | 13) {
            steps += looked;
        }
        outcomes.extend([order.kind as u8, order.operation as u8, code, order.lines.len() as u8]);
        outcomes.extend(order.number.to_be_bytes());
        outcomes.extend(order.total.to_be_bytes());
    }
    Ok((table, outcomes, steps))
}

/// How many slots a search for this order looks at: those up to and including its own, or all that are used.
fn looked_at(body: &Body, esercizio: u16, order: &FlowOrder) -> u64 {
    let others = body
        .orders
        .iter()
        .take_while(|record| (record.kind, record.esercizio, record.number) != (order.kind, esercizio, order.number));
    (others.count() + 1).min(body.orders.len()) as u64
}

/// Serves one order; the answer is its outcome code.
fn serve(body: &mut Body, esercizio: u16, order: &FlowOrder) -> u8 {
    let numbers = order.lines.iter().map(|line| line.progressivo);
    if !numbers.eq(1..=order.lines.len() as u16) {
        return 12;
    }
    if order.lines.iter().map(|line| line.amount).sum::<u64>() != order.total {
        return 13;
    }
    let record = body
        .orders
        .iter()
        .position(|record| record.kind == order.kind && record.esercizio == esercizio && record.number == order.number);
    let (row, state) = match order.operation {
        Operation::Sostituzione => (Operation::Inserimento, LineState::Executed),
        operation => (operation, LineState::Waiting),
    };
    let step = STEPS[row as usize - 1][situation(record.map(|at| &body.orders[at]))];
    if step != 0 {
        return step;
    }
    let lines = order.lines.iter().map(|line| Line { state, amount: line.amount });
    match record.map(|at| &mut body.orders[at]) {
        None => {
            // Marks are made on a copy, which is kept only when the whole order is accepted.
            let mut after = body.clone();
            for line in &order.lines {
                let code = replace(&mut after, order.kind, line);
                if code != 0 {
                    return code;
                }
            }
            if body.orders.len() == body.slots {
                return 15;
            }
            after.orders.push(Order {
                kind: order.kind,
                state: State::Acquired,
                esercizio,
                number: order.number,
                date: order.date,
                total: order.total,
                lines: lines.collect(),
            });
            *body = after;
        }
        Some(record) if order.operation == Operation::Variazione => {
            record.date = order.date;
            record.total = order.total;
            record.lines = lines.collect();
        }
        Some(record) => {
            // Every line of the record waits, so equal lines are equal amounts.
            if record.total != order.total || !lines.eq(record.lines.iter().copied()) {
                return 19;
            }
            record.state = State::Annulled;
        }
    }
    0
}

/// Marks the line that a new line replaces, where it names one; the answer is 0 or the refusal's code.
fn replace(body: &mut Body, kind: Kind, new: &FlowLine) -> u8 {
    let Some(named) = new.named else { return 0 };
    let order = body.orders.iter_mut().find(|order| order.key() == (kind, named.esercizio, named.number));
    let place = usize::from(named.line).checked_sub(1);
    let Some(line) = order.zip(place).and_then(|(order, place)| order.lines.get_mut(place)) else {
        return 24;
    };
    if line.state != LineState::Executed {
        return 25;
    }
    if line.amount != new.amount {
        return 26;
    }
    line.state = LineState::Replaced;
    0
}

/// The step table's column for a record.
fn situation(record: Option<&Order>) -> usize {
    match record {
        None => 0,
        Some(record) if record.state == State::Annulled => 1,
        Some(record) if record.waits() => 2,
        Some(_) => 3,
    }
}

/// Takes the bank's notice that a line is executed.
pub fn execute(table: &mut [u8], body: &[u8], notice: &Notice) -> NoticeAnswer {
    notified(table, body, notice, LineState::Executed)
}

/// Takes the bank's notice that an executed line is reversed.
pub fn reverse(table: &mut [u8], body: &[u8], notice: &Notice) -> NoticeAnswer {
    notified(table, body, notice, LineState::Waiting)
}

/// Brings the named line into a state: waiting lines are executed (else 21), executed ones reversed (else 22), replaced ones neither.
fn notified(bytes: &mut [u8], body: &[u8], notice: &Notice, to: LineState) -> NoticeAnswer {
    let refused = |code| NoticeAnswer { code, cents: 0 };
    let Some(mut table) = Table::decode(bytes) else {
        return refused(1);
    };
    match target::day(notice.date) {
        target::Day::Open => {}
        target::Day::Closing => return refused(28),
        target::Day::None => return refused(27),
    }
    let Some(body) = table.body_mut(body) else {
        return refused(7);
    };
    let named = |order: &&mut Order| {
        order.kind as u64 == notice.kind
            && u64::from(order.esercizio) == notice.esercizio
            && u64::from(order.number) == notice.number
    };
    let Some(order) = body.orders.iter_mut().find(named) else {
        return refused(16);
    };
    if order.state == State::Annulled {
        return refused(17);
    }
    if notice.line == 0 || notice.line > order.lines.len() as u64 {
        return refused(20);
    }
    let line = &mut order.lines[notice.line as usize - 1];
    match (line.state, to) {
        (LineState::Waiting, LineState::Executed) | (LineState::Executed, LineState::Waiting) => line.state = to,
        (_, LineState::Executed) => return refused(21),
        _ => return refused(22),
    }
    let cents = line.amount;
    bytes.copy_from_slice(&table.encode());
    NoticeAnswer { code: 0, cents }
}

/// Reports a body's totals.
pub fn totals(table: &[u8], body: &[u8]) -> Totals {
    let refused = |code| Totals { code, ..Totals::default() };
    let Some(table) = Table::decode(table) else {
        return refused(1);
    };
    let Some(body) = table.body(body) else {
        return refused(7);
    };
    let (paid, collected) = (body.cents(Kind::Mandato), body.cents(Kind::Reversale));
    Totals { code: 0, used: body.orders.len() as u64, paid, collected, balance: collected as i64 - paid as i64 }
}

/// Checks a cash journal's movements (document 02, Req 10): each executed line of the body is listed once, with its cents, and nothing else.
pub fn journal(table: &[u8], body: &[u8], movements: &[u8]) -> u64 {
    let Some(table) = Table::decode(table) else {
        return 1;
    };
    let Some(body) = table.body(body) else {
        return 7;
    };
    if !movements.len().is_multiple_of(16) || movements.len() / 16 > 4_096 {
        return 29;
    }
    // What is executed and not listed yet, and what is listed, by the eight bytes that name a line.
    let mut left = HashMap::new();
    let mut listed = HashSet::new();
    for order in &body.orders {
        for (line, number) in order.lines.iter().zip(1u8..) {
            if line.state == LineState::Executed {
                let mut name = vec![order.kind as u8, number];
                name.extend(order.esercizio.to_be_bytes());
                name.extend(order.number.to_be_bytes());
                left.insert(name, line.amount.to_be_bytes());
            }
        }
    }
    for movement in movements.chunks(16) {
        let (name, cents) = movement.split_at(8);
        match left.get(name) {
            None => return 30,
            Some(amount) if amount != cents => return 31,
            Some(_) if !listed.insert(name) => return 32,
            Some(_) => {}
        }
    }
    if listed.len() < left.len() { 33 } else { 0 }
}
