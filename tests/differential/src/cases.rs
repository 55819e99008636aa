//! Cases of every kind, from a generator.

use reference::{Body, Form, Kind, LineState, Notice, State, Table};

use crate::case::{Call, Case};
use crate::flows::{self, Size};
use crate::random::Random;
use crate::{messages, tables};

/// What a case is about.
#[derive(Clone, Copy, Debug, PartialEq, Eq)]
pub enum Theme {
    /// A flow without damage on a table with orders.
    WholeFlow,
    /// A flow damaged in one place.
    DamagedFlow,
    /// Any call on a table damaged in one field.
    DamagedTable,
    /// Notices and totals on a table with orders.
    Notices,
    /// An opening, whole or damaged.
    Opening,
    /// A conversion of a table 1, whole or damaged, and calls on what it leaves.
    Conversion,
    /// Tables after disk faults, one after another, each repaired, and calls on what that leaves.
    Salvage,
    /// Closes, and calls on what they leave, on a table with orders of several years.
    Closing,
    /// A fresh table and a long row of calls for all its bodies, years closed among them.
    Sequence,
    /// Messages written, read and written again.
    Messages,
    /// Everything changed in many places, or random bytes.
    Fuzz,
}

/// The themes of an ordinary run, each with its share.
const SHARES: [(Theme, usize); 10] = [
    (Theme::WholeFlow, 16),
    (Theme::DamagedFlow, 42),
    (Theme::DamagedTable, 20),
    (Theme::Notices, 8),
    (Theme::Opening, 12),
    (Theme::Conversion, 6),
    (Theme::Salvage, 12),
    (Theme::Closing, 10),
    (Theme::Sequence, 4),
    (Theme::Messages, 24),
];

/// The theme of an ordinary case.
pub fn theme(random: &mut Random) -> Theme {
    SHARES[random.weighted(&SHARES.map(|(_, share)| share))].0
}

/// A case of this theme.
pub fn case(random: &mut Random, theme: Theme) -> Case {
    match theme {
        Theme::WholeFlow => {
            let table = tables::valid(random);
            let calls = (0..1 + random.below(2)).map(|_| whole_flow(random, &table, Size::Any)).collect();
            Case { table: table.encode(), calls }
        }
        Theme::DamagedFlow => {
            let table = if random.percent(70) { tables::empty(random, 3, 4) } else { tables::valid(random) };
            let size = if random.percent(85) { Size::Few } else { Size::Any };
            let (edition, flow) = flows::damaged(random, &table, size);
            let room = flows::room(random, &flow);
            Case { table: table.encode(), calls: vec![Call::Flow { edition, flow, room }] }
        }
        Theme::DamagedTable => {
            let (table, bytes) = if random.percent(30) { tables::beyond(random) } else { tables::damaged(random) };
            let calls = (0..1 + random.below(3)).map(|_| call(random, &table)).collect();
            Case { table: bytes, calls }
        }
        Theme::Notices => {
            let table = tables::valid(random);
            let calls = (0..1 + random.below(8))
                .map(|_| match random.weighted(&[70, 15, 15]) {
                    0 => notice(random, &table),
                    1 => totals(random, &table),
                    _ => journal(random, &table),
                })
                .collect();
            Case { table: table.encode(), calls }
        }
        Theme::Opening => {
            let (request, room) = tables::opening(random);
            let mut calls = vec![Call::Open { request, room }];
            if random.percent(20) {
                let (request, room) = tables::opening(random);
                calls.push(Call::Open { request, room });
            }
            let table = tables::empty(random, 2, 2);
            calls.push(totals(random, &table));
            Case { table: Vec::new(), calls }
        }
        Theme::Conversion => {
            let (table, old, room) = tables::conversion(random);
            let mut calls = vec![Call::Convert { old, room }];
            calls.extend((0..random.below(4)).map(|_| call(random, &table)));
            Case { table: Vec::new(), calls }
        }
        Theme::Salvage => salvage(random),
        Theme::Closing => closing(random),
        Theme::Sequence => sequence(random),
        Theme::Messages => messages::case(random),
        Theme::Fuzz => fuzz(random),
    }
}

/// Damaged tables, each repaired, and now and then a call on what a repair has left.
fn salvage(random: &mut Random) -> Case {
    let mut calls = Vec::new();
    for _ in 0..24 + random.below(17) {
        let table = tables::to_be_damaged(random);
        let damaged = tables::after_fault(random, &table, true);
        let mut left = damaged.clone();
        let needed = 2 * table.bodies.len() + 4 * reference::salvage(&mut left, &mut [0; 2_740]).blanked as usize;
        let room = match random.weighted(&[50, 15, 15, 10, 10]) {
            0 => needed,
            1 => needed.saturating_sub(1),
            2 => needed + 1 + random.below(8),
            3 => 2_740,
            _ => random.below(needed + 1),
        };
        calls.push(Call::Salvage { damaged, room });
        if random.percent(15) {
            calls.push(call(random, &Table::decode(&left).unwrap_or(table)));
        }
    }
    Case { table: Vec::new(), calls }
}

/// A fresh table for several bodies, opened, converted or repaired, and a long row of calls. Each call is chosen after the table that the calls
/// before have left.
pub fn sequence(random: &mut Random) -> Case {
    let mut opened = tables::empty(random, 5, 6);
    let room = opened.length();
    let beginning = random.weighted(&[60, 22, 18]);
    if beginning > 0 {
        tables::fill_all(random, &mut opened);
    }
    let mut table = opened.encode();
    let first = match beginning {
        0 => Call::Open { request: tables::request(&opened), room },
        1 => {
            tables::without_replaced(&mut opened);
            tables::without_closed(&mut opened);
            table = opened.encode();
            Call::Convert { old: opened.encode_as(Form::One), room }
        }
        _ => {
            let damaged = tables::after_fault(random, &opened, false);
            table.clone_from(&damaged);
            reference::salvage(&mut table, &mut [0; 2_740]);
            Call::Salvage { damaged, room: 2_740 }
        }
    };
    let mut calls = vec![first];
    let closes = random.percent(60);
    for _ in 0..10 + random.below(50) {
        let now = Table::decode(&table).expect("calls leave a valid table");
        if closes && random.percent(8) {
            // The end of a body's year: every line of it is executed, the year closed; other bodies' calls stand in between.
            for last in year_end(random, &now) {
                if random.percent(20) {
                    let between = call(random, &Table::decode(&table).expect("calls leave a valid table"));
                    made(&mut table, &between);
                    calls.push(between);
                }
                made(&mut table, &last);
                calls.push(last);
            }
        }
        let now = Table::decode(&table).expect("calls leave a valid table");
        let call = call(random, &now);
        made(&mut table, &call);
        calls.push(call);
    }
    Case { table: Vec::new(), calls }
}

/// Makes a call on a table, as far as it changes it.
pub fn made(table: &mut [u8], call: &Call) {
    match call {
        Call::Flow { edition, flow, room } => {
            reference::flow(table, *edition, flow, &mut vec![0; *room]);
        }
        Call::Execute { body, notice } => {
            reference::execute(table, body, notice);
        }
        Call::Reverse { body, notice } => {
            reference::reverse(table, body, notice);
        }
        Call::Close { body, year } => {
            reference::close(table, body, *year);
        }
        _ => {}
    }
}

/// The last calls of a body's year: its waiting lines executed, the year closed, and the slots that it frees filled again.
fn year_end(random: &mut Random, table: &Table) -> Vec<Call> {
    let mut bodies: Vec<&Body> = table.bodies.iter().filter(|body| !body.orders.is_empty()).collect();
    // One that is full has the most to gain.
    bodies.sort_by_key(|body| body.slots - body.orders.len());
    let Some(&known) = bodies.first().filter(|_| random.percent(70)).or(bodies.last()) else {
        return Vec::new();
    };
    let year = known.orders.iter().map(|order| order.esercizio).min().unwrap_or(2021);
    let mut calls = Vec::new();
    for order in known.orders.iter().filter(|order| order.esercizio == year && order.state == State::Acquired) {
        for (line, number) in order.lines.iter().zip(1..) {
            if line.state == LineState::Waiting && random.percent(97) {
                let notice = Notice {
                    kind: order.kind as u64,
                    esercizio: year.into(),
                    number: order.number.into(),
                    line: number,
                    date: (2021, 3, 3),
                };
                calls.push(Call::Execute { body: known.code.clone(), notice });
            }
        }
    }
    calls.push(Call::Close { body: known.code.clone(), year: year.into() });
    calls.push(Call::Totals { body: known.code.clone() });
    let (edition, flow) = flows::filling(random, &table.abi, known, (year + 1).min(2099));
    let room = flows::room(random, &flow);
    calls.push(Call::Flow { edition, flow, room });
    calls
}

/// Closes on a table with orders of several years, and other calls between them.
fn closing(random: &mut Random) -> Case {
    let table = tables::of_several_years(random);
    let mut after = table.encode();
    let mut calls = Vec::new();
    for _ in 0..2 + random.below(6) {
        let now = Table::decode(&after).expect("calls leave a valid table");
        let call = match random.weighted(&[60, 20, 20]) {
            0 => close(random, &now),
            1 => {
                let body = random.pick(&now.bodies);
                let year = *random.pick(&[2019, 2020, 2020, 2021, 2021, 2022]);
                let (edition, flow) = flows::filling(random, &now.abi, body, year);
                let room = flows::room(random, &flow);
                Call::Flow { edition, flow, room }
            }
            _ => call(random, &now),
        };
        made(&mut after, &call);
        calls.push(call);
    }
    Case { table: table.encode(), calls }
}

/// A close: mostly of the first year that a body has orders of.
fn close(random: &mut Random, table: &Table) -> Call {
    let body = body_code(random, table);
    let known = table.bodies.iter().find(|known| known.code == body);
    let orders = known.map_or(&[][..], |known| &known.orders);
    let first = orders.iter().map(|order| u64::from(order.esercizio)).min().unwrap_or(2021);
    let closed = known.map_or(0, |known| u64::from(known.closed));
    let year = match random.weighted(&[50, 15, 15, 12, 8]) {
        0 => first,
        1 => first + 1,
        2 => closed.saturating_sub(random.below(2) as u64),
        3 => *random.pick(&[0, 1999, 2000, 2019, 2020, 2021, 2022, 2099, 2100]),
        _ => first + *random.pick(&[1 << 8, 1 << 16, 1 << 32, 1 << 63]),
    };
    Call::Close { body, year }
}

/// A call on a table.
pub fn call(random: &mut Random, table: &Table) -> Call {
    match random.weighted(&[50, 4, 30, 8, 8, 5]) {
        0 => whole_flow(random, table, Size::Few),
        1 => {
            let (edition, flow) = flows::damaged(random, table, Size::Few);
            let room = flows::room(random, &flow);
            Call::Flow { edition, flow, room }
        }
        2 => notice(random, table),
        3 => totals(random, table),
        4 => journal(random, table),
        _ => close(random, table),
    }
}

fn whole_flow(random: &mut Random, table: &Table, size: Size) -> Call {
    let (edition, flow) = flows::whole(random, table, size);
    let room = flows::room(random, &flow);
    Call::Flow { edition, flow, room }
}

fn body_code(random: &mut Random, table: &Table) -> Vec<u8> {
    let code = random.pick(&table.bodies).code.clone();
    if random.percent(6) { flows::near_code(random, &code, false) } else { code }
}

fn totals(random: &mut Random, table: &Table) -> Call {
    Call::Totals { body: body_code(random, table) }
}

/// A cash journal: a body's executed lines in any order, and mostly one thing wrong with it.
fn journal(random: &mut Random, table: &Table) -> Call {
    let body = body_code(random, table);
    let mut listed: Vec<Vec<u8>> = Vec::new();
    if let Some(known) = table.bodies.iter().find(|known| known.code == body) {
        for order in &known.orders {
            for (line, number) in order.lines.iter().zip(1u8..) {
                let slip = if line.state == LineState::Replaced { 5 } else { 1 };
                if line.state == LineState::Executed || random.percent(slip) {
                    let mut movement = vec![order.kind as u8, number];
                    movement.extend(order.esercizio.to_be_bytes());
                    movement.extend(order.number.to_be_bytes());
                    movement.extend(line.amount.to_be_bytes());
                    listed.insert(random.below(listed.len() + 1), movement);
                }
            }
        }
    }
    if random.percent(70) && !listed.is_empty() {
        let at = random.below(listed.len());
        match random.below(5) {
            0 => drop(listed.remove(at)),
            1 => {
                let again = listed[at].clone();
                listed.insert(random.below(listed.len() + 1), again);
            }
            2 => {
                let mut again = listed[at].clone();
                again[15] ^= 1;
                listed.push(again);
            }
            3 => *random.pick_mut(&mut listed[at]) = random.byte(),
            _ => {
                let byte = random.pick_mut(&mut listed[at]);
                *byte = byte.wrapping_add(1);
            }
        }
    }
    let mut movements = listed.concat();
    match random.below(30) {
        0 => drop(movements.pop()),
        1 => movements.push(random.byte()),
        2 => movements.resize(65_536 + 16 * random.below(2), 1),
        _ => {}
    }
    Call::Journal { body, movements }
}

/// The date of a notice: mostly a TARGET day, else around a closing day, an edge of the served years, or no date.
fn date(random: &mut Random) -> (u64, u64, u64) {
    if random.percent(85) {
        return *random.pick(&[(2021, 3, 3), (2002, 1, 2), (2099, 12, 31), (2024, 2, 29), (2021, 4, 6), (2020, 12, 24)]);
    }
    let near =
        [(2021, 4, 2), (2021, 4, 5), (2023, 5, 1), (2023, 12, 25), (2023, 12, 26), (2024, 1, 1), (2001, 12, 31), (2100, 1, 4)];
    let (mut year, mut month, mut day) = match random.below(3) {
        0 => *random.pick(&near),
        _ => (random.between(2000, 2101), random.between(1, 12), random.between(1, 31)),
    };
    if random.percent(20) {
        let number = match random.below(3) {
            0 => &mut year,
            1 => &mut month,
            _ => &mut day,
        };
        *number = match random.below(3) {
            0 => *number + *random.pick(&[1 << 8, 1 << 16, 1 << 32, 1 << 63]),
            1 => *random.pick(&[0, 13, 29, 30, 31, 32, u64::MAX]),
            _ => random.next(),
        };
    }
    (year, month, day)
}

fn notice(random: &mut Random, table: &Table) -> Call {
    let body = body_code(random, table);
    let known = table.bodies.iter().find(|known| known.code == body);
    let mut notice = match known {
        Some(known) if !known.orders.is_empty() && random.percent(92) => {
            let order = random.pick(&known.orders);
            Notice {
                kind: order.kind as u64,
                esercizio: u64::from(order.esercizio),
                number: u64::from(order.number),
                line: random.between(1, order.lines.len() as u64),
                date: date(random),
            }
        }
        _ => Notice {
            kind: *random.pick(&[Kind::Mandato, Kind::Reversale]) as u64,
            esercizio: 2021,
            number: random.between(1, 30),
            line: 1,
            date: date(random),
        },
    };
    if random.percent(20) {
        let number = match random.below(4) {
            0 => &mut notice.kind,
            1 => &mut notice.esercizio,
            2 => &mut notice.number,
            _ => &mut notice.line,
        };
        *number = match random.below(6) {
            0 => *number + 1,
            1 => *number - 1,
            2 => *number + *random.pick(&[1 << 8, 1 << 16, 1 << 24, 1 << 32, 1 << 63]),
            3 => *random.pick(&[0, 1, 2, 3, 8, 9, 255, 256, 1999, 2100, 9_999_999, 10_000_000, u64::MAX]),
            4 => !*number,
            _ => random.next(),
        };
    }
    if random.percent(60) { Call::Execute { body, notice } } else { Call::Reverse { body, notice } }
}

/// A case of another theme changed in many places, or random bytes altogether.
fn fuzz(random: &mut Random) -> Case {
    if random.percent(10) {
        let mut bytes = |most: usize| -> Vec<u8> {
            let length = random.below(most);
            (0..length).map(|_| random.byte()).collect()
        };
        let (table, flow, body, request) = (bytes(1000), bytes(2000), bytes(20), bytes(100));
        let notice = Notice {
            kind: random.next(),
            esercizio: random.next(),
            number: random.next(),
            line: random.next(),
            date: (random.next(), random.next(), random.next()),
        };
        let room = random.below(70);
        let edition = 1 + random.next() % 2;
        let calls = vec![
            Call::Flow { edition, flow, room },
            Call::Execute { body: body.clone(), notice },
            Call::Reverse { body: body.clone(), notice },
            Call::Totals { body: body.clone() },
            Call::Open { request, room: table.len() },
            Call::Convert { old: table.clone(), room: table.len() + 16 },
            Call::Close { body, year: random.next() },
            Call::Salvage { damaged: table.clone(), room },
            Call::Read { edition: 1, message: table.clone(), room: 3_152 },
            Call::Rewrite { edition: 2, message: table.clone(), room: 100 },
        ];
        return Case { table, calls };
    }
    let theme = theme(random);
    let mut case = case(random, theme);
    if random.percent(30) && !case.table.is_empty() {
        for _ in 0..1 + random.below(6) {
            // Only where the layout still stands can a field be found; bytes can be changed anywhere.
            if Table::decode(&case.table).is_some() {
                tables::damage(random, &mut case.table);
            } else if !case.table.is_empty() {
                let place = random.below(case.table.len());
                case.table[place] = random.byte();
            }
        }
    }
    for call in &mut case.calls {
        let (bytes, most) = match call {
            Call::Flow { flow, .. } => (flow, 16),
            Call::Open { request, .. } => (request, 4),
            Call::Convert { old, .. } => (old, 4),
            Call::Salvage { damaged, .. } => (damaged, 4),
            Call::Execute { body, .. } | Call::Reverse { body, .. } | Call::Totals { body } | Call::Close { body, .. } => (body, 2),
            Call::Write { flow, outcomes, values, .. } => match random.below(4) {
                0 | 1 => (flow, 6),
                2 => (outcomes, 4),
                _ => (random.pick_mut(values), 4),
            },
            Call::Read { message, .. } | Call::Rewrite { message, .. } => (message, 16),
            Call::Journal { movements, .. } => (movements, 4),
        };
        if random.percent(70) {
            for _ in 0..1 + random.below(most) {
                flows::damage_bytes(random, bytes);
            }
        }
    }
    case
}
