//! Tables and requests: valid ones, and ones damaged in one field.

use std::collections::HashSet;

use reference::table::{ENTRY, HEAD, SLOT, number_at};
use reference::{Body, Form, Kind, LineState, State, Table};

use crate::flows;
use crate::random::Random;

/// Codes that are easily taken for one another.
const CODES: [&str; 14] = [
    "000471",
    "471",
    "0471",
    "0000000000000471",
    "4710",
    "A",
    "a",
    "AA",
    "Z9z",
    "0",
    "00",
    "SCUOLA01",
    "scuola01",
    "zzzzzzzzzzzzzzzz",
];

/// The bodies of a table, with no orders yet. 000471 and 471 are often among them.
pub fn empty(random: &mut Random, most_bodies: usize, most_slots: usize) -> Table {
    let mut codes: Vec<Vec<u8>> = Vec::new();
    if random.percent(60) && most_bodies > 1 {
        codes.extend([b"000471".to_vec(), b"471".to_vec()]);
    }
    let count = (1 + random.below(most_bodies)).max(codes.len());
    while codes.len() < count {
        let code = if random.percent(70) {
            random.pick(&CODES).as_bytes().to_vec()
        } else {
            let length = 1 + random.below(16);
            (0..length).map(|_| *random.pick(b"0123456789AZaz")).collect()
        };
        if !codes.contains(&code) {
            codes.push(code);
        }
    }
    if random.percent(50) {
        let turn = random.below(codes.len());
        codes.rotate_left(turn);
    }
    let bodies =
        codes.into_iter().map(|code| Body { code, slots: 1 + random.below(most_slots), closed: 0, orders: Vec::new() }).collect();
    let abi = if random.percent(70) { *b"01234" } else { [0; 5].map(|_: u8| b'0' + random.below(10) as u8) };
    Table { abi, bodies }
}

/// A valid table with orders in every state.
pub fn valid(random: &mut Random) -> Table {
    let mut table = match random.weighted(&[80, 15, 3, 2]) {
        0 => empty(random, 4, 6),
        1 => empty(random, 16, 12),
        2 => empty(random, 2, 300),
        _ => {
            let mut large = empty(random, 2, 1);
            // Nearly, or exactly, as long as a table can be.
            let left = (reference::table::LONGEST - HEAD - ENTRY * large.bodies.len()) / SLOT;
            large.bodies[0].slots = left.min(512);
            if let Some(second) = large.bodies.get_mut(1) {
                second.slots = left - 512 - random.below(2);
            }
            large
        }
    };
    fill_all(random, &mut table);
    debug_assert!(table.stands());
    table
}

/// Orders in every state for every body, some of which have closed a year.
pub fn fill_all(random: &mut Random, table: &mut Table) {
    for body in &mut table.bodies {
        close_some(random, body);
        let count = match random.below(4) {
            0 => 0,
            1 => body.slots,
            _ => random.below(body.slots + 1),
        };
        fill(random, body, count);
    }
}

/// A table, its bytes as a table 1, whole or damaged in one field, and a length for the buffer that it is converted into.
pub fn conversion(random: &mut Random) -> (Table, Vec<u8>, usize) {
    let mut table = valid(random);
    let most = (Form::One.longest() - HEAD - Form::One.entry() * table.bodies.len()) / SLOT;
    let first = table.bodies.first().map_or(0, |body| body.slots);
    if table.bodies.iter().map(|body| body.slots).sum::<usize>() > most {
        // The longest table 1, or just longer.
        table.bodies.truncate(2);
        let last = table.bodies.last_mut().expect("a table has a body");
        last.slots = if first < most { most - first + random.below(2) } else { most.min(512) };
        last.orders.truncate(last.slots);
    }
    if random.percent(92) {
        without_replaced(&mut table);
    }
    without_closed(&mut table);
    let mut old = table.encode_as(if random.percent(97) { Form::One } else { Form::Two });
    if random.percent(40) && Table::decode_as(&old, Form::One).is_some() {
        damage_as(random, &mut old, Form::One);
    }
    let mut room = table.length();
    if random.percent(20) {
        room = match random.below(4) {
            0 => room + 1,
            1 => room - 1,
            2 => table.length_as(Form::One),
            _ => random.below(room + 1),
        };
    }
    (table, old, room)
}

/// Now and then a body's last closed year: before the years of its orders, among them, or the last there is.
fn close_some(random: &mut Random, body: &mut Body) {
    if random.percent(20) {
        body.closed = *random.pick(&[2000, 2019, 2020, 2020, 2021, 2021, 2022, 2098, 2099]);
        body.orders.retain(|order| order.esercizio > body.closed);
    }
}

/// A table whose bodies have orders of several years, so that closes are both taken and refused: most lines are executed, and the year before
/// may be closed.
pub fn of_several_years(random: &mut Random) -> Table {
    let mut table = empty(random, 3, 8);
    let waits = *random.pick(&[0, 0, 3, 30]);
    for body in &mut table.bodies {
        body.closed = *random.pick(&[0, 0, 2018, 2019]);
        let mut keys = HashSet::new();
        for _ in 0..if random.percent(50) { body.slots } else { random.below(body.slots + 1) } {
            let kind = *random.pick(&[Kind::Mandato, Kind::Reversale]);
            let (esercizio, number) = (*random.pick(&[2020, 2020, 2021, 2022]), random.between(1, 12) as u32);
            let mut order = flows::record(random, esercizio, number, kind);
            if !keys.insert(order.key()) {
                continue;
            }
            if random.percent(15) {
                order.state = State::Annulled;
            } else {
                let waits = if order.esercizio == 2022 { 50 } else { waits };
                order.lines.iter_mut().for_each(|line| line.state = STATES[random.weighted(&[waits, 80, 20])]);
            }
            body.orders.push(order);
        }
    }
    debug_assert!(table.stands());
    table
}

/// Opens the closed years of a table again: a table 1 has none.
pub fn without_closed(table: &mut Table) {
    table.bodies.iter_mut().for_each(|body| body.closed = 0);
}

const STATES: [LineState; 3] = [LineState::Waiting, LineState::Executed, LineState::Replaced];

/// Makes replaced lines executed ones: a table 1 has none.
pub fn without_replaced(table: &mut Table) {
    let lines = table.bodies.iter_mut().flat_map(|body| &mut body.orders).flat_map(|order| &mut order.lines);
    lines.filter(|line| line.state == LineState::Replaced).for_each(|line| line.state = LineState::Executed);
}

fn fill(random: &mut Random, body: &mut Body, count: usize) {
    let mut keys: HashSet<_> = body.orders.iter().map(|order| order.key()).collect();
    let mut years = vec![2021, 2021, 2021, 2022, 2000, 2099];
    years.retain(|year| *year > body.closed);
    for _ in 0..if years.is_empty() { 0 } else { count } {
        let (kind, esercizio, number) = loop {
            let kind = *random.pick(&[Kind::Mandato, Kind::Reversale]);
            let esercizio = *random.pick(&years);
            let most = if random.percent(80) { 30 + 2 * count as u64 } else { 9_999_999 };
            let number = random.between(1, most) as u32;
            if keys.insert((kind, esercizio, number)) {
                break (kind, esercizio, number);
            }
        };
        let mut order = flows::record(random, esercizio, number, kind);
        match random.below(4) {
            0 => order.state = State::Annulled,
            1 | 2 => order.lines.iter_mut().for_each(|line| line.state = STATES[random.weighted(&[35, 50, 15])]),
            _ => {}
        }
        body.orders.push(order);
    }
}

/// A field of the table's layout: where it begins and how many bytes it has.
type Span = (usize, usize);

const HEAD_FIELDS: [Span; 5] = [(0, 2), (2, 2), (4, 4), (8, 5), (13, 3)];
const ENTRY_FIELDS: [Span; 9] = [(0, 1), (1, 16), (17, 1), (18, 2), (20, 4), (24, 8), (32, 8), (40, 2), (42, 6)];
const SLOT_FIELDS: [Span; 13] =
    [(0, 1), (1, 1), (2, 1), (3, 1), (4, 2), (6, 2), (8, 4), (12, 2), (14, 1), (15, 1), (16, 8), (24, 8), (32, 64)];

/// A valid table, and its bytes damaged in one field.
pub fn damaged(random: &mut Random) -> (Table, Vec<u8>) {
    let table = valid(random);
    let mut bytes = table.encode();
    damage(random, &mut bytes);
    (table, bytes)
}

/// Damages a valid table in one field: one byte of it, or the whole field set to an edge; now and then two things that would hide
/// each other. The table may still be valid afterwards.
pub fn damage(random: &mut Random, table: &mut Vec<u8>) {
    damage_as(random, table, Form::Two);
}

fn damage_as(random: &mut Random, table: &mut Vec<u8>, form: Form) {
    let bodies = number_at(table, 0, 2) as usize;
    let first_slot = HEAD + form.entry() * bodies;
    let slots = (table.len() - first_slot) / SLOT;
    let used: Vec<usize> = (0..slots).map(|slot| first_slot + SLOT * slot).filter(|&at| table[at] != 0).collect();
    let (base, fields): (usize, &[Span]) = match random.weighted(&[20, 25, 45, 10]) {
        0 => (0, &HEAD_FIELDS),
        1 => (HEAD + form.entry() * random.below(bodies), if form == Form::One { &ENTRY_FIELDS[..6] } else { &ENTRY_FIELDS }),
        2 if !used.is_empty() => (*random.pick(&used), &SLOT_FIELDS),
        _ => (first_slot + SLOT * random.below(slots), &SLOT_FIELDS),
    };
    let &(from, length) = random.pick(fields);
    let field = base + from..base + from + length;
    match random.weighted(&[45, 25, 20, 10]) {
        0 => {
            let place = field.start + random.below(length);
            table[place] = match random.below(4) {
                0 => table[place] ^ (1 << random.below(8)),
                1 => table[place].wrapping_add(1),
                2 => table[place].wrapping_sub(1),
                _ => random.byte(),
            };
        }
        1 => {
            // The number moved by one, in its own width; a single amount where the field is the eight of them.
            let field = if length == 64 { field.start + 8 * random.below(8)..0 } else { field };
            let end = if field.end == 0 { field.start + 8 } else { field.end };
            let part = &mut table[field.start..end];
            let up = random.percent(50);
            for byte in part.iter_mut().rev() {
                let (value, carry) = if up { byte.overflowing_add(1) } else { byte.overflowing_sub(1) };
                *byte = value;
                if !carry {
                    break;
                }
            }
        }
        2 => edge(random, table, first_slot, base, from),
        _ => together(random, table, form, first_slot, &used),
    }
}

/// Sets a slot's field to a value at the edge of its range.
fn edge(random: &mut Random, table: &mut [u8], first_slot: usize, base: usize, from: usize) {
    if base < first_slot {
        let values: &[u64] = match (base, from) {
            (0, 0) => &[0, 1, 16, 17, 256],
            (0, 2) => &[0, 1, 2, 256],
            (0, 4) => &[0, 65_536, 65_537, 65_792, 65_793, 1 << 24],
            (0, _) => &[0, 1],
            (_, 0) => &[0, 1, 15, 16, 17, 255],
            (_, 18) => &[0, 1, 512, 513, 65_535],
            (_, 20) => &[0, 16, 48, 64, u32::MAX as u64],
            (_, 24 | 32) => &[0, 1, 99_999_999_999, u64::MAX],
            (_, 40) => &[0, 1, 1999, 2000, 2020, 2021, 2022, 2098, 2099, 2100, 65_535],
            _ => &[0, 1, b'0' as u64],
        };
        let &value = random.pick(values);
        let width = match (base, from) {
            (0, 0 | 2) | (_, 18 | 40) => 2,
            (0, 4) | (_, 20) => 4,
            (_, 24 | 32) => 8,
            _ => 1,
        };
        table[base + from..base + from + width].copy_from_slice(&value.to_be_bytes()[8 - width..]);
        return;
    }
    let (width, values): (usize, &[u64]) = match from {
        0 => (1, &[0, 1, 2, 3, 255]),
        1 => (1, &[0, 1, 2, 3]),
        2 => (1, &[0, 1, 8, 9, 255]),
        4 => (2, &[0, 1999, 2000, 2099, 2100, 65_535]),
        8 => (4, &[0, 1, 9_999_999, 10_000_000, u32::MAX as u64]),
        12 => (2, &[0, 1999, 2000, 2099, 2100]),
        14 => (1, &[0, 1, 2, 4, 12, 13]),
        15 => (1, &[0, 1, 28, 29, 30, 31, 32]),
        16 => (8, &[0, 99_999_999_999, 100_000_000_000, u64::MAX]),
        24 => (1, &[0, 1, 2, 3, 4]),
        32 => (8, &[0, 99_999_999_999, 100_000_000_000, u64::MAX, 1 << 63]),
        _ => (1, &[1, 255]),
    };
    let &value = random.pick(values);
    let line = if matches!(from, 24 | 32) { random.below(8) } else { 0 };
    let place = base + from + width * line;
    table[place..place + width].copy_from_slice(&value.to_be_bytes()[8 - width..]);
}

/// Damage that takes two changes: what a sum, a count or a comparison would not see alone.
fn together(random: &mut Random, table: &mut Vec<u8>, form: Form, first_slot: usize, used: &[usize]) {
    let entry = form.entry();
    let add = |table: &mut [u8], place: usize, value: u64| {
        let sum = number_at(table, place, 8).wrapping_add(value);
        table[place..place + 8].copy_from_slice(&sum.to_be_bytes());
    };
    let slot = if used.is_empty() { first_slot } else { *random.pick(used) };
    match random.below(15) {
        // An amount and the total grow together, perhaps past the greatest amount.
        0 => {
            let &value = random.pick(&[1, 99_999_999_999, 1 << 40, 1 << 63]);
            add(table, slot + 16, value);
            add(table, slot + 32, value);
        }
        // Two amounts whose change is no change when it wraps.
        1 => {
            add(table, slot + 32, 1 << 63);
            add(table, slot + 40, 1 << 63);
        }
        // The same key twice in one body, or one record in two bodies.
        2 | 3 => {
            let other = first_slot + SLOT * random.below((table.len() - first_slot) / SLOT);
            table.copy_within(slot..slot + SLOT, other);
        }
        // An empty slot before a used one.
        4 => table[slot..slot + SLOT].fill(0),
        // An order without lines.
        5 => {
            table[slot + 2] = 0;
            table[slot + 16..slot + SLOT].fill(0);
        }
        // An annulled order with an executed or replaced line.
        6 => {
            table[slot + 1] = 2;
            table[slot + 24] = 2 + random.below(2) as u8;
        }
        // A line more, of no amount, said or not said in the count of lines.
        7 => {
            let count = table[slot + 2];
            if count < 8 {
                table[slot + 24 + usize::from(count)] = 1;
                table[slot + 2] += random.below(2) as u8;
            }
        }
        // Two bodies with one code.
        8 if number_at(table, 0, 2) > 1 => {
            let code: Vec<u8> = table[HEAD..HEAD + 17].to_vec();
            table[HEAD + entry..HEAD + entry + 17].copy_from_slice(&code);
        }
        // A closed year that is just before a record's, its own, or later.
        13 if form == Form::Two => {
            let at = HEAD + entry * random.below(number_at(table, 0, 2) as usize);
            let year = number_at(table, slot + 4, 2) as u16;
            table[at + 40..at + 42].copy_from_slice(&(year.wrapping_sub(1) + random.below(3) as u16).to_be_bytes());
        }
        // A line executed or waiting again, the kept totals left; or what is kept of one kind moved to the other.
        11 if table[slot] != 0 => table[slot + 24] ^= 3,
        12 if form == Form::Two => {
            let at = HEAD + entry * random.below(number_at(table, 0, 2) as usize);
            table[at + 24..at + 40].rotate_left(8);
        }
        // A longer or shorter buffer, with or without the head saying so.
        9 | 10 => {
            let length = match random.below(4) {
                0 => table.len() + 1,
                1 => table.len() - 1,
                2 => table.len() + SLOT,
                _ => random.below(table.len()),
            };
            table.resize(length, 0);
            if random.percent(50) && table.len() >= 8 {
                let length = (length as u32).to_be_bytes();
                table[4..8].copy_from_slice(&length);
            }
        }
        // Slots moved from one body to another, places kept or not.
        _ => {
            if number_at(table, 0, 2) > 1 {
                table[HEAD + 19] = table[HEAD + 19].wrapping_add(1);
                table[HEAD + entry + 19] = table[HEAD + entry + 19].wrapping_sub(1);
                if random.percent(50) {
                    let place = number_at(table, HEAD + entry + 20, 4) + SLOT as u64;
                    table[HEAD + entry + 20..HEAD + entry + 24].copy_from_slice(&(place as u32).to_be_bytes());
                }
            }
        }
    }
}

/// A valid table that a disk fault is to damage: mostly small ones, with many used slots.
pub fn to_be_damaged(random: &mut Random) -> Table {
    let mut table = match random.weighted(&[90, 9, 1]) {
        0 => empty(random, 4, 8),
        1 => empty(random, 16, 12),
        _ => empty(random, 2, 300),
    };
    for body in &mut table.bodies {
        close_some(random, body);
        let count = if random.percent(40) { body.slots } else { random.below(body.slots + 1) };
        fill(random, body, count);
    }
    table
}

/// The bytes of a table after a disk fault: slots lost, copied, moved or changed in some places, kept totals and closed years too; head and
/// entries are hit now and then where `contents` says so.
pub fn after_fault(random: &mut Random, table: &Table, contents: bool) -> Vec<u8> {
    let mut bytes = table.encode();
    let first_slot = HEAD + ENTRY * table.bodies.len();
    for _ in 0..[1, 1, 2, 3, 1 + random.below(8)][random.below(5)] {
        slot_fault(random, &mut bytes, first_slot);
    }
    if random.percent(30) {
        let kept = HEAD + ENTRY * random.below(table.bodies.len()) + 24;
        match random.below(3) {
            0 => bytes[kept..kept + 16].iter_mut().for_each(|byte| *byte = random.byte()),
            1 => bytes[kept..kept + 16].rotate_left(8),
            _ => bytes[kept + random.below(16)] ^= 1 << random.below(8),
        }
    }
    if random.percent(15) {
        // Another closed year, which is one: records of it and of earlier years are none of the table's any more.
        let at = HEAD + ENTRY * random.below(table.bodies.len()) + 40;
        let year: u16 = *random.pick(&[0, 2000, 2020, 2021, 2021, 2022, 2099]);
        bytes[at..at + 2].copy_from_slice(&year.to_be_bytes());
    }
    if contents && random.percent(12) {
        if random.percent(80) {
            let place = random.below(first_slot);
            bytes[place] = if random.percent(50) { bytes[place] ^ (1 << random.below(8)) } else { random.byte() };
        } else {
            let length = *random.pick(&[0, first_slot - 1, bytes.len() - 1, bytes.len() + 1, bytes.len() + SLOT]);
            bytes.resize(length, 0);
        }
    }
    bytes
}

/// One thing that a fault does to slots.
fn slot_fault(random: &mut Random, bytes: &mut [u8], first_slot: usize) {
    let slots = (bytes.len() - first_slot) / SLOT;
    let used: Vec<usize> = (0..slots).map(|slot| first_slot + SLOT * slot).filter(|&at| bytes[at] != 0).collect();
    let any = first_slot + SLOT * random.below(slots);
    let slot = if used.is_empty() || random.percent(15) { any } else { *random.pick(&used) };
    let &(from, length) = random.pick(&SLOT_FIELDS);
    let place = slot + from + random.below(length);
    match random.below(13) {
        0 | 1 => bytes[place] ^= 1 << random.below(8),
        2 => bytes[place] = random.byte(),
        3 => edge(random, bytes, first_slot, slot, from),
        // A hole, which is no damage that is reported; a slot of kind 0 that isn't empty.
        4 => bytes[slot..slot + SLOT].fill(0),
        5 => bytes[slot] = 0,
        6 => {
            bytes[slot..slot + SLOT].fill(0);
            bytes[slot + 1 + random.below(SLOT - 1)] = 1;
        }
        // A record again in another slot, as it is, or valid and with another date, or the first of the two damaged.
        7..=9 => {
            bytes.copy_within(slot..slot + SLOT, any);
            match random.below(3) {
                0 => bytes[any + 15] = 1 + random.below(28) as u8,
                1 => bytes[slot.min(any) + 3] = 1,
                _ => {}
            }
        }
        // Two slots that change places, also from one body to another.
        10 => {
            for at in 0..SLOT {
                bytes.swap(slot + at, any + at);
            }
        }
        // A stretch that crosses slots, lost.
        11 => {
            let end = bytes.len().min(place + *random.pick(&[16, 96, 512]));
            let value = *random.pick(&[0, 0xFF, 1]);
            bytes[place..end].fill(value);
        }
        // An annulled order with an executed or replaced line.
        _ => {
            bytes[slot + 1] = 2;
            bytes[slot + 24] = 2 + random.below(2) as u8;
        }
    }
}

/// A valid table, and the bytes of one like it that is written rightly but breaks one rule, or is just inside it.
pub fn beyond(random: &mut Random) -> (Table, Vec<u8>) {
    let before = valid(random);
    let mut table = before.clone();
    let body = random.below(table.bodies.len());
    let body = &mut table.bodies[body];
    if body.orders.is_empty() {
        body.closed = if body.closed < 2099 { body.closed } else { 0 };
        fill(random, body, 1);
    }
    let order = random.below(body.orders.len());
    let order = &mut body.orders[order];
    match random.below(16) {
        0 => order.esercizio = *random.pick(&[1999, 2000, 2099, 2100]),
        1 => order.number = *random.pick(&[0, 1, 9_999_999, 10_000_000]),
        2 => order.date.year = *random.pick(&[1999, 2000, 2099, 2100]),
        3 => (order.date.month, order.date.day) = (random.below(14) as u8, *random.pick(&[0, 1, 28, 29, 30, 31, 32])),
        4 => {
            // The greatest total, and one cent more.
            let over = random.below(2) as u64;
            order.lines.truncate(2);
            order.lines.iter_mut().for_each(|line| line.amount = 0);
            order.lines[0].amount = 99_999_999_999;
            order.lines.last_mut().expect("an order has a line").amount += over;
            order.total = 99_999_999_999 + over;
        }
        5 => {
            order.state = State::Annulled;
            order.lines[0].state = *random.pick(&STATES);
        }
        6 => {
            order.lines.clear();
            order.total = 0;
        }
        7 => order.total = order.total.wrapping_add(1),
        8 => {
            // The same key again, or one that differs in one part.
            let mut twin = order.clone();
            match random.below(4) {
                0 => twin.kind = if twin.kind == Kind::Mandato { Kind::Reversale } else { Kind::Mandato },
                1 => twin.esercizio ^= 1,
                2 => twin.number ^= 1,
                _ => {}
            }
            body.slots = body.slots.max(body.orders.len() + 1);
            body.orders.push(twin);
        }
        9 => body.slots = *random.pick(&[0, 511, 512, 513]),
        10 => *random.pick_mut(&mut body.code) = *random.pick(b" /09:@AZ[`az{\x00\x80"),
        11 => *random.pick_mut(&mut table.abi) = *random.pick(b" /09:A\x00"),
        12 => {
            let code = random.pick(&table.bodies).code.clone();
            table.bodies.push(Body { code, slots: 1, closed: 0, orders: Vec::new() });
        }
        13 => body.closed = *random.pick(&[1, 1999, 2000, order.esercizio - 1, order.esercizio, 2099, 2100]),
        14 => {
            let count = 15 + random.below(3) as u8;
            table.bodies =
                (0..count).map(|index| Body { code: vec![b'A' + index], slots: 1, closed: 0, orders: Vec::new() }).collect();
            table.bodies.truncate(*random.pick(&[0, 1, 16, 17]));
        }
        _ => {
            // As long as a table can be, and longer by a slot.
            table.bodies.truncate(2);
            let left = (reference::table::LONGEST - HEAD - ENTRY * table.bodies.len()) / SLOT;
            table.bodies.iter_mut().for_each(|body| body.orders.truncate(100));
            table.bodies[0].slots = left.min(512);
            if let Some(second) = table.bodies.get_mut(1) {
                second.slots = left - 512 + random.below(2);
            }
        }
    }
    // A body without slots for its orders would be written over its neighbour.
    table.bodies.iter_mut().for_each(|body| body.orders.truncate(body.slots));
    (before, table.encode())
}

/// The request that opens this table's bodies.
pub fn request(table: &Table) -> Vec<u8> {
    let bodies: Vec<(&[u8], u16)> = table.bodies.iter().map(|body| (&body.code[..], body.slots as u16)).collect();
    reference::request(&table.abi, &bodies)
}

/// A request, whole or damaged in one field, and a length for the buffer.
pub fn opening(random: &mut Random) -> (Vec<u8>, usize) {
    let mut table = match random.weighted(&[60, 30, 10]) {
        0 => empty(random, 4, 6),
        1 => empty(random, 16, 80),
        _ => empty(random, 16, 600),
    };
    match random.below(20) {
        0 => table.bodies.clear(),
        1 => {
            // Seventeen bodies.
            table.bodies = (0..16 + random.below(2) as u8)
                .map(|index| Body { code: vec![b'a' + index], slots: 1 + random.below(3), closed: 0, orders: Vec::new() })
                .collect();
        }
        2 => {
            // The greatest total, and the first that is too great.
            table.bodies.truncate(2);
            let left = (reference::table::LONGEST - HEAD - ENTRY * table.bodies.len()) / SLOT;
            table.bodies[0].slots = left.min(512);
            if let Some(second) = table.bodies.get_mut(1) {
                second.slots = left - 512 + random.below(2);
            }
        }
        _ => {}
    }
    let mut length = table.length();
    let mut request = request(&table);
    if random.percent(50) {
        damage_request(random, &mut request);
    }
    if random.percent(25) {
        length = match random.below(5) {
            0 => length + 1,
            1 => length.saturating_sub(1),
            2 => length + SLOT,
            3 => length.saturating_sub(SLOT),
            _ => random.below(length + 1),
        };
    }
    (request, length.min(70_000))
}

fn damage_request(random: &mut Random, request: &mut Vec<u8>) {
    let entries = request.len().saturating_sub(5) / 20;
    if random.percent(20) || entries == 0 {
        match random.below(3) {
            0 => request.truncate(random.below(request.len() + 1)),
            1 => request.push(random.byte()),
            _ => {
                let place = random.below(5.min(request.len()));
                request[place] = *random.pick(b"09/:a \x00");
            }
        }
        return;
    }
    let entry = 5 + 20 * random.below(entries);
    let other = 5 + 20 * random.below(entries);
    match random.below(10) {
        0 => request[entry] = *random.pick(&[0, 1, 2, 3, 6, 7, 15, 16, 17, 255]),
        1 => request[entry + 1 + random.below(16)] = *random.pick(b"\x00 09:/@AZ[`az{\xC3\xFF"),
        2 => request[entry + 17] = *random.pick(&[1, 255]),
        3 => {
            let slots = *random.pick(&[0u16, 1, 511, 512, 513, 65_535]);
            request[entry + 18..entry + 20].copy_from_slice(&slots.to_be_bytes());
        }
        4 => request.copy_within(entry..entry + 20, other),
        5 => request.copy_within(entry..entry + 17, other),
        6 => {
            let copy = request[entry..entry + 20].to_vec();
            request.extend(copy);
        }
        7 => {
            request.drain(entry..entry + 20);
        }
        8 => request[entry + random.below(20)] ^= 1 << random.below(8),
        _ => request[random.below(5)] = *random.pick(b"09/:a \x00\xFF"),
    }
}
