//! The table: plain structs, and their bytes, as table 1 (document 01) and as table 2 (document 02, Req 04 and 14) has them.
//!
//! A table's bytes are valid when the structs decoded from them keep the rules and encode to the very same bytes again. The second half
//! stands for every byte that a rule fixes: zeros, places, lengths, lines that aren't there, empty slots after the used ones.

use std::collections::HashSet;

use crate::MOST_LINES;
use crate::fields::body_code;

/// The most bytes a table has.
pub const LONGEST: usize = 65_792;

/// The bytes of the head.
pub const HEAD: usize = 16;

/// The bytes of a body's entry.
pub const ENTRY: usize = 48;

/// The bytes of a slot.
pub const SLOT: usize = 96;

/// The years of the books.
pub const YEARS: std::ops::RangeInclusive<u16> = 2000..=2099;

/// The greatest amount in cents that a field can write.
pub const GREATEST_AMOUNT: u64 = 99_999_999_999;

/// Which of the two forms a table's bytes have.
#[derive(Clone, Copy, Debug, PartialEq, Eq)]
pub enum Form {
    /// Entries of 32 bytes, which keep no totals; only conversion takes it.
    One = 1,
    /// Entries of 48 bytes, which keep the cents paid and collected and the last closed year.
    Two = 2,
}

impl Form {
    /// The bytes of a body's entry.
    pub fn entry(self) -> usize {
        match self {
            Form::One => 32,
            Form::Two => ENTRY,
        }
    }

    /// The most bytes a table has.
    pub fn longest(self) -> usize {
        match self {
            Form::One => 65_536,
            Form::Two => LONGEST,
        }
    }
}

/// An order table.
#[derive(Clone, Debug, PartialEq, Eq)]
pub struct Table {
    /// The bank's five digits.
    pub abi: [u8; 5],
    /// The bodies, in contents order.
    pub bodies: Vec<Body>,
}

/// A body and its records.
#[derive(Clone, Debug, PartialEq, Eq)]
pub struct Body {
    /// The code, byte by byte.
    pub code: Vec<u8>,
    /// How many slots it has, used and empty.
    pub slots: usize,
    /// The last year that was closed, 0 before the first close.
    pub closed: u16,
    /// The used slots.
    pub orders: Vec<Order>,
}

/// A record of the table.
#[derive(Clone, Debug, PartialEq, Eq)]
pub struct Order {
    /// Mandato or reversale.
    pub kind: Kind,
    /// Acquired or annulled.
    pub state: State,
    /// The year of the books.
    pub esercizio: u16,
    /// The number.
    pub number: u32,
    /// The date.
    pub date: Date,
    /// The total in cents.
    pub total: u64,
    /// The lines that are there, 1 to 8.
    pub lines: Vec<Line>,
}

/// A line of a record.
#[derive(Clone, Copy, Debug, PartialEq, Eq)]
pub struct Line {
    /// Where it stands.
    pub state: LineState,
    /// The amount in cents.
    pub amount: u64,
}

/// The state of a line that is there.
#[derive(Clone, Copy, Debug, PartialEq, Eq)]
pub enum LineState {
    /// Not executed, or executed and reversed.
    Waiting = 1,
    /// Executed by the bank, or brought in by a replacement.
    Executed = 2,
    /// Executed, and then replaced by a line of another order; for good.
    Replaced = 3,
}

/// A payment or a collection order.
#[derive(Clone, Copy, Debug, PartialEq, Eq, Hash)]
pub enum Kind {
    /// A payment order.
    Mandato = 1,
    /// A collection order.
    Reversale = 2,
}

/// The state of a record.
#[derive(Clone, Copy, Debug, PartialEq, Eq)]
pub enum State {
    /// Taken in.
    Acquired = 1,
    /// Withdrawn.
    Annulled = 2,
}

/// A date.
#[derive(Clone, Copy, Debug, PartialEq, Eq)]
pub struct Date {
    /// 2000 to 2099.
    pub year: u16,
    /// 1 to 12.
    pub month: u8,
    /// 1 to the month's length.
    pub day: u8,
}

impl Date {
    /// Whether this is a real Gregorian date of the years 2000 to 2099.
    pub fn stands(self) -> bool {
        let leap = self.year % 4 == 0 && (self.year % 100 != 0 || self.year % 400 == 0);
        let length = match self.month {
            4 | 6 | 9 | 11 => 30,
            2 if leap => 29,
            2 => 28,
            1..=12 => 31,
            _ => 0,
        };
        (2000..=2099).contains(&self.year) && (1..=length).contains(&self.day)
    }
}

impl Order {
    /// Whether every line waits.
    pub fn waits(&self) -> bool {
        self.lines.iter().all(|line| line.state == LineState::Waiting)
    }

    /// Whether the record keeps the rules that look at it alone.
    fn stands(&self) -> bool {
        YEARS.contains(&self.esercizio)
            && (1..=9_999_999).contains(&self.number)
            && self.date.stands()
            && self.total <= GREATEST_AMOUNT
            && self.lines.iter().all(|line| line.amount <= GREATEST_AMOUNT)
            && self.lines.iter().map(|line| line.amount).sum::<u64>() == self.total
            && (self.state == State::Acquired || self.waits())
    }

    fn encode(&self) -> Vec<u8> {
        let mut slot = vec![self.kind as u8, self.state as u8, self.lines.len() as u8, 0];
        slot.extend(self.esercizio.to_be_bytes());
        slot.extend([0, 0]);
        slot.extend(self.number.to_be_bytes());
        slot.extend(self.date.year.to_be_bytes());
        slot.extend([self.date.month, self.date.day]);
        slot.extend(self.total.to_be_bytes());
        let mut states = [0; MOST_LINES];
        let mut amounts = [0; MOST_LINES];
        for (index, line) in self.lines.iter().enumerate() {
            states[index] = line.state as u8;
            amounts[index] = line.amount;
        }
        slot.extend(states);
        slot.extend(amounts.map(u64::to_be_bytes).concat());
        slot
    }

    /// What sets the record apart from the others of its body.
    pub fn key(&self) -> (Kind, u16, u32) {
        (self.kind, self.esercizio, self.number)
    }

    /// The record that a slot's bytes are, looked at alone; `None` when they are none.
    pub fn alone(slot: &[u8]) -> Option<Order> {
        Order::decode(slot).filter(|order| order.encode() == slot)
    }

    /// The record in a slot that is not empty; zeros and lines that aren't there are not looked at.
    fn decode(slot: &[u8]) -> Option<Order> {
        let kind = match slot[0] {
            1 => Kind::Mandato,
            2 => Kind::Reversale,
            _ => return None,
        };
        let state = match slot[1] {
            1 => State::Acquired,
            2 => State::Annulled,
            _ => return None,
        };
        let count = usize::from(slot[2]);
        if !(1..=MOST_LINES).contains(&count) {
            return None;
        }
        let lines = (0..count).map(|index| {
            let state = match slot[24 + index] {
                1 => LineState::Waiting,
                2 => LineState::Executed,
                3 => LineState::Replaced,
                _ => return None,
            };
            let amount = number_at(slot, 32 + 8 * index, 8);
            Some(Line { state, amount })
        });
        let order = Order {
            kind,
            state,
            esercizio: number_at(slot, 4, 2) as u16,
            number: number_at(slot, 8, 4) as u32,
            date: Date { year: number_at(slot, 12, 2) as u16, month: slot[14], day: slot[15] },
            total: number_at(slot, 16, 8),
            lines: lines.collect::<Option<_>>()?,
        };
        order.stands().then_some(order)
    }
}

impl Body {
    /// The cents of the executed lines of its orders of a kind.
    pub fn cents(&self, kind: Kind) -> u64 {
        let orders = self.orders.iter().filter(|order| order.kind == kind);
        let lines = orders.flat_map(|order| &order.lines);
        lines.filter(|line| line.state == LineState::Executed).map(|line| line.amount).sum()
    }

    /// Whether its books of this year are closed: those of the last year that was, and of every earlier one.
    pub fn has_closed(&self, esercizio: u16) -> bool {
        esercizio <= self.closed
    }

    fn stands(&self) -> bool {
        let mut keys = HashSet::new();
        body_code(&self.code).is_some()
            && (1..=512).contains(&self.slots)
            && (self.closed == 0 || YEARS.contains(&self.closed))
            && self.orders.iter().all(|order| !self.has_closed(order.esercizio))
            && self.orders.iter().all(|order| keys.insert((order.kind, order.esercizio, order.number)))
    }
}

impl Table {
    /// The length of the bytes.
    pub fn length(&self) -> usize {
        self.length_as(Form::Two)
    }

    /// The length of the bytes in a form.
    pub fn length_as(&self, form: Form) -> usize {
        let slots: usize = self.bodies.iter().map(|body| body.slots).sum();
        HEAD + form.entry() * self.bodies.len() + SLOT * slots
    }

    /// The body of this code.
    pub fn body(&self, code: &[u8]) -> Option<&Body> {
        self.bodies.iter().find(|body| body.code == code)
    }

    /// The body of this code, to be changed.
    pub fn body_mut(&mut self, code: &[u8]) -> Option<&mut Body> {
        self.bodies.iter_mut().find(|body| body.code == code)
    }

    /// Whether the table keeps every rule that the encoding alone does not.
    pub fn stands(&self) -> bool {
        self.stands_as(Form::Two)
    }

    fn stands_as(&self, form: Form) -> bool {
        let mut codes = HashSet::new();
        (1..=16).contains(&self.bodies.len())
            && self.abi.iter().all(u8::is_ascii_digit)
            && self.length_as(form) <= form.longest()
            && self.bodies.iter().all(Body::stands)
            && self.bodies.iter().all(|body| codes.insert(&body.code))
            && (form == Form::Two || !self.has_replaced_line())
    }

    /// Whether a line of some order is replaced: table 1 knows no such state.
    fn has_replaced_line(&self) -> bool {
        let lines = self.bodies.iter().flat_map(|body| &body.orders).flat_map(|order| &order.lines);
        lines.into_iter().any(|line| line.state == LineState::Replaced)
    }

    /// The bytes of the table.
    pub fn encode(&self) -> Vec<u8> {
        self.encode_as(Form::Two)
    }

    /// The bytes of the table in a form.
    pub fn encode_as(&self, form: Form) -> Vec<u8> {
        let mut bytes = Vec::new();
        bytes.extend((self.bodies.len() as u16).to_be_bytes());
        bytes.extend((form as u16).to_be_bytes());
        bytes.extend((self.length_as(form) as u32).to_be_bytes());
        bytes.extend(self.abi);
        bytes.resize(HEAD, 0);
        let mut place = HEAD + form.entry() * self.bodies.len();
        for body in &self.bodies {
            let (start, end) = (bytes.len(), bytes.len() + form.entry());
            bytes.push(body.code.len() as u8);
            bytes.extend(&body.code);
            bytes.resize(start + 18, 0);
            bytes.extend((body.slots as u16).to_be_bytes());
            bytes.extend((place as u32).to_be_bytes());
            if form == Form::Two {
                bytes.extend(body.cents(Kind::Mandato).to_be_bytes());
                bytes.extend(body.cents(Kind::Reversale).to_be_bytes());
                bytes.extend(body.closed.to_be_bytes());
            }
            bytes.resize(end, 0);
            place += SLOT * body.slots;
        }
        for body in &self.bodies {
            let end = bytes.len() + SLOT * body.slots;
            bytes.extend(body.orders.iter().flat_map(Order::encode));
            bytes.resize(end, 0);
        }
        bytes
    }

    /// The bodies of these bytes without their orders, where head and entries are valid; what the entries keep of totals and what the slots
    /// hold is not looked at.
    pub fn contents(bytes: &[u8]) -> Option<Table> {
        let (head, mut rest) = bytes.split_at_checked(HEAD)?;
        let mut bodies = Vec::new();
        for _ in 0..number_at(head, 0, 2) {
            let entry;
            (entry, rest) = rest.split_at_checked(ENTRY)?;
            let code = entry[1..17].get(..usize::from(entry[0]))?.to_vec();
            bodies.push(Body { code, slots: number_at(entry, 18, 2) as usize, closed: closed_in(entry), orders: Vec::new() });
        }
        let table = Table { abi: head[8..13].try_into().ok()?, bodies };
        if !table.stands() || table.length() != bytes.len() {
            return None;
        }
        let first_slot = HEAD + ENTRY * table.bodies.len();
        let mut without_totals = bytes[..first_slot].to_vec();
        without_totals[HEAD..].chunks_mut(ENTRY).for_each(|entry| entry[24..40].fill(0));
        (without_totals == table.encode()[..first_slot]).then_some(table)
    }

    /// The table that these bytes are; `None` when they are no valid table.
    pub fn decode(bytes: &[u8]) -> Option<Table> {
        Table::decode_as(bytes, Form::Two)
    }

    /// The table that these bytes of a form are; `None` when they are no valid table of it.
    pub fn decode_as(bytes: &[u8], form: Form) -> Option<Table> {
        let (head, mut rest) = bytes.split_at_checked(HEAD)?;
        let count = number_at(head, 0, 2) as usize;
        let mut bodies = Vec::new();
        for _ in 0..count {
            let entry;
            (entry, rest) = rest.split_at_checked(form.entry())?;
            bodies.push(Body {
                code: entry[1..17].get(..usize::from(entry[0]))?.to_vec(),
                slots: number_at(entry, 18, 2) as usize,
                closed: if form == Form::Two { closed_in(entry) } else { 0 },
                orders: Vec::new(),
            });
        }
        for body in &mut bodies {
            let slots;
            (slots, rest) = rest.split_at_checked(SLOT * body.slots)?;
            for slot in slots.chunks(SLOT).take_while(|slot| slot[0] != 0) {
                body.orders.push(Order::decode(slot)?);
            }
        }
        let table = Table { abi: head[8..13].try_into().ok()?, bodies };
        (table.stands_as(form) && table.encode_as(form) == bytes).then_some(table)
    }
}

/// The last closed year that an entry of table 2 keeps.
fn closed_in(entry: &[u8]) -> u16 {
    number_at(entry, 40, 2) as u16
}

/// The number that `length` bytes at `at` write, the highest byte first.
pub fn number_at(bytes: &[u8], at: usize, length: usize) -> u64 {
    let bytes = &bytes[at..at + length];
    bytes.iter().fold(0, |value, &byte| value << 8 | u64::from(byte))
}

#[cfg(test)]
mod tests {
    use super::*;

    fn body(code: &[u8], slots: usize) -> Body {
        Body { code: code.to_vec(), slots, closed: 0, orders: Vec::new() }
    }

    fn two_bodies() -> Table {
        Table { abi: *b"01234", bodies: vec![body(b"000471", 4), body(b"471", 4)] }
    }

    fn with_order() -> Table {
        let mut table = two_bodies();
        table.bodies[1].orders.push(Order {
            kind: Kind::Mandato,
            state: State::Acquired,
            esercizio: 2021,
            number: 12,
            date: Date { year: 2021, month: 3, day: 1 },
            total: 15_000,
            lines: vec![Line { state: LineState::Waiting, amount: 10_000 }, Line { state: LineState::Waiting, amount: 5_000 }],
        });
        table
    }

    #[test]
    fn the_layout_example() {
        let bytes = two_bodies().encode();
        assert_eq!(bytes.len(), 880);
        assert_eq!(&bytes[..16], b"\0\x02\0\x02\0\0\x03\x7001234\0\0\0");
        assert_eq!(&bytes[16..40], b"\x06000471\0\0\0\0\0\0\0\0\0\0\0\0\x04\0\0\0\x70");
        assert_eq!(&bytes[64..88], b"\x03471\0\0\0\0\0\0\0\0\0\0\0\0\0\0\0\x04\0\0\x01\xF0");
        assert_eq!(number_at(&bytes, 84, 4), 496);
        assert_eq!(Table::decode(&bytes), Some(two_bodies()));
    }

    #[test]
    fn a_record_at_its_place() {
        let bytes = with_order().encode();
        let slot = &bytes[496..592];
        assert_eq!(&slot[..16], b"\x01\x01\x02\0\x07\xE5\0\0\0\0\0\x0C\x07\xE5\x03\x01");
        assert_eq!(number_at(slot, 16, 8), 15_000);
        assert_eq!(&slot[24..32], &[1, 1, 0, 0, 0, 0, 0, 0]);
        assert_eq!(number_at(slot, 32, 8), 10_000);
        assert_eq!(number_at(slot, 40, 8), 5_000);
        assert!(slot[48..].iter().all(|&byte| byte == 0));
        assert_eq!(Table::decode(&bytes), Some(with_order()));
    }

    #[test]
    fn every_byte_of_a_table_with_its_lowest_bit_changed() {
        // The digits of the ABI, the characters of the codes, and the record's esercizio, number, year and month (2 for 3).
        let free = |at: usize| match at {
            8..=12 | 17..=22 | 65..=67 => true,
            _ if at < 496 => false,
            _ => matches!(at - 496, 5 | 9..=11 | 13 | 14),
        };
        let bytes = with_order().encode();
        for at in 0..bytes.len() {
            let mut changed = bytes.clone();
            changed[at] ^= 1;
            assert_eq!(Table::decode(&changed).is_some(), free(at), "byte {at}");
        }
    }

    #[test]
    fn what_is_not_valid() {
        let not_valid = |change: fn(&mut Vec<u8>)| {
            let mut bytes = with_order().encode();
            change(&mut bytes);
            assert_eq!(Table::decode(&bytes), None);
        };
        not_valid(Vec::clear);
        not_valid(|bytes| bytes.truncate(15));
        not_valid(|bytes| bytes.push(0));
        not_valid(|bytes| bytes.truncate(879));
        not_valid(|bytes| bytes[496] = 3);
        not_valid(|bytes| bytes[497] = 3);
        not_valid(|bytes| bytes[498] = 0);
        not_valid(|bytes| bytes[498] = 9);
        not_valid(|bytes| bytes[496 + 24] = 0);
        not_valid(|bytes| bytes[496 + 26] = 1);
        not_valid(|bytes| bytes[496 + 95] = 1);
        not_valid(|bytes| bytes[496 + 4..496 + 6].copy_from_slice(&1999u16.to_be_bytes()));
        not_valid(|bytes| bytes[496 + 8..496 + 12].fill(0));
        not_valid(|bytes| bytes[496 + 9] = 0x99);
        not_valid(|bytes| bytes[496 + 15] = 32);
        not_valid(|bytes| bytes[879] = 1);
        // An annulled order has every line waiting.
        for state in [2, 3] {
            let mut bytes = with_order().encode();
            (bytes[497], bytes[496 + 24]) = (2, state);
            assert_eq!(Table::decode(&bytes), None);
        }
        not_valid(|bytes| bytes[496 + 24] = 4);
        // An empty slot before a used one.
        not_valid(|bytes| bytes.copy_within(496..592, 592 + 96));
        // Two records of one body with the same key.
        not_valid(|bytes| bytes.copy_within(496..592, 592));
        // A sum that is right only when it wraps.
        not_valid(|bytes| {
            bytes[496 + 32..496 + 40].copy_from_slice(&u64::MAX.to_be_bytes());
            bytes[496 + 40..496 + 48].copy_from_slice(&15_001u64.to_be_bytes());
        });
    }

    #[test]
    fn kept_totals_agree() {
        let mut table = with_order();
        table.bodies[1].orders[0].lines[1].state = LineState::Executed;
        let bytes = table.encode();
        assert_eq!((number_at(&bytes, 64 + 24, 8), number_at(&bytes, 64 + 32, 8)), (5_000, 0));
        assert_eq!(Table::decode(&bytes), Some(table));
        for at in 24..48 {
            let mut changed = bytes.clone();
            changed[64 + at] ^= 1;
            assert_eq!(Table::decode(&changed), None, "byte {at} of the entry");
        }
    }

    /// Document 02, Req 14: 0 or a year of 2000 to 2099 that every record is later than; the six bytes after it are zero.
    #[test]
    fn closed_years() {
        for (year, stands) in [
            (0, true),
            (1, false),
            (1999, false),
            (2000, true),
            (2020, true),
            (2021, false),
            (2022, false),
            (2099, false),
            (2100, false),
        ] {
            let mut table = with_order();
            table.bodies[1].closed = year;
            let bytes = table.encode();
            assert_eq!(number_at(&bytes, 64 + 40, 2), u64::from(year));
            assert_eq!(Table::decode(&bytes), stands.then_some(table), "{year}");
        }
        // Another body's year says nothing of this one's records.
        let mut table = with_order();
        table.bodies[0].closed = 2099;
        assert_eq!(Table::decode(&table.encode()), Some(table.clone()));
        for at in 42..48 {
            let mut bytes = table.encode();
            bytes[16 + at] = 1;
            assert_eq!(Table::decode(&bytes), None, "byte {at} of the entry");
        }
        // A table 1 has no such year.
        table.bodies[0].closed = 0;
        let mut old = table.encode_as(Form::One);
        assert!(Table::decode_as(&old, Form::One).is_some());
        old[16 + 24..16 + 26].copy_from_slice(&2020u16.to_be_bytes());
        assert_eq!(Table::decode_as(&old, Form::One), None);
    }

    #[test]
    fn the_two_forms() {
        let old = with_order().encode_as(Form::One);
        assert_eq!(old.len(), 848);
        assert_eq!(Table::decode_as(&old, Form::One), Some(with_order()));
        assert_eq!(Table::decode(&old), None);
        assert_eq!(Table::decode_as(&with_order().encode(), Form::One), None);
    }

    /// A replaced line counts in no total, and no table 1 has one.
    #[test]
    fn replaced_lines() {
        let mut table = with_order();
        table.bodies[1].orders[0].lines[0].state = LineState::Executed;
        table.bodies[1].orders[0].lines[1].state = LineState::Replaced;
        assert_eq!(Table::decode_as(&table.encode_as(Form::One), Form::One), None);
        let bytes = table.encode();
        assert_eq!((&bytes[496 + 24..496 + 26], number_at(&bytes, 64 + 24, 8)), (&[2, 3][..], 10_000));
        assert_eq!(Table::decode(&bytes), Some(table));
    }

    #[test]
    fn codes_and_counts() {
        let stands = |table: &Table| Table::decode(&table.encode()).is_some();
        let mut table = two_bodies();
        table.bodies[1].code = b"000471".to_vec();
        assert!(!stands(&table));
        table.bodies[1].code = b"47-1".to_vec();
        assert!(!stands(&table));
        table.bodies[1].code = b"0000000000000471".to_vec();
        assert!(stands(&table));
        table.bodies[1].slots = 0;
        assert!(!stands(&table));
        table.bodies[1].slots = 513;
        assert!(!stands(&table));
        table.bodies[0].slots = 168;
        table.bodies[1].slots = 512;
        assert!(stands(&table));
        let old = |table: &Table| Table::decode_as(&table.encode_as(Form::One), Form::One).is_some();
        table.bodies[0].slots = 169;
        assert!(stands(&table) && old(&table), "80 + 96 * 681 = 65,456");
        table.bodies[0].slots = 170;
        assert!(stands(&table) && !old(&table), "80 + 96 * 682 = 65,552");
        table.bodies[0].slots = 172;
        assert!(stands(&table), "112 + 96 * 684 = 65,776");
        table.bodies[0].slots = 173;
        assert!(!stands(&table), "112 + 96 * 685 = 65,872");
        table.bodies.clear();
        assert!(!stands(&table));
        table.bodies = (0..17u8).map(|index| body(&[b'a' + index], 1)).collect();
        assert!(!stands(&table));
        table.bodies.pop();
        assert!(stands(&table));
    }
}
