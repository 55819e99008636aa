//! Document 02, Req 13, case by case: what a repair keeps, blanks, moves and reports, and what it refuses.

use reference::table::{ENTRY, HEAD, LONGEST, SLOT, number_at};
use reference::{Body, Date, Kind, Line, LineState, Order, SalvageAnswer, State, Table, salvage, totals};

const EXECUTED: &[(LineState, u64)] = &[(LineState::Executed, 10_000), (LineState::Waiting, 5_000)];

fn order(kind: Kind, number: u32, lines: &[(LineState, u64)]) -> Order {
    Order {
        kind,
        state: State::Acquired,
        esercizio: 2021,
        number,
        date: Date { year: 2021, month: 3, day: 1 },
        total: lines.iter().map(|line| line.1).sum(),
        lines: lines.iter().map(|&(state, amount)| Line { state, amount }).collect(),
    }
}

/// Body 000471 with mandati 1, 2 and 3 in four slots, body 471 with reversale 1 in two.
fn table() -> Table {
    let first = (1..=3).map(|number| order(Kind::Mandato, number, EXECUTED)).collect();
    let second = vec![order(Kind::Reversale, 1, &[(LineState::Executed, 700)])];
    Table {
        abi: *b"01234",
        bodies: vec![
            Body { code: b"000471".to_vec(), slots: 4, closed: 0, orders: first },
            Body { code: b"471".to_vec(), slots: 2, closed: 0, orders: second },
        ],
    }
}

const FIRST: usize = HEAD + 2 * ENTRY;

/// Where a slot stands, of all of them.
fn slot(index: usize) -> std::ops::Range<usize> {
    FIRST + SLOT * index..FIRST + SLOT * (index + 1)
}

/// Repairs the bytes: they are then valid, and repairing them again changes nothing. The repaired table, the moved and the blanked.
fn repaired(bytes: &[u8]) -> (Table, Vec<u64>, Vec<u64>) {
    let mut after = bytes.to_vec();
    let mut report = [0xEE; 100];
    let answer = salvage(&mut after, &mut report);
    assert_eq!(answer.code, 0);
    let table = Table::decode(&after).expect("a repaired table is valid");
    let bodies = table.bodies.len();
    let moved = (0..bodies).map(|body| number_at(&report, 2 * body, 2)).collect();
    let blanked: Vec<_> = (0..answer.blanked as usize).map(|at| number_at(&report, 2 * bodies + 4 * at, 4)).collect();
    assert!(report[2 * bodies + 4 * blanked.len()..].iter().all(|&byte| byte == 0xEE), "bytes past the report stay");
    let (mut again, mut nothing) = (after.clone(), vec![0xEE; 2 * bodies]);
    assert_eq!(salvage(&mut again, &mut nothing), SalvageAnswer::default());
    assert!(again == after && nothing.iter().all(|&byte| byte == 0));
    (table, moved, blanked)
}

fn changed(change: impl FnOnce(&mut Vec<u8>)) -> Vec<u8> {
    let mut bytes = table().encode();
    change(&mut bytes);
    bytes
}

#[test]
fn a_valid_table_comes_out_the_same() {
    assert_eq!(repaired(&table().encode()), (table(), vec![0, 0], vec![]));
}

/// One bit in each byte of the second record: the record goes unless the byte's value is free.
#[test]
fn one_bit_in_each_field() {
    // Esercizio, number, year and month (2 for 3) have other values, and the executed line's state becomes replaced.
    let free = |at: usize| matches!(at, 5 | 9..=11 | 13 | 14 | 24);
    for at in 0..SLOT {
        let bytes = changed(|bytes| bytes[slot(1).start + at] ^= 1);
        let (after, moved, blanked) = repaired(&bytes);
        if free(at) && at != 11 {
            assert_eq!((after.bodies[0].orders.len(), moved, blanked), (3, vec![0, 0], vec![]), "byte {at}");
            continue;
        }
        // Number 2 becomes 3: the third record's key is then kept already.
        let lost = if at == 11 { slot(2) } else { slot(1) };
        let moves = if at == 11 { 0 } else { 1 };
        assert_eq!((moved, blanked), (vec![moves, 0], vec![lost.start as u64]), "byte {at}");
        let numbers: Vec<_> = after.bodies[0].orders.iter().map(|order| order.number).collect();
        assert_eq!(numbers, [1, 3], "byte {at}");
        assert_eq!(after.bodies[1], table().bodies[1]);
    }
}

#[test]
fn the_first_valid_copy_of_a_key_is_kept() {
    // The later copy has another date: the first one stays.
    let doubled = |bytes: &mut Vec<u8>| {
        bytes.copy_within(slot(0), slot(2).start);
        bytes[slot(2).start + 15] = 9;
    };
    let (after, moved, blanked) = repaired(&changed(doubled));
    assert_eq!(after.bodies[0].orders, table().bodies[0].orders[..2]);
    assert_eq!((moved, blanked), (vec![0, 0], vec![slot(2).start as u64]));
    // The first copy is damaged: the later one is kept, whatever key the damaged one held.
    let bytes = changed(|bytes| {
        doubled(bytes);
        bytes[slot(0).start + 16] = 1;
    });
    let (after, moved, blanked) = repaired(&bytes);
    let kept: Vec<_> = after.bodies[0].orders.iter().map(|order| (order.number, order.date.day)).collect();
    assert_eq!(kept, [(2, 1), (1, 9)]);
    assert_eq!((moved, blanked), (vec![2, 0], vec![slot(0).start as u64]));
    // One key in two bodies is no copy.
    let bytes = changed(|bytes| bytes.copy_within(slot(0), slot(5).start));
    let (after, moved, blanked) = repaired(&bytes);
    assert_eq!((after.bodies[1].orders.len(), moved, blanked), (2, vec![0, 0], vec![]));
    let copy = after.body(b"471").unwrap().cents(Kind::Mandato);
    assert_eq!(copy, 10_000, "the other body's totals count it");
}

#[test]
fn holes_and_zeros() {
    // A hole in the middle: nothing is blanked, and what follows moves up.
    let (after, moved, blanked) = repaired(&changed(|bytes| bytes[slot(0)].fill(0)));
    assert_eq!(after.bodies[0].orders, table().bodies[0].orders[1..]);
    assert_eq!((moved, blanked), (vec![2, 0], vec![]));
    // A slot of kind 0 with another byte set is no empty slot, wherever it stands.
    for (index, moves) in [(1, 1), (3, 0)] {
        let bytes = changed(|bytes| {
            bytes[slot(index)].fill(0);
            bytes[slot(index).end - 1] = 1;
        });
        let (after, moved, blanked) = repaired(&bytes);
        assert_eq!(
            (after.bodies[0].orders.len(), moved, blanked),
            (3 - moves, vec![moves as u64, 0], vec![slot(index).start as u64])
        );
    }
    let (after, moved, blanked) = repaired(&changed(|bytes| bytes[FIRST..].fill(0xFF)));
    assert!(after.bodies.iter().all(|body| body.orders.is_empty()));
    assert_eq!((moved, blanked), (vec![0, 0], (0..6).map(|index| slot(index).start as u64).collect()));
}

#[test]
fn totals_are_set_anew() {
    let bytes = changed(|bytes| {
        for entry in 0..2 {
            bytes[HEAD + ENTRY * entry + 24..HEAD + ENTRY * entry + 40].fill(0xFF);
        }
    });
    assert_eq!(repaired(&bytes), (table(), vec![0, 0], vec![]));
    // A record that goes takes its cents along; an annulled order with an executed line is none.
    let mut bytes = changed(|bytes| bytes[slot(0).start + 1] = 2);
    assert_eq!(totals(&bytes, b"000471").code, 1);
    assert_eq!(salvage(&mut bytes, &mut [0; 8]), SalvageAnswer { code: 0, blanked: 1 });
    assert_eq!((totals(&bytes, b"000471").paid, totals(&bytes, b"471").collected), (20_000, 700));
}

#[test]
fn refusals_change_nothing() {
    let refusal = |bytes: &[u8], room: usize| {
        let (mut after, mut report) = (bytes.to_vec(), vec![0xEE; room]);
        let answer = salvage(&mut after, &mut report);
        assert!(answer.code != 0 && answer.blanked == 0);
        assert!(after == bytes && report.iter().all(|&byte| byte == 0xEE));
        answer.code
    };
    // Head, lengths and entries; each before a report without room.
    for (at, byte) in [(1, 0), (1, 17), (1, 1), (3, 1), (7, 0), (8, b'a'), (13, 1), (16, 0), (16, 17), (17, b' '), (24, 1), (33, 1)]
    {
        assert_eq!(refusal(&changed(|bytes| bytes[at] = byte), 100), 34, "byte {at}");
    }
    // Slots of 000471, its place, the last bytes of its entry, and 471's code made 000471.
    for at in [35, 39, 56, 57, 63] {
        assert_eq!(refusal(&changed(|bytes| bytes[at] ^= 1), 0), 34, "byte {at}");
    }
    assert_eq!(refusal(&changed(|bytes| bytes.copy_within(16..33, 64)), 0), 34);
    assert_eq!(refusal(&changed(|bytes| bytes.push(0)), 0), 34);
    assert_eq!(refusal(&changed(|bytes| bytes.truncate(bytes.len() - 1)), 0), 34);
    assert_eq!(refusal(&[], 100), 34);
    // Two bytes per body and four per blanked slot, and one byte less.
    let damaged = changed(|bytes| {
        bytes[slot(1).start + 3] = 1;
        bytes[slot(5).start + 3] = 1;
    });
    for room in [0, 3, 4, 8, 11] {
        assert_eq!(refusal(&damaged, room), 35);
    }
    assert_eq!(refusal(&table().encode(), 3), 35);
    let (mut bytes, mut report) = (damaged, [0xEE; 12]);
    assert_eq!(salvage(&mut bytes, &mut report), SalvageAnswer { code: 0, blanked: 2 });
    let places = [slot(1), slot(5)].map(|slot| (slot.start as u32).to_be_bytes()).concat();
    assert_eq!(report[..4], [0, 1, 0, 0], "000471 moves one");
    assert_eq!(report[4..], places);
}

/// The most there is to report: every slot of the tables with the most slots.
#[test]
fn the_longest_report() {
    for count in 1..=16 {
        let mut left = ((LONGEST - HEAD - ENTRY * count) / SLOT).min(512 * count);
        let filled = (0..count).map(|body| {
            let slots = (left - (count - body - 1)).min(512);
            left -= slots;
            Body { code: vec![b'a' + body as u8], slots, closed: 0, orders: Vec::new() }
        });
        let table = Table { abi: *b"01234", bodies: filled.collect() };
        let mut bytes = table.encode();
        bytes[HEAD + ENTRY * count..].fill(1);
        let needed = 2 * count + 4 * table.bodies.iter().map(|body| body.slots).sum::<usize>();
        assert!(needed <= 2_740);
        assert_eq!(salvage(&mut bytes, &mut vec![0; needed - 1]).code, 35);
        assert_eq!(salvage(&mut bytes, &mut vec![0; needed]).code, 0);
        assert_eq!(bytes, table.encode());
    }
}
