//! The repair of a damaged table through the safe types.

use hondivole::{Date, Edition, Kind, Notice, Refusal, Salvage, Table, Totals};

const RUN: &[u8] = include_bytes!("../src/run.xml");
const DAY: Date = Date { year: 2021, month: 3, day: 3 };
const LINE: Notice = Notice { body: "000471", kind: Kind::Mandato, esercizio: 2021, number: 12, line: 1, day: DAY };

/// Both bodies with mandato 12, a line of which is executed, and 000471 with mandato 13 besides.
fn desk() -> Table {
    let mut table = Table::open("01234", &[("000471", 4), ("471", 4)]).expect("document 01's own table");
    let text = str::from_utf8(RUN).unwrap();
    for flow in [text.to_string(), text.replace("0012<", "0013<"), text.replace("000471", "471")] {
        table.flow(Edition::Oil, flow.as_bytes(), &mut [0; 32]).unwrap();
    }
    table.execute(&LINE).unwrap();
    table.execute(&Notice { body: "471", ..LINE }).unwrap();
    table
}

fn damaged(damage: impl FnOnce(&mut Vec<u8>)) -> Table {
    let mut bytes = desk().into_bytes();
    damage(&mut bytes);
    Table::over(bytes)
}

#[test]
fn a_valid_table_stays() {
    let mut table = desk();
    assert_eq!(table.salvage(), Ok(Salvage { moved: vec![0, 0], blanked: vec![] }));
    assert_eq!(table, desk());
}

#[test]
fn records_are_kept_blanked_and_moved() {
    // The first record of 000471 (slots from 112), and a byte of an empty slot of 471 (slots from 496).
    let mut table = damaged(|bytes| {
        bytes[112 + 3] = 1;
        bytes[784 + 95] = 1;
    });
    assert_eq!(table.totals("471"), Err(Refusal::TableNotValid));
    assert_eq!(table.salvage(), Ok(Salvage { moved: vec![1, 0], blanked: vec![112, 784] }));
    assert_eq!(table.totals("000471"), Ok(Totals { used: 1, ..Totals::default() }));
    assert_eq!(table.totals("471"), Ok(Totals { used: 1, paid: 10_000, collected: 0, balance: -10_000 }));
    // From here on the desk works as before: mandato 12 of 000471 is gone and may be sent again.
    assert_eq!(table.reverse(&LINE), Err(Refusal::NoSuchOrder));
    assert_eq!(table.flow(Edition::Oil, RUN, &mut [0; 32]).unwrap().accepted(), 1);
    assert_eq!(table.salvage(), Ok(Salvage { moved: vec![0, 0], blanked: vec![] }));
}

#[test]
fn totals_and_copies() {
    let mut table = damaged(|bytes| {
        bytes[16 + 24..16 + 40].fill(0xFF);
        bytes.copy_within(112..208, 304);
    });
    assert_eq!(table.salvage(), Ok(Salvage { moved: vec![0, 0], blanked: vec![304] }));
    assert_eq!(table, desk());
}

#[test]
fn what_cannot_be_repaired() {
    for at in [1, 3, 7, 13, 16, 33, 39, 63] {
        let mut table = damaged(|bytes| bytes[at] ^= 16);
        let before = table.clone();
        assert_eq!(table.salvage(), Err(Refusal::ContentsNotValid), "byte {at}");
        assert_eq!(table, before);
    }
    assert_eq!(Table::over(&mut [0u8; 0][..]).salvage(), Err(Refusal::ContentsNotValid));
}

/// The largest table, every slot damaged: there is room for its report.
#[test]
fn the_longest_report_is_read() {
    let mut bytes = Table::open("01234", &[("A", 512), ("a", 172)]).unwrap().into_bytes();
    bytes[112..].fill(7);
    let salvage = Table::over(&mut bytes).salvage().unwrap();
    assert_eq!((salvage.moved, salvage.blanked.len()), (vec![0, 0], 684));
    assert_eq!(salvage.blanked[683], 65_776 - 96);
    assert_eq!(Table::over(bytes), Table::open("01234", &[("A", 512), ("a", 172)]).unwrap());
}
