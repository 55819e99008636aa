//! The close of a year through the safe types.

use hondivole::{Date, Edition, Kind, Notice, Refusal, Salvage, Table, Totals};

const RUN: &[u8] = include_bytes!("../src/run.xml");
const DAY: Date = Date { year: 2021, month: 3, day: 3 };
const LINE: Notice = Notice { body: "000471", kind: Kind::Mandato, esercizio: 2021, number: 12, line: 1, day: DAY };

fn of_year(year: u16) -> Vec<u8> {
    let text = str::from_utf8(RUN).unwrap();
    text.replace("<esercizio>2021<", &format!("<esercizio>{year}<")).into_bytes()
}

/// Body 000471 of two slots with mandato 12 of 2021 and of 2022, the first of them paid; body 471 with mandato 12 of 2021, which waits.
fn desk() -> Table {
    let mut table = Table::open("01234", &[("000471", 2), ("471", 2)]).unwrap();
    for flow in [of_year(2022), of_year(2021), str::from_utf8(RUN).unwrap().replace("000471", "471").into_bytes()] {
        assert_eq!(table.flow(Edition::Oil, &flow, &mut [0; 32]).unwrap().accepted(), 1);
    }
    for line in 1..=2 {
        table.execute(&Notice { line, ..LINE }).unwrap();
    }
    table
}

#[test]
fn a_full_body_has_room_again() {
    let mut table = desk();
    let mut outcomes = [0; 32];
    let full = table.flow(Edition::Oil, &of_year(2023), &mut outcomes).unwrap();
    assert_eq!(full.outcomes().next().unwrap().verdict, Err(Refusal::NoEmptySlot));
    assert_eq!(table.totals("000471"), Ok(Totals { used: 2, paid: 15_000, collected: 0, balance: -15_000 }));
    assert_eq!(table.close("000471", 2021), Ok(1));
    assert_eq!(table.totals("000471"), Ok(Totals { used: 1, ..Totals::default() }));
    assert_eq!(table.flow(Edition::Oil, &of_year(2023), &mut [0; 32]).unwrap().accepted(), 1);
    // What named the year finds nothing, and the other body's year is open.
    assert_eq!(table.reverse(&LINE), Err(Refusal::NoSuchOrder));
    assert_eq!(table.execute(&Notice { body: "471", ..LINE }), Ok(10_000));
    for year in [2000, 2020, 2021] {
        assert_eq!(table.flow(Edition::Oil, &of_year(year), &mut [0; 32]), Err(Refusal::YearClosed));
    }
    assert_eq!(table.bytes()[16 + 40..16 + 48], [7, 0xE5, 0, 0, 0, 0, 0, 0]);
}

#[test]
fn refused_closes_change_nothing() {
    let mut table = desk();
    let refusals = [
        ("0471", 2021, Refusal::NoSuchBody),
        ("000471", 1999, Refusal::NoYearServed),
        ("000471", 2100, Refusal::NoYearServed),
        ("000471", 2022, Refusal::EarlierYearRemains),
        ("471", 2021, Refusal::LineWaiting),
    ];
    for (body, year, refusal) in refusals {
        assert_eq!(table.close(body, year), Err(refusal));
    }
    assert_eq!(table, desk());
    assert_eq!(table.close("000471", 2020), Ok(0));
    let before = table.clone();
    assert_eq!(table.close("000471", 2020), Err(Refusal::YearClosed));
    assert_eq!(table, before);
    let mut bytes = before.into_bytes();
    bytes[16 + 42] = 1;
    assert_eq!(Table::over(bytes).close("000471", 2021), Err(Refusal::TableNotValid));
}

#[test]
fn a_repair_blanks_what_is_closed() {
    // 2021 set as the closed year of 000471 by another hand: its mandato of 2021 stands in the second slot, at 112 + 96.
    let mut bytes = desk().into_bytes();
    bytes[16 + 40..16 + 42].copy_from_slice(&2021u16.to_be_bytes());
    let mut table = Table::over(bytes);
    assert_eq!(table.totals("471"), Err(Refusal::TableNotValid));
    assert_eq!(table.salvage(), Ok(Salvage { moved: vec![0, 0], blanked: vec![208] }));
    let mut closed = desk();
    closed.close("000471", 2021).unwrap();
    assert_eq!(table, closed);
}
