//! A replacement order through the safe types.

use hondivole::{Date, Edition, Kind, MOST_OUTCOME_BYTES, Movement, Notice, Operation, Refusal, Table, Totals};

/// Mandati 13 to 17 of 000471: 13 replaces both lines of mandato 12, the others are refused.
const FLOW: &[u8] = include_bytes!("../../../examples/c/replacement.xml");
const RUN: &[u8] = include_bytes!("../src/run.xml");
const DAY: Date = Date { year: 2021, month: 3, day: 3 };
const LINE: Notice = Notice { body: "000471", kind: Kind::Mandato, esercizio: 2021, number: 12, line: 1, day: DAY };

fn verdicts(table: &mut Table) -> Vec<Result<(), Refusal>> {
    let mut outcomes = [0; MOST_OUTCOME_BYTES];
    let answer = table.flow(Edition::Oil, FLOW, &mut outcomes).unwrap();
    assert!(answer.outcomes().all(|order| order.operation == Operation::Sostituzione));
    answer.outcomes().map(|order| order.verdict).collect()
}

#[test]
fn lines_are_replaced_and_no_cash_moves() {
    let mut table = Table::open("01234", &[("000471", 4), ("471", 4)]).unwrap();
    table.flow(Edition::Oil, RUN, &mut [0; 32]).unwrap();
    assert_eq!(verdicts(&mut table)[0], Err(Refusal::NamedLineNotExecuted));
    for line in [1, 2] {
        table.execute(&Notice { line, ..LINE }).unwrap();
    }
    let before = table.totals("000471").unwrap();
    assert_eq!(
        verdicts(&mut table),
        [
            Ok(()),
            Err(Refusal::NamedLineAbsent),
            Err(Refusal::NamedLineNotExecuted),
            Err(Refusal::NamedLineNotExecuted),
            Err(Refusal::NamedLineOtherAmount)
        ]
    );
    assert_eq!(table.totals("000471"), Ok(Totals { used: 2, ..before }));
    // A replaced line stays so; the new one is executed, and may be reversed.
    assert_eq!(table.execute(&LINE), Err(Refusal::AlreadyExecuted));
    assert_eq!(table.reverse(&LINE), Err(Refusal::NotExecuted));
    assert_eq!(table.execute(&Notice { number: 13, ..LINE }), Err(Refusal::AlreadyExecuted));
    let movement = |number, line, cents| Movement { kind: Kind::Mandato, line, esercizio: 2021, number, cents }.bytes();
    assert_eq!(table.journal("000471", &movement(12, 1, 10_000)), Err(Refusal::NotAnExecutedLine));
    assert_eq!(table.journal("000471", &[movement(13, 1, 10_000), movement(13, 2, 5_000)].concat()), Ok(()));
    assert_eq!(table.reverse(&Notice { number: 13, ..LINE }), Ok(10_000));
    assert_eq!(table.totals("000471").unwrap().paid, 5_000);
    assert_eq!(table.reverse(&LINE), Err(Refusal::NotExecuted));
}

/// Every line of a SOSTITUZIONE names one.
#[test]
fn a_line_without_its_structure() {
    let mut table = Table::open("01234", &[("000471", 4)]).unwrap();
    let text = str::from_utf8(RUN).unwrap().replacen("INSERIMENTO", "SOSTITUZIONE", 1);
    assert_eq!(table.flow(Edition::Oil, text.as_bytes(), &mut [0; 32]), Err(Refusal::StructureBreaks));
}
