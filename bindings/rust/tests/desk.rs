//! The calls through the safe types: document 01's run, and a refusal of each kind.

use hondivole::{Cause, Date, Edition, Field, Kind, MOST_OUTCOME_BYTES, Notice, Operation, Refusal, Table, Totals, field_at};

const RUN: &[u8] = include_bytes!("../src/run.xml");

fn desk() -> Table {
    Table::open("01234", &[("000471", 4), ("471", 4)]).expect("document 01's own table")
}

fn changed(old: &str, new: &str) -> Vec<u8> {
    String::from_utf8_lossy(RUN).replace(old, new).into_bytes()
}

const DAY: Date = Date { year: 2021, month: 3, day: 3 };
const LINE: Notice = Notice { body: "000471", kind: Kind::Mandato, esercizio: 2021, number: 12, line: 1, day: DAY };

#[test]
fn the_run_whole() {
    let mut table = desk();
    let mut outcomes = [0; MOST_OUTCOME_BYTES];
    let answer = table.flow(Edition::Oil, RUN, &mut outcomes).unwrap();
    assert_eq!((answer.orders(), answer.accepted()), (2, 1));
    let read: Vec<_> =
        answer.outcomes().map(|order| (order.kind, order.operation, order.number, order.lines, order.total)).collect();
    assert_eq!(
        read,
        [(Kind::Mandato, Operation::Inserimento, 12, 2, 15_000), (Kind::Reversale, Operation::Inserimento, 12, 1, 2_000)]
    );
    let verdicts: Vec<_> = answer.outcomes().map(|order| order.verdict).collect();
    assert_eq!(verdicts, [Ok(()), Err(Refusal::LinesDontSum)]);
    assert_eq!(table.totals("000471"), Ok(Totals { used: 1, ..Totals::default() }));
    assert_eq!(table.totals("471"), Ok(Totals::default()));
}

#[test]
fn refused_flows_change_nothing() {
    let mut table = desk();
    let broken = changed("2021-03-01<", "2021-02-29<");
    let place = broken.windows(13).position(|bytes| bytes == b"<data_mandato").unwrap();
    let flows = [
        (vec![b' '; 32_769], Refusal::FlowTooLong),
        (Vec::new(), Refusal::MarkupBreaks),
        (changed("esercizio>", "anno>"), Refusal::StructureBreaks),
        (broken, Refusal::FieldBreaks { place, cause: Cause::OutOfRange }),
        (changed("01234", "43210"), Refusal::OtherBank),
        (changed("000471", "0471"), Refusal::NoSuchBody),
    ];
    for (flow, refusal) in flows {
        let mut outcomes = [7; 32];
        assert_eq!(table.flow(Edition::Oil, &flow, &mut outcomes), Err(refusal));
        assert_eq!(outcomes, [7; 32]);
    }
    assert_eq!(table.flow(Edition::Oil, RUN, &mut [0; 31]), Err(Refusal::OutcomesTooShort));
    assert_eq!(table, desk());
}

/// The four causes, and that the one told belongs to the first field that breaks.
#[test]
fn causes() {
    let texts = [
        ("", Cause::Empty, "empty"),
        ("00000012", Cause::Long, "longer than the longest allowed text"),
        ("12a", Cause::Misformed, "wrong form"),
        ("0", Cause::OutOfRange, "right form but a value outside its range"),
    ];
    for (text, cause, words) in texts {
        let number = format!("<numero_mandato>{text}</numero_mandato>");
        let flow = String::from_utf8(changed("<numero_mandato>0012</numero_mandato>", &number)).unwrap();
        let flow = flow.replace("<progressivo_versante>1<", "<progressivo_versante>x<");
        let place = flow.find("<numero_mandato>").unwrap();
        let refusal = desk().flow(Edition::Oil, flow.as_bytes(), &mut [0; 32]).unwrap_err();
        assert_eq!(refusal, Refusal::FieldBreaks { place, cause });
        assert_eq!(
            refusal.of_flow(flow.as_bytes()).to_string(),
            format!("numero_mandato {text:?} at byte {place} breaks: {words}")
        );
    }
}

#[test]
fn bytes_that_are_no_table() {
    for bytes in [&mut [][..], &mut [0; 15], &mut [0xFF; 880]] {
        let mut table = Table::over(bytes);
        assert_eq!(table.flow(Edition::Oil, RUN, &mut [0; 32]), Err(Refusal::TableNotValid));
        assert_eq!(table.execute(&LINE), Err(Refusal::TableNotValid));
        assert_eq!(table.reverse(&LINE), Err(Refusal::TableNotValid));
        let bytes: &[u8] = table.into_bytes();
        assert_eq!(Table::over(bytes).totals("471"), Err(Refusal::TableNotValid));
    }
}

#[test]
fn notices() {
    let mut table = desk();
    assert_eq!(table.execute(&LINE), Err(Refusal::NoSuchOrder));
    table.flow(Edition::Oil, RUN, &mut [0; 32]).unwrap();
    assert_eq!(table.reverse(&LINE), Err(Refusal::NotExecuted));
    assert_eq!(table.execute(&Notice { body: "0471", ..LINE }), Err(Refusal::NoSuchBody));
    assert_eq!(table.execute(&Notice { body: "", ..LINE }), Err(Refusal::NoSuchBody));
    assert_eq!(table.execute(&Notice { line: 3, ..LINE }), Err(Refusal::NoSuchLine));
    let saturday = Date { day: 6, ..DAY };
    assert_eq!(table.execute(&Notice { day: saturday, ..LINE }), Err(Refusal::ClosingDay));
    assert_eq!(table.execute(&Notice { day: Date { month: 13, ..DAY }, ..LINE }), Err(Refusal::NoDateServed));
    assert_eq!(table.execute(&LINE), Ok(10_000));
    assert_eq!(table.execute(&LINE), Err(Refusal::AlreadyExecuted));
    let again = changed("INSERIMENTO", "ANNULLO");
    let mut outcomes = [0; 32];
    let verdicts: Vec<_> = table.flow(Edition::Oil, &again, &mut outcomes).unwrap().outcomes().map(|order| order.verdict).collect();
    assert_eq!(verdicts, [Err(Refusal::LineExecuted), Err(Refusal::LinesDontSum)]);
    assert_eq!(table.totals("000471"), Ok(Totals { used: 1, paid: 10_000, collected: 0, balance: -10_000 }));
    assert_eq!(table.reverse(&LINE), Ok(10_000));
    let answer = table.flow(Edition::Oil, &again, &mut outcomes).unwrap();
    assert_eq!((answer.accepted(), answer.steps()), (1, 1));
    assert_eq!(table.execute(&LINE), Err(Refusal::OrderAnnulled));
}

#[test]
fn openings() {
    let refused = |abi: &str, bodies: &[(&str, u16)]| Table::open(abi, bodies) == Err(Refusal::RequestWrong);
    assert!(refused("0123", &[("471", 1)]));
    assert!(refused("0123a", &[("471", 1)]));
    assert!(refused("01234", &[]));
    assert!(refused("01234", &[("", 1)]));
    assert!(refused("01234", &[("47 1", 1)]));
    assert!(refused("01234", &[("12345678901234567", 1)]));
    assert!(refused("01234", &[("471", 0)]));
    assert!(refused("01234", &[("471", 513)]));
    assert!(refused("01234", &[("471", 1), ("471", 1)]));
    assert!(refused("01234", &[("A", 512), ("a", 512)]));
    assert!(refused("01234", &[("A", 512), ("a", 173)]));
    assert_eq!(Table::open("01234", &[("A", 512), ("a", 172)]).unwrap().bytes().len(), 65_776);
}

/// The element at a place of a flow in which no element holds another of its name, found by searching for its end tag.
fn searched(flow: &str, place: usize) -> Option<Field<'_>> {
    let name = flow[place..].strip_prefix('<')?.split('>').next()?;
    let from = place + name.len() + 2;
    let text = flow.get(from..)?.split(&format!("</{name}>")).next()?;
    let closes = name.starts_with('/') || flow.get(from + text.len()..)?.is_empty();
    (!closes).then_some(Field { name, text })
}

#[test]
fn every_element_is_shown() {
    let run = str::from_utf8(RUN).unwrap();
    let mut shown = 0;
    for place in 0..=run.len() {
        assert_eq!(field_at(RUN, place), searched(run, place), "{place}");
        shown += usize::from(field_at(RUN, place).is_some());
    }
    assert_eq!(shown, run.matches("</").count());
    assert_eq!(field_at(&RUN[..RUN.len() - 1], 0), None);
    assert_eq!(field_at(RUN, usize::MAX), None);
}

#[test]
fn an_opi_flow_is_taken_and_a_body_mixes_editions() {
    let opi = include_bytes!("../../../examples/c/opi.xml");
    let (mut table, mut outcomes) = (desk(), [0; MOST_OUTCOME_BYTES]);
    assert_eq!(table.flow(Edition::Opi, opi, &mut outcomes).unwrap().accepted(), 2);
    assert_eq!(table.flow(Edition::Oil, opi, &mut outcomes), Err(Refusal::MarkupBreaks));
    assert_eq!(table.flow(Edition::Opi, RUN, &mut outcomes), Err(Refusal::StructureBreaks));
    // Its mandato 12 is there already, in whichever edition it came.
    let verdicts: Vec<_> = table.flow(Edition::Oil, RUN, &mut outcomes).unwrap().outcomes().map(|order| order.verdict).collect();
    assert_eq!(verdicts, [Err(Refusal::OrderExists), Err(Refusal::LinesDontSum)]);
}
