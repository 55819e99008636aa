//! Years of one body: filled, closed and filled again, and sums across closed and open years (document 02, Req 14).

use hondivole::{Date, Edition, Kind, Notice, Refusal, Table, Totals};

const BODY: &str = "000471";
const DAY: Date = Date { year: 2021, month: 3, day: 3 };

/// An order of a kind: its operation and number, and its lines, each an amount and the line of a year that it replaces: number, line, year.
struct Order(Kind, &'static str, u32, &'static [(u32, Option<(u32, u32, u16)>)]);

fn euros(cents: u32) -> String {
    format!("{}.{:02}", cents / 100, cents % 100)
}

impl Order {
    fn text(&self) -> String {
        let Order(kind, operation, number, lines) = self;
        let (order, party) = match kind {
            Kind::Mandato => ("mandato", "beneficiario"),
            Kind::Reversale => ("reversale", "versante"),
        };
        let line = |(index, (cents, named)): (usize, &(u32, Option<(u32, u32, u16)>))| {
            let replaced = named.map_or(String::new(), |(number, line, year)| {
                format!(
                    "<sostituzione_{order}><numero_{order}_da_sostituire>{number}</numero_{order}_da_sostituire>\
                     <progressivo_{party}_da_sostituire>{line}</progressivo_{party}_da_sostituire>\
                     <esercizio_{order}_da_sostituire>{year}</esercizio_{order}_da_sostituire></sostituzione_{order}>"
                )
            });
            format!(
                "<informazioni_{party}><progressivo_{party}>{}</progressivo_{party}><importo_{party}>{}</importo_{party}>\
                 <{party}><anagrafica_{party}>Rossi</anagrafica_{party}></{party}>{replaced}</informazioni_{party}>",
                index + 1,
                euros(*cents)
            )
        };
        let total = lines.iter().map(|(cents, _)| cents).sum();
        let lines: String = lines.iter().enumerate().map(line).collect();
        format!(
            "<{order}><tipo_operazione>{operation}</tipo_operazione><numero_{order}>{number}</numero_{order}>\
             <data_{order}>2021-03-01</data_{order}><importo_{order}>{}</importo_{order}>{lines}</{order}>",
            euros(total)
        )
    }
}

/// The verdicts of a flow of these orders for a year.
fn sent(table: &mut Table, year: u16, orders: &[Order]) -> Vec<Result<(), Refusal>> {
    let orders: String = orders.iter().map(Order::text).collect();
    let flow = format!(
        "<flusso_ordinativi><codice_ABI_BT>01234</codice_ABI_BT><identificativo_flusso>A1</identificativo_flusso>\
         <data_ora_creazione_flusso>2021-03-01T09:30:00</data_ora_creazione_flusso><codice_ente_BT>{BODY}</codice_ente_BT>\
         <esercizio>{year}</esercizio>{orders}</flusso_ordinativi>"
    );
    let mut outcomes = [0; 1024];
    table.flow(Edition::Oil, flow.as_bytes(), &mut outcomes).unwrap().outcomes().map(|order| order.verdict).collect()
}

fn of(kind: Kind, esercizio: u16, number: u32, line: u8) -> Notice<'static> {
    Notice { body: BODY, kind, esercizio, number, line, day: DAY }
}

fn paid_and_collected(table: &Table) -> (u64, u64) {
    let Totals { paid, collected, .. } = table.totals(BODY).unwrap();
    (paid, collected)
}

/// The day of docs/PROMISES.md, "Cash by history", and the next year's close: the named line's year is closed, its replacement's is open.
#[test]
fn a_replacement_outlives_the_line_that_it_names() {
    use Kind::{Mandato, Reversale};
    let mut table = Table::open("01234", &[(BODY, 8)]).unwrap();
    let orders = [
        Order(Mandato, "INSERIMENTO", 1, &[(10_000, None)]),
        Order(Mandato, "INSERIMENTO", 2, &[(3_000, None), (2_000, None)]),
        Order(Reversale, "INSERIMENTO", 1, &[(8_000, None)]),
    ];
    assert_eq!(sent(&mut table, 2025, &orders), [Ok(()), Ok(()), Ok(())]);
    assert_eq!(table.execute(&of(Mandato, 2025, 1, 1)), Ok(10_000));
    assert_eq!(table.execute(&of(Mandato, 2025, 1, 1)), Err(Refusal::AlreadyExecuted));
    assert_eq!(table.execute(&of(Mandato, 2025, 2, 1)), Ok(3_000));
    assert_eq!(table.reverse(&of(Mandato, 2025, 2, 1)), Ok(3_000));
    assert_eq!(table.execute(&of(Mandato, 2025, 2, 1)), Ok(3_000));
    assert_eq!(table.execute(&of(Reversale, 2025, 1, 1)), Ok(8_000));
    assert_eq!(sent(&mut table, 2026, &[Order(Mandato, "SOSTITUZIONE", 5, &[(10_000, Some((1, 1, 2025)))])]), [Ok(())]);
    assert_eq!(table.reverse(&of(Mandato, 2025, 1, 1)), Err(Refusal::NotExecuted));
    assert_eq!(paid_and_collected(&table), (10_000 + 3_000 + 3_000 - 3_000, 8_000));
    // A line of 2025 still waits; then the year can be closed.
    assert_eq!(table.close(BODY, 2025), Err(Refusal::LineWaiting));
    assert_eq!(table.execute(&of(Mandato, 2025, 2, 2)), Ok(2_000));
    assert_eq!(paid_and_collected(&table), (15_000, 8_000));
    assert_eq!(table.close(BODY, 2025), Ok(3));
    // No notice is of an open year; the replacement line is, and names one of a closed year: its cents are added.
    assert_eq!(paid_and_collected(&table), (10_000, 0));
    assert_eq!(table.reverse(&of(Mandato, 2026, 5, 1)), Ok(10_000));
    assert_eq!(paid_and_collected(&table), (0, 0));
}

/// The other way round: the replacement's year is closed, the line that it names is of an open one.
#[test]
fn a_replaced_line_outlives_its_replacement() {
    use Kind::Mandato;
    let mut table = Table::open("01234", &[(BODY, 8)]).unwrap();
    assert_eq!(sent(&mut table, 2026, &[Order(Mandato, "INSERIMENTO", 7, &[(4_000, None), (500, None)])]), [Ok(())]);
    assert_eq!(table.execute(&of(Mandato, 2026, 7, 1)), Ok(4_000));
    assert_eq!(table.execute(&of(Mandato, 2026, 7, 2)), Ok(500));
    assert_eq!(sent(&mut table, 2025, &[Order(Mandato, "SOSTITUZIONE", 8, &[(4_000, Some((7, 1, 2026)))])]), [Ok(())]);
    assert_eq!(paid_and_collected(&table), (4_500, 0));
    assert_eq!(table.close(BODY, 2025), Ok(1));
    // Of 2026 4,500 were executed; less the 4,000 of the line of 2025 that names a line of it.
    assert_eq!(paid_and_collected(&table), (500, 0));
    // The named line stays replaced.
    assert_eq!(table.execute(&of(Mandato, 2026, 7, 1)), Err(Refusal::AlreadyExecuted));
    assert_eq!(table.reverse(&of(Mandato, 2026, 7, 1)), Err(Refusal::NotExecuted));
}

/// A full body over eleven years: filled, closed, filled again.
#[test]
fn filled_closed_and_filled_again() {
    use Kind::Mandato;
    let new = |number| Order(Mandato, "INSERIMENTO", number, &[(100, None)]);
    let annulled = |number| Order(Mandato, "ANNULLO", number, &[(100, None)]);
    let full = Err(Refusal::NoEmptySlot);
    let mut table = Table::open("01234", &[(BODY, 4)]).unwrap();
    assert_eq!(sent(&mut table, 2020, &[new(4)]), [Ok(())]);
    for year in 2020..=2030 {
        assert_eq!(sent(&mut table, year, &[new(1), new(2)]), [Ok(()), Ok(())]);
        assert_eq!(sent(&mut table, year + 1, &[new(4), new(5)]), [Ok(()), full]);
        for number in [1, 4] {
            assert_eq!(table.execute(&of(Mandato, year, number, 1)), Ok(100));
        }
        // An order of an earlier year is told before a line of the year itself that waits.
        assert_eq!(table.close(BODY, year + 1), Err(Refusal::EarlierYearRemains));
        assert_eq!(table.close(BODY, year), Err(Refusal::LineWaiting));
        // An annulled order keeps its slot until the close, stands in the way of nothing, goes and counts.
        assert_eq!(sent(&mut table, year, &[annulled(2), new(5)]), [Ok(()), full]);
        assert_eq!(table.totals(BODY), Ok(Totals { used: 4, paid: 200, collected: 0, balance: -200 }));
        assert_eq!(table.close(BODY, year), Ok(3));
        assert_eq!(table.totals(BODY), Ok(Totals { used: 1, ..Totals::default() }));
        assert_eq!(table.close(BODY, year), Err(Refusal::YearClosed));
    }
    assert_eq!(sent(&mut table, 2031, &[annulled(4)]), [Ok(())]);
    assert_eq!(table.close(BODY, 2032), Err(Refusal::EarlierYearRemains));
    assert_eq!(table.close(BODY, 2031), Ok(1));
    // A year without records.
    assert_eq!(table.close(BODY, 2033), Ok(0));
    assert_eq!(table.totals(BODY), Ok(Totals::default()));
}
