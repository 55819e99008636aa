//! Document 02, Req 07, case by case: what a SOSTITUZIONE names, what is refused, and what replaced lines do afterwards.

use reference::table::{ENTRY, HEAD, number_at};
use reference::{
    Form, LineState, Notice, NoticeAnswer, SalvageAnswer, Table, convert, execute, flow, journal, open, request, reverse, salvage,
    totals,
};

/// A line: its amount, and the line that it names (number, line, esercizio), where it names one.
type Line<'a> = (&'a str, Option<(&'a str, &'a str, &'a str)>);

fn names(kind: &str, party: &str, (number, line, year): (&str, &str, &str)) -> String {
    format!(
        "<sostituzione_{kind}><numero_{kind}_da_sostituire>{number}</numero_{kind}_da_sostituire>\
         <progressivo_{party}_da_sostituire>{line}</progressivo_{party}_da_sostituire>\
         <esercizio_{kind}_da_sostituire>{year}</esercizio_{kind}_da_sostituire></sostituzione_{kind}>"
    )
}

fn order(kind: &str, operation: &str, number: &str, total: &str, lines: &[Line]) -> String {
    let party = if kind == "mandato" { "beneficiario" } else { "versante" };
    let lines = (1..).zip(lines).map(|(progressivo, (amount, named))| {
        let named = named.map_or(String::new(), |named| names(kind, party, named));
        format!(
            "<informazioni_{party}><progressivo_{party}>{progressivo}</progressivo_{party}>\
             <importo_{party}>{amount}</importo_{party}><{party}><anagrafica_{party}>R</anagrafica_{party}></{party}>{named}\
             </informazioni_{party}>"
        )
    });
    format!(
        "<{kind}><tipo_operazione>{operation}</tipo_operazione><numero_{kind}>{number}</numero_{kind}>\
         <data_{kind}>2021-03-01</data_{kind}><importo_{kind}>{total}</importo_{kind}>{}</{kind}>",
        lines.collect::<String>()
    )
}

fn mandato(operation: &str, number: &str, total: &str, lines: &[Line]) -> String {
    order("mandato", operation, number, total, lines)
}

fn whole(body: &str, year: &str, orders: &[String]) -> String {
    format!(
        "<flusso_ordinativi><codice_ABI_BT>01234</codice_ABI_BT><identificativo_flusso>A1</identificativo_flusso>\
         <data_ora_creazione_flusso>2021-03-01T09:30:00</data_ora_creazione_flusso><codice_ente_BT>{body}</codice_ente_BT>\
         <esercizio>{year}</esercizio>{}</flusso_ordinativi>",
        orders.concat()
    )
}

/// Sends a flow that must be taken; the outcome codes.
fn codes(table: &mut [u8], year: &str, orders: &[String]) -> Vec<u8> {
    let mut outcomes = [0; 1024];
    let answer = flow(table, 1, whole("471", year, orders).as_bytes(), &mut outcomes);
    assert_eq!((answer.code, answer.place), (0, 0));
    assert!(Table::decode(table).is_some());
    outcomes.chunks(16).take(answer.orders as usize).map(|outcome| outcome[2]).collect()
}

/// Sends one order: its code. A refused one changes nothing, and none moves cash.
fn code(table: &mut [u8], year: &str, order: String) -> u8 {
    let (before, cash) = (table.to_vec(), totals(table, b"471"));
    let code = codes(table, year, &[order])[0];
    assert!(code == 0 || before == table);
    let after = totals(table, b"471");
    assert_eq!((after.paid, after.collected), (cash.paid, cash.collected));
    code
}

fn notice(year: u64, number: u64, line: u64) -> Notice {
    Notice { kind: 1, esercizio: year, number, line, date: (2021, 3, 3) }
}

fn states(table: &[u8], year: u16, number: u32) -> Vec<LineState> {
    let table = Table::decode(table).unwrap();
    let order = table.body(b"471").unwrap().orders.iter().find(|order| (order.esercizio, order.number) == (year, number)).unwrap();
    order.lines.iter().map(|line| line.state).collect()
}

const ONE_AND_TWO: &[Line] = &[("1.00", None), ("2.00", None)];

/// Body 471 of six slots with mandato 1 of 2020 and mandati 1 and 2 of 2021, of lines 1.00 and 2.00, all executed; mandato 3 of 2021 waits.
fn table() -> Vec<u8> {
    let mut table = vec![0; HEAD + ENTRY + 96 * 6];
    assert_eq!(open(&request(b"01234", &[(b"471", 6)]), &mut table), 0);
    assert_eq!(codes(&mut table, "2020", &[mandato("INSERIMENTO", "1", "3.00", ONE_AND_TWO)]), [0]);
    let three = ["1", "2", "3"].map(|number| mandato("INSERIMENTO", number, "3.00", ONE_AND_TWO));
    assert_eq!(codes(&mut table, "2021", &three), [0; 3]);
    for (year, number) in [(2020, 1), (2021, 1), (2021, 2)] {
        for line in 1..=2 {
            assert_eq!(execute(&mut table, b"471", &notice(year, number, line)).code, 0);
        }
    }
    table
}

use LineState::{Executed, Replaced, Waiting};

#[test]
fn lines_of_two_records_of_two_years() {
    let mut table = table();
    let cash = totals(&table, b"471");
    let new =
        mandato("SOSTITUZIONE", "9", "3.00", &[("1.00", Some(("1", "1", "2020"))), ("2.00", Some(("0000002", "02", "2021")))]);
    assert_eq!(code(&mut table, "2021", new), 0);
    assert_eq!(states(&table, 2020, 1), [Replaced, Executed]);
    assert_eq!(states(&table, 2021, 2), [Executed, Replaced]);
    assert_eq!(states(&table, 2021, 9), [Executed, Executed]);
    assert_eq!(states(&table, 2021, 1), [Executed, Executed]);
    let after = totals(&table, b"471");
    assert_eq!((after.paid, after.used), (cash.paid, cash.used + 1));
    assert_eq!(number_at(&table, HEAD + 24, 8), 900);
}

#[test]
fn refusals_line_by_line() {
    let table = table();
    let tried = |lines: &[Line], total: &str| code(&mut table.clone(), "2021", mandato("SOSTITUZIONE", "9", total, lines));
    let one = |number, line, year| tried(&[("1.00", Some((number, line, year)))], "1.00");
    assert_eq!(one("1", "1", "2021"), 0);
    // 24: no record of that number and year, no line of that number, its own key, a number of more than a byte that ends as one that is there.
    for (number, line, year) in [
        ("4", "1", "2021"),
        ("2", "1", "2020"),
        ("1", "1", "2022"),
        ("1", "0", "2021"),
        ("1", "3", "2021"),
        ("1", "9", "2021"),
        ("1", "257", "2021"),
        ("9", "1", "2021"),
        ("257", "1", "2021"),
        ("65537", "1", "2021"),
        ("9999999", "999", "2099"),
    ] {
        assert_eq!(one(number, line, year), 24, "{number} {line} {year}");
    }
    // A reversale of the key is another order, and so is another body's.
    let reversale = order("reversale", "SOSTITUZIONE", "9", "1.00", &[("1.00", Some(("1", "1", "2021")))]);
    assert_eq!(code(&mut table.clone(), "2021", reversale), 24);
    // 25 before 26: a line that waits, of another amount too.
    assert_eq!(one("3", "1", "2021"), 25);
    assert_eq!(one("3", "2", "2021"), 25);
    assert_eq!(one("1", "2", "2021"), 26);
    // Named twice in one order; with another amount the second time too.
    let (first, second) = (Some(("1", "1", "2021")), Some(("1", "2", "2021")));
    assert_eq!(tried(&[("1.00", first), ("1.00", first)], "2.00"), 25);
    assert_eq!(tried(&[("1.00", first), ("5.00", first)], "6.00"), 25);
    // A failing third line after two good ones, and the first failing line decides.
    assert_eq!(tried(&[("1.00", first), ("2.00", second), ("1.00", Some(("3", "1", "2021")))], "4.00"), 25);
    assert_eq!(tried(&[("1.00", first), ("2.00", Some(("1", "1", "2020"))), ("1.00", Some(("7", "1", "2021")))], "4.00"), 26);
    assert_eq!(tried(&[("1.00", Some(("7", "1", "2021"))), ("2.00", first)], "3.00"), 24);
}

#[test]
fn the_order_of_codes() {
    let mut table = table();
    let bad = Some(("7", "1", "2021"));
    let misnumbered = mandato("SOSTITUZIONE", "1", "9.00", &[("1.00", bad)]).replace("beneficiario>1<", "beneficiario>2<");
    assert_eq!(code(&mut table, "2021", misnumbered), 12);
    assert_eq!(code(&mut table, "2021", mandato("SOSTITUZIONE", "1", "9.00", &[("1.00", bad)])), 13);
    assert_eq!(code(&mut table, "2021", mandato("SOSTITUZIONE", "1", "1.00", &[("1.00", bad)])), 14);
    // An annulled order of the key is there too.
    assert_eq!(code(&mut table, "2021", mandato("ANNULLO", "3", "3.00", ONE_AND_TWO)), 0);
    assert_eq!(code(&mut table, "2021", mandato("SOSTITUZIONE", "3", "1.00", &[("1.00", bad)])), 14);
    // A line of the annulled order stands there and waits.
    assert_eq!(code(&mut table, "2021", mandato("SOSTITUZIONE", "9", "1.00", &[("1.00", Some(("3", "1", "2021")))])), 25);
    // The full body: 15 is last, and nothing is marked.
    let two = ["4", "5"].map(|number| mandato("INSERIMENTO", number, "3.00", ONE_AND_TWO));
    assert_eq!(codes(&mut table, "2021", &two), [0, 0]);
    assert_eq!(code(&mut table, "2021", mandato("SOSTITUZIONE", "9", "1.00", &[("1.00", bad)])), 24);
    assert_eq!(code(&mut table, "2021", mandato("SOSTITUZIONE", "9", "1.00", &[("1.00", Some(("4", "1", "2021")))])), 25);
    assert_eq!(code(&mut table, "2021", mandato("SOSTITUZIONE", "9", "5.00", &[("5.00", Some(("1", "1", "2021")))])), 26);
    assert_eq!(code(&mut table, "2021", mandato("SOSTITUZIONE", "9", "1.00", &[("1.00", Some(("1", "1", "2021")))])), 15);
    assert_eq!(states(&table, 2021, 1), [Executed, Executed]);
}

#[test]
fn what_replaced_lines_do_afterwards() {
    let mut table = table();
    let first = Some(("1", "1", "2021"));
    assert_eq!(code(&mut table, "2021", mandato("SOSTITUZIONE", "9", "1.00", &[("1.00", first)])), 0);
    // The other line reversed: the replaced one alone blocks VARIAZIONE and ANNULLO.
    assert_eq!(reverse(&mut table, b"471", &notice(2021, 1, 2)).code, 0);
    assert_eq!(states(&table, 2021, 1), [Replaced, Waiting]);
    for operation in ["VARIAZIONE", "ANNULLO"] {
        assert_eq!(code(&mut table, "2021", mandato(operation, "1", "3.00", ONE_AND_TWO)), 18);
    }
    let refused = |code| NoticeAnswer { code, cents: 0 };
    assert_eq!(execute(&mut table, b"471", &notice(2021, 1, 1)), refused(21));
    assert_eq!(reverse(&mut table, b"471", &notice(2021, 1, 1)), refused(22));
    assert_eq!(code(&mut table, "2021", mandato("SOSTITUZIONE", "8", "1.00", &[("1.00", first)])), 25);
    // Reversing the new line gives back its cents and leaves the old one replaced; then it may be varied, and executed again.
    let paid = totals(&table, b"471").paid;
    assert_eq!(reverse(&mut table, b"471", &notice(2021, 9, 1)), NoticeAnswer { code: 0, cents: 100 });
    assert_eq!((totals(&table, b"471").paid, states(&table, 2021, 1)), (paid - 100, vec![Replaced, Waiting]));
    assert_eq!(code(&mut table, "2021", mandato("VARIAZIONE", "9", "1.00", &[("1.00", None)])), 0);
    assert_eq!(execute(&mut table, b"471", &notice(2021, 9, 1)).code, 0);
    // A line of a replacement replaced in turn, also later in the same flow.
    let next = mandato("SOSTITUZIONE", "8", "1.00", &[("1.00", Some(("9", "1", "2021")))]);
    let last = mandato("SOSTITUZIONE", "7", "1.00", &[("1.00", Some(("8", "1", "2021")))]);
    assert_eq!(codes(&mut table, "2021", &[next]), [0]);
    assert_eq!(states(&table, 2021, 9), [Replaced]);
    assert_eq!(codes(&mut table, "2021", &[last]), [15]);
    let mut larger = Table::decode(&table).unwrap();
    larger.bodies[0].slots = 8;
    let mut table = larger.encode();
    let orders =
        [("7", "8"), ("6", "7")].map(|(new, old)| mandato("SOSTITUZIONE", new, "1.00", &[("1.00", Some((old, "1", "2021")))]));
    assert_eq!(codes(&mut table, "2021", &orders), [0, 0]);
    assert_eq!([9, 8, 7, 6].map(|number| states(&table, 2021, number)[0]), [Replaced, Replaced, Replaced, Executed]);
}

#[test]
fn zero_amounts() {
    let mut table = table();
    assert_eq!(codes(&mut table, "2021", &[mandato("INSERIMENTO", "4", "0.00", &[("0.00", None), ("0.00", None)])]), [0]);
    let replacement = |line| mandato("SOSTITUZIONE", "9", "0.00", &[("0.00", Some(("4", line, "2021")))]);
    assert_eq!(code(&mut table, "2021", replacement("2")), 25);
    assert_eq!(execute(&mut table, b"471", &notice(2021, 4, 2)), NoticeAnswer { code: 0, cents: 0 });
    assert_eq!(code(&mut table, "2021", replacement("1")), 25);
    assert_eq!(code(&mut table, "2021", replacement("2")), 0);
    assert_eq!(states(&table, 2021, 4), [Waiting, Replaced]);
}

/// Eight lines name eight lines, and reversali are like mandati.
#[test]
fn eight_lines_of_a_reversale() {
    let mut table = vec![0; HEAD + ENTRY + 96 * 2];
    assert_eq!(open(&request(b"01234", &[(b"471", 2)]), &mut table), 0);
    assert_eq!(codes(&mut table, "2021", &[order("reversale", "INSERIMENTO", "1", "8.00", &[("1.00", None); 8])]), [0]);
    for line in 1..=8 {
        assert_eq!(execute(&mut table, b"471", &Notice { kind: 2, ..notice(2021, 1, line) }).code, 0);
    }
    let numbers = ["8", "7", "6", "5", "4", "3", "2", "1"];
    let lines = numbers.map(|line| ("1.00", Some(("1", line, "2021"))));
    assert_eq!(code(&mut table, "2099", order("reversale", "SOSTITUZIONE", "9999999", "8.00", &lines)), 0);
    assert_eq!((states(&table, 2021, 1), states(&table, 2099, 9_999_999)), (vec![Replaced; 8], vec![Executed; 8]));
    assert_eq!(totals(&table, b"471").collected, 800);
}

/// Document 02, Req 09: only the search for its own key counts.
#[test]
fn steps_of_a_replacement() {
    let mut table = table();
    let mut steps = |order: String| flow(&mut table, 1, whole("471", "2021", &[order]).as_bytes(), &mut [0; 16]).steps;
    let named = Some(("2", "1", "2021"));
    assert_eq!(steps(mandato("SOSTITUZIONE", "9", "1.00", &[("1.00", Some(("7", "1", "2021")))])), 4);
    assert_eq!(steps(mandato("SOSTITUZIONE", "9", "2.00", &[("1.00", named)])), 0);
    assert_eq!(steps(mandato("SOSTITUZIONE", "9", "1.00", &[("1.00", named)])), 4);
    assert_eq!(steps(mandato("SOSTITUZIONE", "9", "1.00", &[("1.00", named)])), 5);
    assert_eq!(steps(mandato("SOSTITUZIONE", "1", "1.00", &[("1.00", named)])), 2);
}

#[test]
fn the_structure() {
    let table = table();
    let good = mandato("SOSTITUZIONE", "9", "1.00", &[("1.00", Some(("1", "1", "2021")))]);
    let answer = |order: &str| {
        let text = whole("471", "2021", &[order.to_string()]);
        let mut outcomes = [0xEE; 16];
        let answer = flow(&mut table.clone(), 1, text.as_bytes(), &mut outcomes);
        let element = (answer.code == 5).then(|| text[answer.place as usize..].split(['<', '>']).nth(1).unwrap().to_string());
        (answer.code, answer.cause, element.unwrap_or_default(), outcomes[2])
    };
    let taken = (0, 0, String::new(), 0);
    let breaks = (4, 0, String::new(), 0xEE);
    assert_eq!(answer(&good), taken);
    let whole_structure = names("mandato", "beneficiario", ("1", "1", "2021"));
    let changed = |old: &str, new: &str| {
        assert!(good.contains(old), "{old}");
        good.replacen(old, new, 1)
    };
    // Other elements may stand between and inside.
    for (before, passed) in [
        ("<sostituzione_mandato>", "<sospeso><numero_mandato_da_sostituire></numero_mandato_da_sostituire></sospeso>"),
        ("<sostituzione_mandato>", "<sostituzione_reversale>x</sostituzione_reversale>"),
        ("<progressivo_beneficiario_da_sostituire>", "<numero_reversale_da_sostituire>x</numero_reversale_da_sostituire>"),
        ("</sostituzione_mandato>", "<esercizio></esercizio>"),
        ("</informazioni_beneficiario>", "<dati_a_disposizione_ente_beneficiario></dati_a_disposizione_ente_beneficiario>"),
    ] {
        assert_eq!(answer(&changed(before, &format!("{passed}{before}"))), taken, "{passed} before {before}");
    }
    // Missing, twice, before beneficiario, only the other kind's; its own fields missing, twice, out of order, not text.
    let number = "<numero_mandato_da_sostituire>1</numero_mandato_da_sostituire>";
    let line = "<progressivo_beneficiario_da_sostituire>1</progressivo_beneficiario_da_sostituire>";
    for broken in [
        changed(&whole_structure, ""),
        changed(&whole_structure, &whole_structure.repeat(2)),
        changed(&whole_structure, "").replace("<beneficiario>", &format!("{whole_structure}<beneficiario>")),
        changed(&whole_structure, &names("reversale", "versante", ("1", "1", "2021"))),
        changed(&whole_structure, "<sostituzione_mandato></sostituzione_mandato>"),
        changed(number, ""),
        changed(number, &number.repeat(2)),
        changed(&format!("{number}{line}"), &format!("{line}{number}")),
        changed(number, "<numero_mandato_da_sostituire><x></x></numero_mandato_da_sostituire>"),
        changed(line, "<progressivo_versante_da_sostituire>1</progressivo_versante_da_sostituire>"),
    ] {
        assert_eq!(answer(&broken), breaks, "{broken}");
    }
    // Its fields, in document order after the line's name.
    let field = |old: &str, new: &str, cause: u64, element: &str| {
        assert_eq!(answer(&changed(old, new)), (5, cause, element.to_string(), 0xEE), "{new}");
    };
    for (text, cause) in [("", 1), ("00000001", 2), ("1a", 3), ("0", 4)] {
        field(number, &number.replace(">1<", &format!(">{text}<")), cause, "numero_mandato_da_sostituire");
    }
    for (text, cause) in [("", 1), ("0001", 2), ("1a", 3)] {
        field(line, &line.replace(">1<", &format!(">{text}<")), cause, "progressivo_beneficiario_da_sostituire");
    }
    for (text, cause) in [("", 1), ("02021", 2), ("202", 3), ("1999", 4), ("2100", 4)] {
        field("_da_sostituire>2021<", &format!("_da_sostituire>{text}<"), cause, "esercizio_mandato_da_sostituire");
    }
    field(">R<", "><", 1, "anagrafica_beneficiario");
    // Every other operation passes the structure over, wherever it stands and whatever it holds; a broken operation too, which is then told.
    for passed in [&whole_structure[..], "<sostituzione_mandato>?</sostituzione_mandato>", &whole_structure.repeat(2)] {
        let inserted = changed(&whole_structure, passed).replace("SOSTITUZIONE", "INSERIMENTO");
        assert_eq!(answer(&inserted), taken);
        let before = inserted.replace("<progressivo_beneficiario>", &format!("{passed}<progressivo_beneficiario>"));
        assert_eq!(answer(&before), taken);
        for (operation, cause) in [("", 1), ("SOSTITUZIONE ", 2), ("sostituzione", 3), ("SOSTITUZION", 3)] {
            let broken = inserted.replace("INSERIMENTO", operation);
            assert_eq!(answer(&broken), (5, cause, "tipo_operazione".to_string(), 0xEE));
        }
    }
    for (operation, code) in [("VARIAZIONE", 16), ("ANNULLO", 16)] {
        assert_eq!(answer(&good.replace("SOSTITUZIONE", operation)).3, code);
    }
}

/// Documents 01 and 02's other calls: a replaced line is in no journal, in no table 1, and is kept by a repair.
#[test]
fn journals_conversion_and_repair() {
    let mut table = table();
    let mut movements = Vec::new();
    let movement = |year: u16, number: u32, line: u8, cents: u64| {
        let mut bytes = vec![1, line];
        bytes.extend(year.to_be_bytes());
        bytes.extend(number.to_be_bytes());
        bytes.extend(cents.to_be_bytes());
        bytes
    };
    for (year, number) in [(2020, 1), (2021, 1), (2021, 2)] {
        movements.extend([movement(year, number, 1, 100), movement(year, number, 2, 200)]);
    }
    assert_eq!(journal(&table, b"471", &movements.concat()), 0);
    assert_eq!(code(&mut table, "2021", mandato("SOSTITUZIONE", "9", "1.00", &[("1.00", Some(("1", "1", "2020")))])), 0);
    assert_eq!(journal(&table, b"471", &movements.concat()), 30);
    movements.remove(0);
    assert_eq!(journal(&table, b"471", &movements.concat()), 33);
    movements.push(movement(2021, 9, 1, 100));
    assert_eq!(journal(&table, b"471", &movements.concat()), 0);
    // The old form with the same records isn't valid.
    let old = Table::decode(&table).unwrap().encode_as(Form::One);
    assert_eq!(convert(&old, &mut table.clone()), 1);
    let mut repaired = table.clone();
    assert_eq!(salvage(&mut repaired, &mut [0; 2]), SalvageAnswer { code: 0, blanked: 0 });
    assert_eq!(repaired, table);
}
