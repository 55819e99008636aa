//! Document 01 case by case: the run, the marked cases, the layout, the step table, the order of refusals.

use reference::{
    Body, FlowAnswer, Form, Notice, NoticeAnswer, Table, Totals, convert, execute, flow, open, request, reverse, totals,
};

type Line<'a> = (&'a str, &'a str, &'a str);

fn order(kind: &str, party: &str, operation: &str, number: &str, date: &str, total: &str, lines: &[Line]) -> String {
    let lines: String = lines
        .iter()
        .map(|(progressivo, amount, name)| {
            format!(
                "<informazioni_{party}><progressivo_{party}>{progressivo}</progressivo_{party}><importo_{party}>{amount}</importo_{party}>\
                 <{party}><anagrafica_{party}>{name}</anagrafica_{party}></{party}></informazioni_{party}>"
            )
        })
        .collect();
    format!(
        "<{kind}><tipo_operazione>{operation}</tipo_operazione><numero_{kind}>{number}</numero_{kind}><data_{kind}>{date}</data_{kind}>\
         <importo_{kind}>{total}</importo_{kind}>{lines}</{kind}>"
    )
}

fn mandato(operation: &str, number: &str, total: &str, lines: &[Line]) -> String {
    order("mandato", "beneficiario", operation, number, "2021-03-01", total, lines)
}

fn reversale(operation: &str, number: &str, total: &str, lines: &[Line]) -> String {
    order("reversale", "versante", operation, number, "2021-03-01", total, lines)
}

fn header(body: &str) -> String {
    format!(
        "<codice_ABI_BT>01234</codice_ABI_BT><identificativo_flusso>A1</identificativo_flusso>\
         <data_ora_creazione_flusso>2021-03-01T09:30:00</data_ora_creazione_flusso><codice_ente_BT>{body}</codice_ente_BT>\
         <esercizio>2021</esercizio>"
    )
}

fn root(inside: &str) -> String {
    format!("<flusso_ordinativi>{inside}</flusso_ordinativi>")
}

fn whole(body: &str, orders: &[String]) -> String {
    root(&(header(body) + &orders.concat()))
}

fn fresh() -> Vec<u8> {
    let mut table = vec![0xEE; 880];
    assert_eq!(open(&request(b"01234", &[(b"000471", 4), (b"471", 4)]), &mut table), 0);
    table
}

/// Sends a flow that must be taken; the outcome codes.
fn codes(table: &mut [u8], text: &str) -> Vec<u8> {
    let mut outcomes = [0; 1024];
    let answer = flow(table, 1, text.as_bytes(), &mut outcomes);
    assert_eq!((answer.code, answer.place), (0, 0));
    let codes: Vec<u8> = outcomes.chunks(16).take(answer.orders as usize).map(|outcome| outcome[2]).collect();
    assert_eq!(codes.iter().filter(|&&code| code == 0).count() as u64, answer.accepted);
    codes
}

/// Sends a flow that must be refused and change nothing; code and place.
fn refusal(table: &[u8], text: &[u8], room: usize) -> (u64, u64) {
    let mut after = table.to_vec();
    let mut outcomes = vec![0xEE; room];
    let answer = flow(&mut after, 1, text, &mut outcomes);
    assert_ne!(answer.code, 0);
    assert_eq!((answer.orders, answer.accepted, answer.steps), (0, 0, 0));
    assert!(after == table && outcomes.iter().all(|&byte| byte == 0xEE));
    (answer.code, answer.place)
}

fn notice(kind: u64, number: u64, line: u64) -> Notice {
    Notice { kind, esercizio: 2021, number, line, date: (2021, 3, 3) }
}

const ONE: &[Line] = &[("1", "1.00", "Rossi")];

#[test]
fn the_run_whole() {
    let mut table = fresh();
    let text = whole(
        "000471",
        &[
            mandato("INSERIMENTO", "0012", "150.00", &[("1", "100.00", "Rossi"), ("2", "50.00", "Bianchi")]),
            reversale("INSERIMENTO", "12", "20.00", &[("1", "20.01", "Verdi")]),
        ],
    );
    let mut outcomes = [0xEE; 40];
    let answer = flow(&mut table, 1, text.as_bytes(), &mut outcomes);
    assert_eq!(answer, FlowAnswer { orders: 2, accepted: 1, ..FlowAnswer::default() });
    assert_eq!(&outcomes[..16], b"\x01\x01\0\x02\0\0\0\x0C\0\0\0\0\0\0\x3A\x98");
    assert_eq!(&outcomes[16..32], b"\x02\x01\x0D\x01\0\0\0\x0C\0\0\0\0\0\0\x07\xD0");
    assert_eq!(&outcomes[32..], [0xEE; 8]);
    let used = |code: &[u8]| {
        let totals = totals(&table, code);
        (totals.code, totals.used, totals.balance)
    };
    assert_eq!(used(b"000471"), (0, 1, 0));
    assert_eq!(used(b"471"), (0, 0, 0));
}

/// Document 02, Req 09: up to and including the slot found, or all used slots; none for 12 and 13.
#[test]
fn steps_of_a_search() {
    let mut table = fresh();
    let mut steps = |orders: &[String]| flow(&mut table, 1, whole("471", orders).as_bytes(), &mut [0; 1024]).steps;
    let insert = |number: &str| mandato("INSERIMENTO", number, "1.00", ONE);
    let annul = |number: &str| mandato("ANNULLO", number, "1.00", ONE);
    assert_eq!(steps(&[annul("1")]), 0);
    assert_eq!(steps(&[insert("1"), insert("2")]), 1);
    assert_eq!(steps(&[insert("1"), insert("2"), annul("3"), annul("2")]), 1 + 2 + 2 + 2);
    assert_eq!(steps(&[insert("3"), insert("4"), insert("5")]), 2 + 3 + 4);
    assert_eq!(steps(&[annul("5"), annul("4"), reversale("VARIAZIONE", "1", "1.00", ONE)]), 3 * 4);
    assert_eq!(steps(&[mandato("INSERIMENTO", "1", "1.01", ONE)]), 0);
    assert_eq!(steps(&[mandato("VARIAZIONE", "4", "1.00", &[("2", "1.00", "Rossi")])]), 0);
}

#[test]
fn p10_two_bodies() {
    let mut table = fresh();
    let orders: Vec<_> = (1..=4).map(|number| mandato("INSERIMENTO", &number.to_string(), "1.00", ONE)).collect();
    assert_eq!(codes(&mut table, &whole("000471", &orders)), [0; 4]);
    assert_eq!(codes(&mut table, &whole("471", &orders)), [0; 4]);
    assert_eq!(codes(&mut table, &whole("471", &[mandato("INSERIMENTO", "5", "1.00", ONE)])), [15]);
    let mut alone = vec![0; 16 + 48 + 96];
    assert_eq!(open(&request(b"01234", &[(b"471", 1)]), &mut alone), 0);
    assert_eq!(refusal(&alone, whole("000471", &orders[..1]).as_bytes(), 16), (7, 0));
    assert_eq!(codes(&mut alone, &whole("471", &orders[..1])), [0]);
}

#[test]
fn p11_the_same_order_again() {
    let order = mandato("INSERIMENTO", "7", "1.00", ONE);
    assert_eq!(codes(&mut fresh(), &whole("471", &[order.clone(), order])), [0, 14]);
}

#[test]
fn p12_reversing_a_waiting_line() {
    let mut table = fresh();
    codes(&mut table, &whole("471", &[mandato("INSERIMENTO", "7", "1.00", ONE)]));
    assert_eq!(reverse(&mut table, b"471", &notice(1, 7, 1)), NoticeAnswer { code: 22, cents: 0 });
}

#[test]
fn the_step_table() {
    let order = |operation: &str| whole("471", &[mandato(operation, "7", "1.00", ONE)]);
    let absent = fresh();
    let mut waiting = absent.clone();
    assert_eq!(codes(&mut waiting, &order("INSERIMENTO")), [0]);
    let mut annulled = waiting.clone();
    assert_eq!(codes(&mut annulled, &order("ANNULLO")), [0]);
    let mut executed = waiting.clone();
    assert_eq!(execute(&mut executed, b"471", &notice(1, 7, 1)), NoticeAnswer { code: 0, cents: 100 });
    let rows = [("INSERIMENTO", [0, 14, 14, 14]), ("VARIAZIONE", [16, 17, 0, 18]), ("ANNULLO", [16, 17, 0, 18])];
    for (operation, row) in rows {
        for (table, code) in [&absent, &annulled, &waiting, &executed].into_iter().zip(row) {
            let mut after = table.clone();
            assert_eq!(codes(&mut after, &order(operation)), [code], "{operation}");
            assert!(code == 0 || after == *table);
            assert!(Table::decode(&after).is_some());
        }
    }
}

#[test]
fn the_order_of_outcome_codes() {
    let mut table = fresh();
    let two = [("1", "1.00", "a"), ("2", "0.00", "b")];
    let cases = [
        (mandato("INSERIMENTO", "1", "9.00", &[("2", "1.00", "a")]), 12),
        (mandato("INSERIMENTO", "1", "9.00", &[("0", "1.00", "a")]), 12),
        (mandato("INSERIMENTO", "1", "1.00", &[("2", "1.00", "a"), ("1", "0.00", "b")]), 12),
        (mandato("INSERIMENTO", "1", "1.00", &[("1", "1.00", "a"), ("3", "0.00", "b")]), 12),
        (mandato("VARIAZIONE", "1", "9.00", ONE), 13),
        (mandato("VARIAZIONE", "1", "1.00", ONE), 16),
        (mandato("INSERIMENTO", "1", "1.00", &[("001", "1.00", "a"), ("02", "0.00", "b")]), 0),
        (mandato("INSERIMENTO", "1", "9.00", ONE), 13),
        (mandato("ANNULLO", "1", "1.00", ONE), 19),
        (mandato("ANNULLO", "1", "2.00", &[("1", "1.00", "a"), ("2", "1.00", "b")]), 19),
        (mandato("ANNULLO", "1", "1.00", &[("1", "0.00", "a"), ("2", "1.00", "b")]), 19),
        (order("mandato", "beneficiario", "ANNULLO", "1", "2022-01-01", "1.00", &two), 0),
        (mandato("INSERIMENTO", "2", "1.00", ONE), 0),
        (reversale("INSERIMENTO", "1", "1.00", ONE), 0),
        (reversale("INSERIMENTO", "2", "1.00", ONE), 0),
        (reversale("INSERIMENTO", "3", "1.00", ONE), 15),
        (mandato("INSERIMENTO", "1", "1.00", ONE), 14),
    ];
    let (orders, expected): (Vec<_>, Vec<_>) = cases.into_iter().unzip();
    assert_eq!(codes(&mut table, &whole("471", &orders)), expected);
}

#[test]
fn a_changed_order_keeps_no_old_line() {
    let mut table = fresh();
    let three = [("1", "1.00", "a"), ("2", "2.00", "b"), ("3", "3.00", "c")];
    let first = mandato("INSERIMENTO", "1", "6.00", &three);
    let second = order("mandato", "beneficiario", "VARIAZIONE", "1", "2021-12-31", "5.00", &[("1", "5.00", "a")]);
    assert_eq!(codes(&mut table, &whole("000471", &[first, second])), [0, 0]);
    let record = &Table::decode(&table).unwrap().bodies[0].orders[0];
    assert_eq!((record.total, record.lines.len(), record.date.month), (500, 1, 12));
}

#[test]
fn notices_and_totals() {
    let mut table = fresh();
    let two = [("1", "1.00", "a"), ("2", "0.00", "b")];
    let orders = [
        mandato("INSERIMENTO", "1", "1.00", &two),
        reversale("INSERIMENTO", "1", "0.40", &[("1", "0.40", "a")]),
        mandato("INSERIMENTO", "2", "1.00", ONE),
        mandato("ANNULLO", "2", "1.00", ONE),
    ];
    codes(&mut table, &whole("471", &orders));
    let mut code = |execution: bool, body: &str, notice: Notice| {
        let before = table.clone();
        let call = if execution { execute } else { reverse };
        let answer = call(&mut table, body.as_bytes(), &notice);
        // One byte of a slot, and what the entry of 471 keeps.
        let changed = before[112..].iter().zip(&table[112..]).filter(|(old, new)| old != new).count();
        assert_eq!(changed, usize::from(answer.code == 0));
        assert!(before[..88] == table[..88] && before[104..112] == table[104..112]);
        assert_eq!(before[88..104] != table[88..104], answer.cents != 0);
        assert!(answer.code == 0 || answer.cents == 0);
        (answer.code, answer.cents)
    };
    for body in ["", "000471 ", "471\0", "0471", "12345678901234567"] {
        assert_eq!(code(true, body, notice(1, 1, 1)), (7, 0));
    }
    assert_eq!(code(true, "000471", notice(1, 1, 1)), (16, 0));
    for (kind, number) in [(0, 0), (1, 0), (3, 1), (257, 1), (1, 3), (2, 2), (1, 1 << 32 | 1), (1, 10_000_000)] {
        assert_eq!(code(true, "471", notice(kind, number, 1)), (16, 0));
    }
    for esercizio in [2020, 0, 65_536 + 2021, u64::MAX] {
        let other_year = Notice { esercizio, ..notice(1, 1, 1) };
        assert_eq!(code(true, "471", other_year), (16, 0));
    }
    assert_eq!(code(true, "471", notice(1, 2, 0)), (17, 0));
    assert_eq!(code(false, "471", notice(1, 2, 1)), (17, 0));
    for line in [0, 3, 9, 255, 257, u64::MAX] {
        assert_eq!(code(true, "471", notice(1, 1, line)), (20, 0));
    }
    assert_eq!(code(false, "471", notice(1, 1, 1)), (22, 0));
    assert_eq!(code(true, "471", notice(1, 1, 1)), (0, 100));
    assert_eq!(code(true, "471", notice(1, 1, 1)), (21, 0));
    assert_eq!(code(true, "471", notice(1, 1, 2)), (0, 0));
    assert_eq!(code(false, "471", notice(1, 1, 1)), (0, 100));
    assert_eq!(code(true, "471", notice(1, 1, 1)), (0, 100));
    assert_eq!(code(true, "471", notice(2, 1, 1)), (0, 40));
    let expected = Totals { code: 0, used: 3, paid: 100, collected: 40, balance: -60 };
    assert_eq!(totals(&table, b"471"), expected);
    assert_eq!(totals(&table, b"47"), Totals { code: 7, ..Totals::default() });
    table[3] = 1;
    assert_eq!(totals(&table, b"471"), Totals { code: 1, ..Totals::default() });
    assert_eq!(execute(&mut table, b"none", &notice(1, 1, 1)).code, 1);
}

#[test]
fn the_order_of_refusals() {
    let table = fresh();
    let good = whole("471", &[mandato("INSERIMENTO", "1", "1.00", ONE)]);
    let mut damaged = table.clone();
    damaged[13] = 1;
    let pad = |text: &str, length: usize| format!("{text}{}", " ".repeat(length - text.len()));
    assert_eq!(refusal(&damaged, pad("<", 32_769).as_bytes(), 0), (1, 0));
    assert_eq!(refusal(&table, pad("<", 32_769).as_bytes(), 0), (2, 0));
    assert_eq!(refusal(&table, pad("<", 32_768).as_bytes(), 0), (3, 0));
    assert_eq!(codes(&mut table.clone(), &pad(&good, 32_768)), [0]);
    assert_eq!(refusal(&table, pad(&good, 32_769).as_bytes(), 16), (2, 0));
    assert_eq!(refusal(&table, b"<flusso_ordinativi></flusso_ordinativi>", 0), (4, 0));
    // The structure of the last order hides a field of the header; the field hides ABI, body and room.
    let broken = good.replace("2021</esercizio>", "2100</esercizio>").replace("01234", "01235").replace("471", "472");
    assert_eq!(refusal(&table, broken.replace("anagrafica", "x").as_bytes(), 0), (4, 0));
    assert_eq!(refusal(&table, broken.as_bytes(), 0), (5, broken.find("<esercizio>").unwrap() as u64));
    let mended = broken.replace("2100", "2021");
    assert_eq!(refusal(&table, mended.as_bytes(), 0), (6, 0));
    assert_eq!(refusal(&table, mended.replace("01235", "01234").as_bytes(), 0), (7, 0));
    assert_eq!(refusal(&table, good.as_bytes(), 15), (8, 0));
}

#[test]
fn places_of_fields() {
    let table = fresh();
    let good = whole("471", &[mandato("INSERIMENTO", "1", "1.00", &[("1", "1.00", "Rossi"), ("2", "0.00", "Bianchi")])]);
    let place = |text: &str| refusal(&table, text.as_bytes(), 16);
    let broken = good.replace("Bianchi", "");
    assert_eq!(place(&broken), (5, broken.rfind("<anagrafica").unwrap() as u64));
    let later = good.replace("2021-03-01<", "2021-02-29<").replace("Rossi", "");
    let at = later.find("<data_mandato").unwrap() as u64;
    assert_eq!(place(&later), (5, at));
    assert_eq!(place(&format!("\u{FEFF} \n{later}")), (5, at + 5));
}

#[test]
fn the_structure() {
    let mut table = fresh();
    let order = mandato("INSERIMENTO", "1", "1.00", ONE);
    let good = whole("471", std::slice::from_ref(&order));
    // Passed over, whatever they hold: also names that another parent names, and any text.
    for (before, passed) in [
        ("<codice_ABI_BT>", "<x><mandato></mandato></x>"),
        ("<mandato>", "<Esercizio>?</Esercizio>"),
        ("</flusso_ordinativi>", "<flusso_ordinativi></flusso_ordinativi>"),
        ("</flusso_ordinativi>", "<numero_mandato>x</numero_mandato>"),
        ("<tipo_operazione>", "<numero_reversale>x</numero_reversale>"),
        ("<informazioni_beneficiario>", "<informazioni_versante></informazioni_versante>"),
        ("</informazioni_beneficiario>", "<mandato>]]</mandato>"),
        ("<anagrafica_beneficiario>", "<anagrafica_versante></anagrafica_versante>"),
        ("</beneficiario>", "<esercizio></esercizio>"),
    ] {
        let text = good.replacen(before, &(passed.to_string() + before), 1);
        assert_eq!(codes(&mut table.clone(), &text), [0], "{passed} before {before}");
    }
    for (old, new) in [
        ("<esercizio>2021</esercizio>", ""),
        ("<esercizio>2021</esercizio>", "<esercizio>2021</esercizio><esercizio>2021</esercizio>"),
        ("<esercizio>2021</esercizio>", "<esercizio><x></x></esercizio>"),
        ("<esercizio>2021</esercizio>", "<Esercizio>2021</Esercizio>"),
        ("</flusso_ordinativi>", "<esercizio>2021</esercizio></flusso_ordinativi>"),
        (&*order, ""),
        ("<numero_mandato>1</numero_mandato>", "<numero_reversale>1</numero_reversale>"),
        ("<beneficiario>", "<beneficiario></beneficiario><beneficiario>"),
        ("<anagrafica_beneficiario>Rossi</anagrafica_beneficiario>", "Rossi"),
        ("<anagrafica_beneficiario>Rossi</anagrafica_beneficiario>", " "),
        ("<anagrafica_beneficiario>Rossi</anagrafica_beneficiario>", "<x></x>"),
    ] {
        let text = good.replacen(old, new, 1);
        assert_eq!(refusal(&table, text.as_bytes(), 1024), (4, 0), "{new} for {old}");
    }
    let other_root = good.replace("flusso_ordinativi", "flusso");
    assert_eq!(refusal(&table, other_root.as_bytes(), 16), (4, 0));
    let many = |count| whole("471", &vec![order.clone(); count]);
    assert_eq!(refusal(&table, many(65).as_bytes(), 2048), (4, 0));
    assert_eq!(refusal(&table, many(64).as_bytes(), 1023), (8, 0));
    assert_eq!(codes(&mut table, &many(64)).len(), 64);
    let lines = |count| whole("471", &[mandato("INSERIMENTO", "1", "1.00", &vec![ONE[0]; count])]);
    assert_eq!(refusal(&table, lines(9).as_bytes(), 16), (4, 0));
    assert_eq!(codes(&mut table, &lines(8)), [12]);
}

#[test]
fn opening() {
    let good = request(b"01234", &[(b"000471", 4), (b"471", 4)]);
    let answer = |request: &[u8], length: usize| {
        let mut table = vec![0xEE; length];
        let code = open(request, &mut table);
        assert!(code == 0 || table.iter().all(|&byte| byte == 0xEE));
        code
    };
    assert_eq!(answer(&good, 880), 0);
    for length in [0, 879, 881] {
        assert_eq!(answer(&good, length), 10);
    }
    for (at, byte) in [(0, b'a'), (5, 0), (5, 17), (5, 5), (5, 7), (6, b' '), (12, b'1'), (22, 1), (23, 2), (23, 255)] {
        let mut wrong = good.clone();
        wrong[at] = byte;
        assert_eq!(answer(&wrong, 880), 9, "byte {at}");
    }
    for length in [0, 4, 5, 24, 44] {
        assert_eq!(answer(&good[..length], 880), 9);
    }
    assert_eq!(answer(&request(b"01234", &[(b"471", 4), (b"471", 4)]), 880), 9);
    assert_eq!(answer(&request(b"01234", &[(b"471", 0)]), 64), 9);
    assert_eq!(answer(&request(b"01234", &[(b"471", 513)]), 64 + 96 * 513), 9);
    assert_eq!(answer(&request(b"01234", &[(b"471", 512)]), 64 + 96 * 512), 0);
    assert_eq!(answer(&request(b"01234", &[(b"A", 512), (b"a", 172)]), 112 + 96 * 684), 0);
    assert_eq!(answer(&request(b"01234", &[(b"A", 512), (b"a", 173)]), 112 + 96 * 685), 9);
    let many: Vec<[u8; 1]> = (b'a'..b'a' + 17).map(|letter| [letter]).collect();
    let bodies: Vec<(&[u8], u16)> = many.iter().map(|code| (&code[..], 1)).collect();
    assert_eq!(answer(&request(b"01234", &bodies), 16 + 144 * 17), 9);
    assert_eq!(answer(&request(b"01234", &bodies[1..]), 16 + 144 * 16), 0);
}

#[test]
fn conversion() {
    let mut table = fresh();
    codes(
        &mut table,
        &whole("000471", &[mandato("INSERIMENTO", "12", "150.00", &[("1", "100.00", "Rossi"), ("2", "50.00", "Bianchi")])]),
    );
    execute(&mut table, b"000471", &notice(1, 12, 2));
    let old = Table::decode(&table).unwrap().encode_as(Form::One);
    let answer = |old: &[u8], length: usize| {
        let mut converted = vec![0xEE; length];
        let code = convert(old, &mut converted);
        assert!(code == 0 || converted.iter().all(|&byte| byte == 0xEE));
        (code, converted)
    };
    assert_eq!(answer(&old, 880), (0, table.clone()));
    for length in [0, 848, 879, 881] {
        assert_eq!(answer(&old, length).0, 10);
    }
    // A table 2 is no table 1; 1 comes before 10.
    assert_eq!(answer(&table, 912).0, 1);
    for at in [3, 7, 39, 40, 47, 80, 104, 847] {
        let mut damaged = old.clone();
        damaged[at] ^= 4;
        assert_eq!((answer(&damaged, 880).0, answer(&damaged, 0).0), (1, 1), "byte {at}");
    }
    // The longest table 1 has room as a table 2.
    let empty = |code: &[u8], slots| Body { code: code.to_vec(), slots, closed: 0, orders: Vec::new() };
    let longest = Table { abi: *b"01234", bodies: vec![empty(b"A", 512), empty(b"a", 169)] };
    assert_eq!(answer(&longest.encode_as(Form::One), longest.length()), (0, longest.encode()));
}
