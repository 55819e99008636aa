//! Document 02, Req 14, case by case: what a close removes and refuses, and what later calls say of a closed year.

use reference::table::{ENTRY, HEAD, SLOT, number_at};
use reference::{
    Body, CloseAnswer, Date, Form, Kind, Line, LineState, Notice, Order, SalvageAnswer, State, Table, close, convert, execute,
    flow, journal, open, request, reverse, salvage, totals,
};

use LineState::{Executed, Replaced, Waiting};

const BODY: &[u8] = b"471";

fn record(kind: Kind, esercizio: u16, number: u32, lines: &[(LineState, u64)]) -> Order {
    Order {
        kind,
        state: State::Acquired,
        esercizio,
        number,
        date: Date { year: 2021, month: 3, day: 1 },
        total: lines.iter().map(|line| line.1).sum(),
        lines: lines.iter().map(|&(state, amount)| Line { state, amount }).collect(),
    }
}

fn annulled(order: Order) -> Order {
    Order { state: State::Annulled, ..order }
}

/// Body 000471 with a waiting mandato of 2019, and body 471 of six slots with these records.
fn table(closed: u16, orders: Vec<Order>) -> Table {
    let other = vec![record(Kind::Mandato, 2019, 1, &[(Waiting, 7)])];
    let table = Table {
        abi: *b"01234",
        bodies: vec![
            Body { code: b"000471".to_vec(), slots: 2, closed: 0, orders: other },
            Body { code: BODY.to_vec(), slots: 6, closed, orders },
        ],
    };
    assert!(table.stands());
    table
}

/// Records of 2020 to 2022, mixed: of 2020 none waits but an annulled one, of 2021 and 2022 some do.
fn mixed() -> Vec<Order> {
    vec![
        record(Kind::Mandato, 2021, 1, &[(Waiting, 10)]),
        record(Kind::Mandato, 2020, 1, &[(Executed, 100), (Replaced, 200)]),
        record(Kind::Reversale, 2022, 1, &[(Executed, 1_000), (Waiting, 5)]),
        annulled(record(Kind::Mandato, 2020, 2, &[(Waiting, 1), (Waiting, 2)])),
        record(Kind::Reversale, 2020, 1, &[(Executed, 40)]),
        record(Kind::Mandato, 2021, 2, &[(Executed, 3_000)]),
    ]
}

/// Closes a year of body 471: the answer, and the table that it leaves. A refused close changes nothing and removes nothing.
fn closed(before: &Table, year: u64) -> (CloseAnswer, Table) {
    let mut bytes = before.encode();
    let answer = close(&mut bytes, BODY, year);
    let after = Table::decode(&bytes).expect("a close leaves a valid table");
    assert!(answer.code == 0 || (after == *before && answer.removed == 0), "{year}");
    (answer, after)
}

fn code(before: &Table, year: u64) -> u64 {
    closed(before, year).0.code
}

fn flow_of(body: &str, year: u16, operation: &str, numbers: &[u32]) -> Vec<u8> {
    let order = |number: &u32| {
        format!(
            "<mandato><tipo_operazione>{operation}</tipo_operazione><numero_mandato>{number}</numero_mandato>\
             <data_mandato>2021-03-01</data_mandato><importo_mandato>1.00</importo_mandato><informazioni_beneficiario>\
             <progressivo_beneficiario>1</progressivo_beneficiario><importo_beneficiario>1.00</importo_beneficiario>\
             <beneficiario><anagrafica_beneficiario>R</anagrafica_beneficiario></beneficiario></informazioni_beneficiario></mandato>"
        )
    };
    let orders: String = numbers.iter().map(order).collect();
    let flow = format!(
        "<flusso_ordinativi><codice_ABI_BT>01234</codice_ABI_BT><identificativo_flusso>A1</identificativo_flusso>\
         <data_ora_creazione_flusso>2021-03-01T09:30:00</data_ora_creazione_flusso><codice_ente_BT>{body}</codice_ente_BT>\
         <esercizio>{year}</esercizio>{orders}</flusso_ordinativi>"
    );
    flow.into_bytes()
}

fn notice(year: u64, number: u64, line: u64) -> Notice {
    Notice { kind: 1, esercizio: year, number, line, date: (2021, 3, 3) }
}

#[test]
fn the_records_of_the_year_go_and_the_rest_move_up() {
    let before = table(0, mixed());
    let (answer, after) = closed(&before, 2020);
    assert_eq!(answer, CloseAnswer { code: 0, removed: 3 });
    let rest: Vec<_> = mixed().into_iter().filter(|order| order.esercizio != 2020).collect();
    assert_eq!(after, table(2020, rest));
    assert_eq!(after.bodies[0], before.bodies[0], "the other body is as it was");
    // Totals fall with the records; the freed slots are all zero.
    let bytes = after.encode();
    let now = totals(&bytes, BODY);
    assert_eq!((now.used, now.paid, now.collected, now.balance), (3, 3_000, 1_000, -2_000));
    let entry = HEAD + ENTRY;
    assert_eq!(
        (number_at(&bytes, entry + 24, 8), number_at(&bytes, entry + 32, 8), number_at(&bytes, entry + 40, 2)),
        (3_000, 1_000, 2020)
    );
    assert!(bytes[bytes.len() - 3 * SLOT..].iter().all(|&byte| byte == 0));
    assert_eq!(bytes.len(), before.length());
}

#[test]
fn refusals_in_their_order() {
    let before = table(2018, mixed());
    for year in [0, 1, 1999, 2100, 2020 + (1 << 16), 2020 + (1 << 32), u64::MAX] {
        assert_eq!(code(&before, year), 37, "{year}");
    }
    // Not later than the last one closed; 1999 is no year all the same.
    for year in [2000, 2017, 2018] {
        assert_eq!(code(&before, year), 36, "{year}");
    }
    // A year without records closes with none removed, where no earlier one remains.
    assert_eq!(closed(&before, 2019), (CloseAnswer::default(), table(2019, mixed())));
    // Records of 2020 remain; the waiting line of 2021 comes after that.
    for year in [2021, 2022, 2099] {
        assert_eq!(code(&before, year), 38, "{year}");
    }
    let (_, after) = closed(&before, 2020);
    assert_eq!(code(&after, 2021), 39);
    assert_eq!(code(&after, 2022), 38);
    assert_eq!(code(&after, 2020), 36);
    // Invalid tables and unknown bodies come first, whatever the year.
    let mut bytes = before.encode();
    let kept = bytes.clone();
    for (body, year) in [(&b"0471"[..], 1999), (b"", 2020), (b"47", 2018), (b"471 ", 2020)] {
        assert_eq!(close(&mut bytes, body, year), CloseAnswer { code: 7, removed: 0 });
    }
    assert_eq!(bytes, kept);
    bytes[HEAD + ENTRY + 24] ^= 1;
    assert_eq!(close(&mut bytes, b"0471", 1999).code, 1);
    assert_eq!(close(&mut [], BODY, 2020).code, 1);
}

#[test]
fn what_blocks_a_year() {
    let of = |orders: Vec<Order>| code(&table(0, orders), 2021);
    // One waiting line among others, wherever it stands.
    for at in 0..3 {
        let mut lines = [(Executed, 1), (Replaced, 1), (Executed, 1)];
        lines[at].0 = Waiting;
        assert_eq!(of(vec![record(Kind::Reversale, 2021, 1, &lines)]), 39);
    }
    // Annulled, executed and replaced lines don't; nor does what waits of a later year.
    let later = record(Kind::Mandato, 2022, 1, &[(Waiting, 1)]);
    let gone = annulled(record(Kind::Mandato, 2021, 1, &[(Waiting, 1)]));
    assert_eq!(
        closed(&table(0, vec![later.clone(), gone]), 2021),
        (CloseAnswer { code: 0, removed: 1 }, table(2021, vec![later.clone()]))
    );
    assert_eq!(of(vec![record(Kind::Mandato, 2021, 1, &[(Replaced, 1)])]), 0);
    assert_eq!(of(vec![later.clone(), record(Kind::Mandato, 2021, 1, &[(Executed, 0)])]), 0);
    // An annulled record of an earlier year remains all the same, before a waiting line of the year itself.
    let earlier = annulled(record(Kind::Mandato, 2020, 1, &[(Waiting, 1)]));
    assert_eq!(of(vec![earlier, record(Kind::Mandato, 2021, 1, &[(Waiting, 1)])]), 38);
    // The other body's waiting mandato of 2019 blocks nothing of this one's.
    assert_eq!(of(vec![]), 0);
}

/// A body that is full takes orders of later years again, and fills, closes and fills.
#[test]
fn freed_slots_are_used() {
    let mut bytes = vec![0; HEAD + ENTRY + 3 * SLOT];
    assert_eq!(open(&request(b"01234", &[(BODY, 3)]), &mut bytes), 0);
    assert_eq!(number_at(&bytes, HEAD + 40, 2), 0);
    for year in 2020..2024 {
        let mut outcomes = [0; 64];
        let answer = flow(&mut bytes, 1, &flow_of("471", year, "INSERIMENTO", &[1, 2, 3, 4]), &mut outcomes);
        assert_eq!((answer.code, answer.accepted, outcomes[3 * 16 + 2]), (0, 3, 15));
        for number in 1..=3 {
            assert_eq!(close(&mut bytes, BODY, year.into()).code, 39);
            assert_eq!(execute(&mut bytes, BODY, &notice(year.into(), number, 1)).code, 0);
        }
        assert_eq!(totals(&bytes, BODY).paid, 300);
        assert_eq!(close(&mut bytes, BODY, year.into()), CloseAnswer { code: 0, removed: 3 });
        assert_eq!(totals(&bytes, BODY).used, 0);
        let entry = &bytes[HEAD + 24..HEAD + ENTRY];
        assert_eq!((number_at(entry, 0, 8), number_at(entry, 16, 2)), (0, u64::from(year)));
        assert!(entry[18..].iter().chain(&bytes[HEAD + ENTRY..]).all(|&byte| byte == 0));
    }
}

#[test]
fn later_calls_on_a_closed_year() {
    let (_, after) = closed(&table(0, mixed()), 2020);
    let mut bytes = after.encode();
    // Flows of it and of every earlier year, of this body alone; before the room for outcomes and after the body.
    for year in [2000, 2019, 2020] {
        for room in [0, 16] {
            let mut outcomes = vec![0xEE; room];
            let answer = flow(&mut bytes, 1, &flow_of("471", year, "INSERIMENTO", &[9]), &mut outcomes);
            assert_eq!((answer.code, answer.place, answer.orders, answer.steps), (36, 0, 0, 0));
            assert!(outcomes.iter().all(|&byte| byte == 0xEE));
        }
        assert_eq!(flow(&mut bytes, 1, &flow_of("0471", year, "INSERIMENTO", &[9]), &mut [0; 16]).code, 7);
        assert_eq!(flow(&mut bytes.clone(), 1, &flow_of("000471", year, "INSERIMENTO", &[9]), &mut [0; 16]).accepted, 1);
    }
    assert_eq!(flow(&mut bytes.clone(), 1, &flow_of("471", 2021, "INSERIMENTO", &[9]), &mut [0; 15]).code, 8);
    assert_eq!(flow(&mut bytes.clone(), 1, &flow_of("471", 2021, "INSERIMENTO", &[9]), &mut [0; 16]).accepted, 1);
    // Notices find no record.
    assert_eq!(execute(&mut bytes, BODY, &notice(2020, 1, 1)).code, 16);
    assert_eq!(reverse(&mut bytes, BODY, &notice(2020, 1, 1)).code, 16);
    assert_eq!(reverse(&mut bytes.clone(), BODY, &notice(2021, 2, 1)).code, 0);
    // A line of it can't be replaced.
    let text = String::from_utf8(flow_of("471", 2021, "SOSTITUZIONE", &[9])).unwrap();
    let named = |year: u16| {
        let structure = format!(
            "<sostituzione_mandato><numero_mandato_da_sostituire>1</numero_mandato_da_sostituire>\
             <progressivo_beneficiario_da_sostituire>1</progressivo_beneficiario_da_sostituire>\
             <esercizio_mandato_da_sostituire>{year}</esercizio_mandato_da_sostituire></sostituzione_mandato>"
        );
        text.replace("</informazioni_beneficiario>", &format!("{structure}</informazioni_beneficiario>"))
    };
    for (bytes, code) in [(after.encode(), 24), (table(0, mixed()[1..].to_vec()).encode(), 0)] {
        let mut outcomes = [0; 16];
        assert_eq!(flow(&mut bytes.clone(), 1, named(2020).as_bytes(), &mut outcomes).code, 0);
        assert_eq!(outcomes[2], code);
    }
    // The journal has none of its lines.
    let movement = |kind: u8, year: u16, number: u32, cents: u64| {
        [&[kind, 1][..], &year.to_be_bytes(), &number.to_be_bytes(), &cents.to_be_bytes()].concat()
    };
    let left = [movement(2, 2022, 1, 1_000), movement(1, 2021, 2, 3_000)].concat();
    assert_eq!(journal(&bytes, BODY, &left), 0);
    assert_eq!(journal(&bytes, BODY, &[left, movement(1, 2020, 1, 100)].concat()), 30);
    assert_eq!(bytes, after.encode());
}

/// A conversion sets no closed year.
#[test]
fn converted() {
    let mut old = table(0, vec![]);
    old.bodies[1].orders = mixed();
    old.bodies[1].orders[1].lines[1].state = Executed;
    let mut bytes = vec![0xEE; old.length()];
    assert_eq!(convert(&old.encode_as(Form::One), &mut bytes), 0);
    assert_eq!(Table::decode(&bytes), Some(old.clone()));
    for entry in 0..2 {
        assert!(bytes[HEAD + ENTRY * entry + 40..HEAD + ENTRY * (entry + 1)].iter().all(|&byte| byte == 0));
    }
    assert_eq!(close(&mut bytes, BODY, 2020), CloseAnswer { code: 0, removed: 3 });
}

/// A repair blanks records of closed years, each body's by its own year, and reports them; the year stays.
#[test]
fn repaired() {
    let (_, valid) = closed(&table(0, mixed()), 2020);
    let mut bytes = valid.encode();
    let (mut report, kept) = ([0xEE; 100], bytes.clone());
    assert_eq!(salvage(&mut bytes, &mut report), SalvageAnswer::default());
    assert_eq!((&bytes, &report[..4], report[4]), (&kept, &[0; 4][..], 0xEE));

    // The year of a table of years 2020 to 2022 set to each.
    let first = HEAD + 2 * ENTRY + 2 * SLOT;
    for (year, gone) in [(2019u16, vec![]), (2020, vec![1, 3, 4]), (2021, vec![0, 1, 3, 4, 5]), (2022, (0..6).collect())] {
        let mut bytes = table(0, mixed()).encode();
        bytes[HEAD + ENTRY + 40..HEAD + ENTRY + 42].copy_from_slice(&year.to_be_bytes());
        assert_eq!(totals(&bytes, BODY).code, if gone.is_empty() { 0 } else { 1 });
        let mut report = [0xEE; 100];
        assert_eq!(salvage(&mut bytes, &mut report), SalvageAnswer { code: 0, blanked: gone.len() as u64 });
        let left: Vec<_> = mixed().into_iter().filter(|order| order.esercizio > year).collect();
        assert_eq!(Table::decode(&bytes), Some(table(year, left)));
        let places: Vec<_> = (0..gone.len()).map(|at| number_at(&report, 4 + 4 * at, 4) as usize).collect();
        assert_eq!(places, gone.iter().map(|slot| first + SLOT * slot).collect::<Vec<_>>());
    }
    // What is no year, and bytes 42 to 47.
    for (at, byte) in [(40, 7), (41, 1), (42, 1), (47, 1)] {
        let mut bytes = table(0, mixed()).encode();
        bytes[HEAD + ENTRY + at] = byte;
        let kept = bytes.clone();
        assert_eq!(salvage(&mut bytes, &mut [0; 100]), SalvageAnswer { code: 34, blanked: 0 });
        assert_eq!(bytes, kept);
    }
    for (year, code) in [(1999u16, 34), (2000, 0), (2099, 0), (2100, 34)] {
        let mut bytes = table(0, mixed()).encode();
        bytes[HEAD + ENTRY + 40..HEAD + ENTRY + 42].copy_from_slice(&year.to_be_bytes());
        assert_eq!(salvage(&mut bytes, &mut [0; 100]).code, code, "{year}");
    }
    // A copy of a record's key with a closed year is no key that is kept.
    let mut both = table(0, vec![]);
    both.bodies[1].orders =
        vec![record(Kind::Mandato, 2020, 1, &[(Executed, 1)]), record(Kind::Mandato, 2021, 1, &[(Executed, 2)])];
    let mut bytes = both.encode();
    bytes[HEAD + ENTRY + 40..HEAD + ENTRY + 42].copy_from_slice(&2020u16.to_be_bytes());
    assert_eq!(salvage(&mut bytes, &mut [0; 8]).code, 0);
    assert_eq!(totals(&bytes, BODY).paid, 2);
}
