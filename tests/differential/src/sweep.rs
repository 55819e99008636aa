//! Cases that leave nothing to chance: every byte of a flow, a table and a request set to every value in turn, every character in a text,
//! every day and every second at the edges, and a flow in the usual shape that leaves it at every tag in turn.

use std::ops::Range;

use reference::markup::is_character;
use reference::{Body, Date, Form, Kind, Line, LineState, Notice, Order, State, Table};

use crate::case::{Call, Case};
use crate::{messages, tables};

/// A table with an order in each state, for the bodies 000471 and 471.
fn table() -> Table {
    use LineState::{Executed, Replaced, Waiting};
    let order = |kind, number, state, lines: &[(LineState, u64)]| Order {
        kind,
        state,
        esercizio: 2021,
        number,
        date: Date { year: 2021, month: 3, day: 1 },
        total: lines.iter().map(|line| line.1).sum(),
        lines: lines.iter().map(|&(state, amount)| Line { state, amount }).collect(),
    };
    let first = vec![
        order(Kind::Mandato, 12, State::Acquired, &[(Waiting, 10_000), (Waiting, 5_000)]),
        order(Kind::Reversale, 12, State::Acquired, &[(Executed, 256), (Waiting, 0), (Executed, 65_536)]),
        order(Kind::Mandato, 13, State::Annulled, &[(Waiting, 1)]),
    ];
    let mut eight = [(Executed, 7); 8];
    eight[3].0 = Replaced;
    let second = vec![order(Kind::Mandato, 12, State::Acquired, &eight)];
    Table {
        abi: *b"01234",
        bodies: vec![
            Body { code: b"000471".to_vec(), slots: 4, closed: 2020, orders: first },
            Body { code: b"471".to_vec(), slots: 1, closed: 0, orders: second },
        ],
    }
}

/// A flow that changes an order of the table, with parts that a case replaces.
fn flow(created: &str, date: &str, progressivo: &str, name: &[u8], passed: &[u8]) -> Vec<u8> {
    let mut flow = b"\xEF\xBB\xBF<?xml version=\"1.0\" encoding=\"UTF-8\"?>\n".to_vec();
    flow.extend(b"<flusso_ordinativi><codice_ABI_BT>01234</codice_ABI_BT><identificativo_flusso>A1</identificativo_flusso>");
    flow.extend(format!("<data_ora_creazione_flusso>{created}</data_ora_creazione_flusso>").bytes());
    flow.extend(b"<codice_ente_BT>000471</codice_ente_BT><esercizio>2021</esercizio><x>");
    flow.extend(passed);
    flow.extend(b"</x><mandato><tipo_operazione>VARIAZIONE</tipo_operazione><numero_mandato>012</numero_mandato>");
    flow.extend(format!("<data_mandato>{date}</data_mandato><importo_mandato>10.50</importo_mandato>").bytes());
    flow.extend(format!("<informazioni_beneficiario><progressivo_beneficiario>{progressivo}</progressivo_beneficiario>").bytes());
    flow.extend(b"<importo_beneficiario>10.50</importo_beneficiario><beneficiario><anagrafica_beneficiario>");
    flow.extend(name);
    flow.extend(b"</anagrafica_beneficiario></beneficiario></informazioni_beneficiario></mandato></flusso_ordinativi>\n");
    flow
}

const CREATED: &str = "2021-03-01T09:30:00";
const DATE: &str = "2021-12-31";

/// All of them.
pub fn cases() -> impl Iterator<Item = Case> {
    let bytes = table().encode();
    let with_flow = move |flow| Case { table: bytes.clone(), calls: vec![Call::Flow { edition: 1, flow, room: 16 }] };
    let flows = dates()
        .chain(times())
        .chain(numbers())
        .chain(characters())
        .chain(sequences())
        .chain(bytes_of_a_flow())
        .chain(bits_of_a_replacement())
        .map(with_flow);
    bytes_of_a_table()
        .chain(bits_of_a_damaged_table())
        .chain(years())
        .chain(bytes_of_a_request())
        .chain(bytes_of_an_old_table())
        .chain(flows)
        .chain([1, 2].into_iter().flat_map(shapes))
        .chain(messages::sweep())
}

/// Every byte with every value in its place.
fn replaced(bytes: Vec<u8>) -> impl Iterator<Item = Vec<u8>> {
    (0..bytes.len() * 256).map(move |index| {
        let mut changed = bytes.clone();
        changed[index / 256] = index as u8;
        changed
    })
}

fn bytes_of_a_table() -> impl Iterator<Item = Case> {
    let notice = Notice { kind: 2, esercizio: 2021, number: 12, line: 2, date: (2021, 3, 3) };
    let calls = [
        Call::Totals { body: b"000471".to_vec() },
        Call::Execute { body: b"000471".to_vec(), notice },
        Call::Reverse { body: b"000471".to_vec(), notice },
        Call::Flow { edition: 1, flow: flow(CREATED, DATE, "1", b"R", b""), room: 16 },
        Call::Close { body: b"471".to_vec(), year: 2021 },
    ];
    // One kind of call in turn: each of them looks at the whole table.
    replaced(table().encode()).enumerate().map(move |(index, table)| Case { table, calls: vec![calls[index % 7 % 5].clone()] })
}

/// Closes of every year around those that are served, and of numbers that would be one of them if they were cut.
fn years() -> impl Iterator<Item = Case> {
    let table = table().encode();
    let cut = [16, 32, 48, 63].map(|bit| 2021 + (1 << bit));
    (0..2_500)
        .chain(cut)
        .chain([65_535, u64::MAX])
        .flat_map(|year| ["000471", "471"].map(|body| (body, year)))
        .map(move |(body, year)| Case { table: table.clone(), calls: vec![Call::Close { body: body.into(), year }] })
}

/// Each bit of a table changed, and the table repaired.
fn bits_of_a_damaged_table() -> impl Iterator<Item = Case> {
    let bytes = table().encode();
    (0..8 * bytes.len()).map(move |bit| {
        let mut damaged = bytes.clone();
        damaged[bit / 8] ^= 1 << (bit % 8);
        Case { table: Vec::new(), calls: vec![Call::Salvage { damaged, room: 8 }] }
    })
}

fn bytes_of_a_request() -> impl Iterator<Item = Case> {
    let table = table();
    replaced(tables::request(&table))
        .map(move |request| Case { table: Vec::new(), calls: vec![Call::Open { request, room: table.length() }] })
}

fn bytes_of_an_old_table() -> impl Iterator<Item = Case> {
    let mut table = table();
    tables::without_replaced(&mut table);
    tables::without_closed(&mut table);
    replaced(table.encode_as(Form::One))
        .map(move |old| Case { table: Vec::new(), calls: vec![Call::Convert { old, room: table.length() }] })
}

fn bytes_of_a_flow() -> impl Iterator<Item = Vec<u8>> {
    replaced(flow(CREATED, DATE, "1", "R&amp;\u{e0}]".as_bytes(), b"<y></y>"))
}

/// An order that replaces both executed lines of the table's reversale 12.
fn replacing() -> String {
    let line = |progressivo: u8, amount: &str, named: u8| {
        format!(
            "<informazioni_versante><progressivo_versante>{progressivo}</progressivo_versante><importo_versante>{amount}</importo_versante>\
             <versante><anagrafica_versante>R</anagrafica_versante></versante><sostituzione_reversale>\
             <numero_reversale_da_sostituire>012</numero_reversale_da_sostituire>\
             <progressivo_versante_da_sostituire>{named}</progressivo_versante_da_sostituire>\
             <esercizio_reversale_da_sostituire>2021</esercizio_reversale_da_sostituire></sostituzione_reversale>\
             </informazioni_versante>"
        )
    };
    let lines = [line(1, "2.56", 1), line(2, "655.36", 3)].concat();
    format!(
        "<reversale><tipo_operazione>SOSTITUZIONE</tipo_operazione><numero_reversale>13</numero_reversale>\
         <data_reversale>{DATE}</data_reversale><importo_reversale>657.92</importo_reversale>{lines}</reversale>"
    )
}

/// A flow of these orders, with nothing between its elements.
fn tight(edition: u64, orders: &str) -> Vec<u8> {
    let header = |zone: &str| {
        format!(
            "<codice_ABI_BT>01234</codice_ABI_BT><identificativo_flusso>A1</identificativo_flusso>\
             <data_ora_creazione_flusso>{CREATED}{zone}</data_ora_creazione_flusso><codice_ente_BT>000471</codice_ente_BT>"
        )
    };
    let (attribute, header) = match edition {
        1 => ("", header("")),
        _ => (" Id=\"F_1\"", format!("<testata_flusso>{}</testata_flusso>", header("+01:00"))),
    };
    format!("<flusso_ordinativi{attribute}>{header}<esercizio>2021</esercizio>{orders}</flusso_ordinativi>").into_bytes()
}

/// A flow whose one order is a replacement.
fn replacement() -> Vec<u8> {
    tight(1, &replacing())
}

/// A flow in the usual shape: a mandato of two lines, a reversale and a replacement.
fn usual(edition: u64) -> Vec<u8> {
    let line = |party: &str, progressivo: u8| {
        format!(
            "<informazioni_{party}><progressivo_{party}>{progressivo}</progressivo_{party}><importo_{party}>5.25</importo_{party}>\
             <{party}><anagrafica_{party}>R</anagrafica_{party}></{party}></informazioni_{party}>"
        )
    };
    let order = |kind: &str, total: &str, lines: &str| {
        format!(
            "<{kind}><tipo_operazione>INSERIMENTO</tipo_operazione><numero_{kind}>21</numero_{kind}><data_{kind}>{DATE}</data_{kind}>\
             <importo_{kind}>{total}</importo_{kind}>{lines}</{kind}>"
        )
    };
    let mandato = order("mandato", "10.50", &[line("beneficiario", 1), line("beneficiario", 2)].concat());
    tight(edition, &[mandato, order("reversale", "5.25", &line("versante", 1)), replacing()].concat())
}

/// Where each element of a tight flow stands, and its content.
fn elements(flow: &[u8]) -> Vec<(Range<usize>, Range<usize>)> {
    let (mut open, mut all) = (Vec::new(), Vec::new());
    for (at, _) in flow.iter().enumerate().filter(|&(_, &byte)| byte == b'<') {
        let past = at + 1 + flow[at..].iter().position(|&byte| byte == b'>').expect("a tag ends");
        if flow[at + 1] != b'/' {
            open.push((at, past));
        } else {
            let (start, content) = open.pop().expect("an end tag has a start tag");
            all.push((start..past, content..at));
        }
    }
    all
}

/// A flow in the usual shape but for one element: something stands before it, in it or at its end, it is missing, stands twice or after
/// the next one, or holds another text or none.
fn shapes(edition: u64) -> impl Iterator<Item = Case> {
    let flow = usual(edition);
    let table = table().encode();
    let mut changed = vec![flow.clone()];
    let mut change = |at: Range<usize>, by: &[u8]| changed.push([&flow[..at.start], by, &flow[at.end..]].concat());
    for (whole, content) in elements(&flow) {
        for by in [&b" \n"[..], b"x", b"<x>1</x>", b"<x><y> </y></x>", b"<x>1</y>", b"<mandato></mandato>"] {
            for at in [whole.start, content.start, content.end] {
                change(at..at, by);
            }
        }
        change(whole.clone(), b"");
        change(whole.end..whole.end, &flow[whole.clone()]);
        if let Some((next, _)) = elements(&flow).into_iter().find(|(next, _)| next.start == whole.end) {
            change(whole.start..next.end, &[&flow[next.clone()], &flow[whole.clone()]].concat());
        }
        for by in [&b""[..], b"0", b"1", b"00000000", b"INSERIMENTO", b"SOSTITUZIONE", b"2021-02-29", b"5.250", b"&amp;"] {
            change(content.clone(), by);
        }
    }
    changed.into_iter().map(move |flow| Case { table: table.clone(), calls: vec![Call::Flow { edition, flow, room: 48 }] })
}

/// Each bit of a replacement's flow changed.
fn bits_of_a_replacement() -> impl Iterator<Item = Vec<u8>> {
    let flow = replacement();
    (0..8 * flow.len()).map(move |bit| {
        let mut changed = flow.clone();
        changed[bit / 8] ^= 1 << (bit % 8);
        changed
    })
}

fn dates() -> impl Iterator<Item = Vec<u8>> {
    let years = [1999, 2000, 2001, 2004, 2020, 2021, 2096, 2098, 2099, 2100];
    let days = (0..14).flat_map(|month| (0..33).map(move |day| (month, day)));
    days.flat_map(move |(month, day)| years.map(|year| format!("{year}-{month:02}-{day:02}"))).flat_map(|date| {
        let created = format!("{date}T00:00:00");
        [flow(CREATED, &date, "1", b"R", b""), flow(&created, DATE, "1", b"R", b"")]
    })
}

fn times() -> impl Iterator<Item = Vec<u8>> {
    (0..100).flat_map(|part| {
        let times = [format!("{part:02}:59:59"), format!("23:{part:02}:59"), format!("23:59:{part:02}")];
        times.map(|time| flow(&format!("{DATE}T{time}"), DATE, "1", b"R", b""))
    })
}

fn numbers() -> impl Iterator<Item = Vec<u8>> {
    (0..1001).flat_map(|number| [format!("{number}"), format!("{number:03}")]).map(|number| flow(CREATED, DATE, &number, b"R", b""))
}

/// Every character that a text may have, many to a flow; every other code point in a flow of its own.
fn characters() -> impl Iterator<Item = Vec<u8>> {
    let all: Vec<char> = ('\0'..=char::MAX).collect();
    let (allowed, refused): (Vec<char>, Vec<char>) =
        all.into_iter().filter(|character| !"<&".contains(*character)).partition(|&c| is_character(c));
    let whole: Vec<String> = allowed.chunks(4_000).map(|characters| characters.iter().collect()).collect();
    let surrogates = (0xD800..0xE000u32).map(|point| vec![0xED, 0x80 | (point >> 6 & 0x3F) as u8, 0x80 | (point & 0x3F) as u8]);
    let refused = refused.into_iter().map(|character| character.to_string().into_bytes()).chain(surrogates);
    let passed = whole.into_iter().map(String::into_bytes).chain(refused.clone());
    let named = refused.map(|text| flow(CREATED, DATE, "1", &text, b""));
    passed.map(|text| flow(CREATED, DATE, "1", b"R", &text)).chain(named)
}

/// Sequences of bytes at the edges of UTF-8.
fn sequences() -> impl Iterator<Item = Vec<u8>> {
    const EDGES: [u8; 9] = [0x7F, 0x80, 0x8F, 0x90, 0x9F, 0xA0, 0xBF, 0xC0, 0xFF];
    let pairs = (0x80..=0xFF).flat_map(|first| EDGES.map(|second| (first, second)));
    pairs.flat_map(|(first, second)| {
        let texts: [&[u8]; 5] =
            [&[first], &[first, second], &[first, second, 0x80], &[first, second, 0xBF, 0x80], &[first, 0x80, 0x80, second]];
        texts.map(|text| flow(CREATED, DATE, "1", text, b""))
    })
}

#[cfg(test)]
mod tests {
    use super::*;

    #[test]
    fn the_base_stands() {
        let mut bytes = table().encode();
        assert!(Table::decode(&bytes).is_some());
        assert_eq!(reference::close(&mut bytes.clone(), b"471", 2021).removed, 1);
        assert_eq!(reference::close(&mut bytes.clone(), b"000471", 2021).code, 39);
        let base = flow(CREATED, DATE, "1", "R&amp;\u{e0}]".as_bytes(), b"<y></y>");
        assert_eq!(reference::flow(&mut bytes, 1, &base, &mut [0; 16]).accepted, 1);
        assert_eq!(reference::flow(&mut bytes, 1, &replacement(), &mut [0; 16]).accepted, 1);
        for edition in [1, 2] {
            let mut bytes = table().encode();
            assert_eq!(reference::flow(&mut bytes, edition, &usual(edition), &mut [0; 48]).orders, 3);
        }
    }
}
