//! Flows: whole ones, and ones damaged in one place.

use reference::{Body, Date, Edition, Kind, LONGEST_FLOW, Line, LineState, Order, Table};

use crate::random::Random;

/// An element that is going to be written.
#[derive(Clone, Debug)]
pub struct Node {
    pub(crate) name: Vec<u8>,
    /// What stands behind the name in the start tag.
    attribute: Vec<u8>,
    pub(crate) inside: Inside,
}

#[derive(Clone, Debug)]
pub(crate) enum Inside {
    Text(Vec<u8>),
    Nodes(Vec<Node>),
}

/// The byte order mark.
pub const MARK: &[u8] = b"\xEF\xBB\xBF";
/// The declaration.
pub const DECLARATION: &[u8] = br#"<?xml version="1.0" encoding="UTF-8"?>"#;

/// Every name that documents 01 and 02 know.
#[rustfmt::skip]
const NAMES: [&str; 33] = [
    "flusso_ordinativi", "codice_ABI_BT", "identificativo_flusso", "data_ora_creazione_flusso", "codice_ente_BT", "esercizio",
    "mandato", "reversale", "tipo_operazione", "numero_mandato", "data_mandato", "importo_mandato", "informazioni_beneficiario",
    "progressivo_beneficiario", "importo_beneficiario", "beneficiario", "anagrafica_beneficiario", "numero_reversale",
    "data_reversale", "importo_reversale", "informazioni_versante", "progressivo_versante", "importo_versante", "versante",
    "anagrafica_versante", "sostituzione_mandato", "numero_mandato_da_sostituire", "progressivo_beneficiario_da_sostituire",
    "esercizio_mandato_da_sostituire", "sostituzione_reversale", "numero_reversale_da_sostituire",
    "progressivo_versante_da_sostituire", "esercizio_reversale_da_sostituire",
];

/// Names that document 01 doesn't know, some of them nearly.
#[rustfmt::skip]
const OTHER_NAMES: [&str; 16] = [
    "x", "X_1", "xml", "Esercizio", "esercizio_", "esercizi", "mandati", "Mandato", "numero", "data", "importo", "codice_ABI_Bt",
    "classificazione", "informazioni_aggiuntive", "identificativo_flusso_di_un_nome_di_48_byte_giu_", "testata_flusso",
];

/// A name that is one byte too long.
const TOO_LONG: &str = "identificativo_flusso_di_un_nome_di_49_byte_esatt";

/// Bytes at the edges of UTF-8 and of the characters that XML 1.0 allows, for text.
#[rustfmt::skip]
pub(crate) const TEXT_EDGES: [&[u8]; 64] = [
    b"\x00", b"\x01", b"\x08", b"\x09", b"\x0A", b"\x0B", b"\x0C", b"\x0D", b"\x0E", b"\x1F", b"\x20", b"\x7E", b"\x7F", b"\x80",
    b"\xBF", b"\xC0\x80", b"\xC1\xBF", b"\xC2", b"\xC2\x80", b"\xC2\x7F", b"\xC2\xC0", b"\xC2\x85", b"\xDF\xBF", b"\xE0\x9F\xBF",
    b"\xE0\xA0\x80", b"\xE0\xA0", b"\xE1\x80\x80", b"\xE1\x80\x7F", b"\xE1\xC0\x80", b"\xEC\xBF\xBF", b"\xED\x9F\xBF",
    b"\xED\xA0\x80", b"\xED\xBF\xBF", b"\xEE\x80\x80", b"\xEF\xB7\x90", b"\xEF\xBB\xBF", b"\xEF\xBF\xBD", b"\xEF\xBF\xBE",
    b"\xEF\xBF\xBF", b"\xF0\x8F\xBF\xBF", b"\xF0\x90\x80\x80", b"\xF0\x9F\x98", b"\xF0\x90\x80\xC0", b"\xF0\x90\x7F\x80",
    b"\xF1\x80\x80\x80", b"\xF3\xBF\xBF\xBF", b"\xF4\x8F\xBF\xBF", b"\xF4\x90\x80\x80", b"\xF5\x80\x80\x80",
    b"\xF8\x88\x80\x80\x80", b"\xFE", b"\xFF", b"]]>", b"]]", b"]]]>", b"]>", b"&amp", b"&AMP;", b"&;", b"&", b"&#60;", b"&lt",
    b"&amp;&gt;", b"&apos;&quot;&lt;",
];

/// Names that a rule lists.
pub(crate) type Names = &'static [&'static str];

/// The children that a parent names; `None` for an element that is no parent.
fn named(parent: &[u8]) -> Option<Names> {
    match parent {
        b"flusso_ordinativi" => Some(&NAMES[1..8]),
        b"testata_flusso" => Some(&NAMES[1..5]),
        b"mandato" => Some(&NAMES[8..13]),
        // The structure of a SOSTITUZIONE too: with the other operations it is put there by `order`.
        b"informazioni_beneficiario" => {
            Some(&["progressivo_beneficiario", "importo_beneficiario", "beneficiario", "sostituzione_mandato"])
        }
        b"sostituzione_mandato" => Some(&NAMES[26..29]),
        b"sostituzione_reversale" => Some(&NAMES[30..33]),
        b"beneficiario" => Some(&NAMES[16..17]),
        b"reversale" => {
            Some(&["tipo_operazione", "numero_reversale", "data_reversale", "importo_reversale", "informazioni_versante"])
        }
        b"informazioni_versante" => Some(&["progressivo_versante", "importo_versante", "versante", "sostituzione_reversale"]),
        b"versante" => Some(&NAMES[24..25]),
        _ => None,
    }
}

impl Node {
    pub(crate) fn text(name: impl Into<Vec<u8>>, text: impl Into<Vec<u8>>) -> Node {
        Node { name: name.into(), attribute: Vec::new(), inside: Inside::Text(text.into()) }
    }

    pub(crate) fn nodes(name: impl Into<Vec<u8>>, nodes: Vec<Node>) -> Node {
        Node { name: name.into(), attribute: Vec::new(), inside: Inside::Nodes(nodes) }
    }

    pub(crate) fn children(&self) -> &[Node] {
        match &self.inside {
            Inside::Nodes(nodes) => nodes,
            Inside::Text(_) => &[],
        }
    }

    pub(crate) fn children_mut(&mut self) -> Option<&mut Vec<Node>> {
        match &mut self.inside {
            Inside::Nodes(nodes) => Some(nodes),
            Inside::Text(_) => None,
        }
    }

    /// The ways to all elements below this one, each a list of places.
    pub(crate) fn ways(&self) -> Vec<Vec<usize>> {
        let mut ways = Vec::new();
        for (place, child) in self.children().iter().enumerate() {
            ways.push(vec![place]);
            ways.extend(child.ways().into_iter().map(|way| [&[place], &way[..]].concat()));
        }
        ways
    }

    pub(crate) fn at(&mut self, way: &[usize]) -> &mut Node {
        let mut node = self;
        for &place in way {
            node = &mut node.children_mut().expect("a way leads through elements")[place];
        }
        node
    }

    fn write(&self, white: &mut White, to: &mut Vec<u8>) {
        to.extend([b"<", &self.name[..], &self.attribute, b">"].concat());
        match &self.inside {
            Inside::Text(text) => to.extend(text),
            Inside::Nodes(nodes) => {
                for node in nodes {
                    white.write(to);
                    node.write(white, to);
                }
                white.write(to);
            }
        }
        to.extend([b"</", &self.name[..], b">"].concat());
    }
}

/// How white space is strewn between the tags.
enum White {
    None,
    Lines,
    Random(Random),
}

impl White {
    fn write(&mut self, to: &mut Vec<u8>) {
        match self {
            White::None => {}
            White::Lines => to.extend(b"\r\n"),
            White::Random(random) => {
                for _ in 0..[0, 0, 0, 1, 2, 5][random.below(6)] {
                    to.push(*random.pick(b" \t\n\r"));
                }
            }
        }
    }
}

/// How many orders a flow is to have.
#[derive(Clone, Copy, Debug, PartialEq, Eq)]
pub enum Size {
    /// One to four.
    Few,
    /// Any number to 64, and now and then one more.
    Any,
}

/// Ids as they may stand on the root in edition 2.
pub const IDS: [&str; 5] =
    ["", " Id=\"F_1\"", " Id=\"1\"", " Id=\"_\"", " Id=\"abcdefghijklmnopqrstuvwxyzABCDEFGHIJKLMNOPQRSTUVWXYZ0123456789_z\""];
/// Attributes that no root may have.
pub const WRONG_IDS: [&str; 14] = [
    " Id=\"\"",
    " Id=\"abcdefghijklmnopqrstuvwxyzABCDEFGHIJKLMNOPQRSTUVWXYZ0123456789_zz\"",
    " Id='F'",
    "  Id=\"F\"",
    "\tId=\"F\"",
    " Id =\"F\"",
    " Id= \"F\"",
    " Id=\"F\" ",
    " ID=\"F\"",
    " Id=\"F-1\"",
    " Id=\"\u{e8}\"",
    " Id=\"F\" Id=\"G\"",
    " xmlns=\"x\"",
    " ",
];

/// An edition, and the number that a call names it by, which is now and then another.
pub fn edition(random: &mut Random) -> (Edition, u64) {
    let edition = if random.percent(60) { Edition::Oil } else { Edition::Opi };
    let number = match random.weighted(&[94, 3, 3]) {
        0 => edition as u64,
        1 => 3 - edition as u64,
        _ => *random.pick(&[0, 3, 257, 258, 65_537, 4_294_967_297, 4_294_967_298, u64::MAX]),
    };
    (edition, number)
}

/// The elements of a flow of an edition, written for the bodies and records of a table.
pub fn tree(random: &mut Random, table: &Table, size: Size, edition: Edition) -> Node {
    let fallback = Body { code: b"471".to_vec(), slots: 1, closed: 0, orders: Vec::new() };
    let body = if table.bodies.is_empty() { &fallback } else { random.pick(&table.bodies) };
    let code = if random.percent(4) { near_code(random, &body.code, true) } else { body.code.clone() };
    let mut abi = table.abi;
    if random.percent(3) {
        *random.pick_mut(&mut abi) = b'0' + random.below(10) as u8;
    }
    let esercizio = year_of(random, body);
    let count = match size {
        Size::Few => 1 + random.below(4),
        Size::Any => [1, 2, 5, 1 + random.below(64), 60 + random.below(5), 65][random.weighted(&[30, 20, 20, 20, 8, 2])],
    };
    let lean = count > 20;
    let mut created = date_and_time(random);
    if edition == Edition::Opi {
        created += *random.pick(&["Z", "+00:00", "-00:00", "+01:00", "-09:30", "+23:59", "-23:59"]);
    }
    let mut nodes = vec![
        Node::text("codice_ABI_BT", abi),
        Node::text("identificativo_flusso", identifier(random)),
        Node::text("data_ora_creazione_flusso", created),
        Node::text("codice_ente_BT", code),
    ];
    if edition == Edition::Opi {
        nodes = vec![Node::nodes("testata_flusso", nodes)];
    }
    nodes.push(Node::text("esercizio", esercizio.to_string()));
    let mut earlier: Vec<Node> = Vec::new();
    let mut executed = executed_lines(body);
    for _ in 0..count {
        let order = if !earlier.is_empty() && random.percent(8) {
            random.pick(&earlier).clone()
        } else {
            order(random, body, esercizio, lean, &mut executed)
        };
        earlier.push(order);
    }
    nodes.extend(earlier);
    let mut root = Node::nodes("flusso_ordinativi", nodes);
    if edition == Edition::Opi {
        root.attribute = random.pick(&IDS).as_bytes().to_vec();
    }
    root
}

/// The year of a body's flow: mostly one that is open, that of one of its orders or another.
fn year_of(random: &mut Random, body: &Body) -> u16 {
    let next = (body.closed + 1).clamp(2021, 2099);
    let year = match random.weighted(&[70, 20, 10]) {
        0 => next,
        1 => body.orders.get(random.below(body.orders.len())).map_or(next, |order| order.esercizio),
        _ => *random.pick(&[2000, 2020, 2022, 2099]),
    };
    let closed = body.closed > 0 && random.percent(12);
    let year = if closed { body.closed - random.below(2) as u16 } else { year };
    year.max(2000)
}

/// A plain flow of new mandati that fill a body, and one more than it has slots for; the edition's number, and the flow.
pub fn filling(random: &mut Random, abi: &[u8], body: &Body, esercizio: u16) -> (u64, Vec<u8>) {
    let mut flow = b"<flusso_ordinativi><codice_ABI_BT>".to_vec();
    flow.extend(abi);
    flow.extend(b"</codice_ABI_BT><identificativo_flusso>A1</identificativo_flusso>");
    flow.extend(b"<data_ora_creazione_flusso>2021-03-01T09:30:00</data_ora_creazione_flusso><codice_ente_BT>");
    flow.extend(&body.code);
    flow.extend(format!("</codice_ente_BT><esercizio>{esercizio}</esercizio>").bytes());
    for number in 1..=(body.slots + 1).min(64) {
        let amount = amount_text(random.between(0, 300));
        flow.extend(
            format!(
                "<mandato><tipo_operazione>INSERIMENTO</tipo_operazione><numero_mandato>{number}</numero_mandato>\
                 <data_mandato>2021-03-01</data_mandato><importo_mandato>{amount}</importo_mandato><informazioni_beneficiario>\
                 <progressivo_beneficiario>1</progressivo_beneficiario><importo_beneficiario>{amount}</importo_beneficiario>\
                 <beneficiario><anagrafica_beneficiario>R</anagrafica_beneficiario></beneficiario></informazioni_beneficiario>\
                 </mandato>"
            )
            .bytes(),
        );
    }
    flow.extend(b"</flusso_ordinativi>");
    (Edition::Oil as u64, flow)
}

/// A code that is nearly this one; `form` keeps it a code (letters and digits, 1 to 16).
pub fn near_code(random: &mut Random, code: &[u8], form: bool) -> Vec<u8> {
    let mut near = code.to_vec();
    match random.below(if form { 6 } else { 10 }) {
        0 => near.insert(0, b'0'),
        1 => near = code.iter().copied().skip_while(|&byte| byte == b'0').collect(),
        2 => near.push(b'0'),
        3 => {
            near.pop();
        }
        4 => near.iter_mut().for_each(|byte| *byte ^= if byte.is_ascii_alphabetic() { 0x20 } else { 0 }),
        5 => near = random.pick(&[&b"000471"[..], b"471", b"0471", b"A", b"a", b"4710"]).to_vec(),
        6 => near.push(0),
        7 => near.resize(16, 0),
        8 => near = Vec::new(),
        _ => near = (0..random.below(24)).map(|_| random.byte()).collect(),
    }
    if form {
        near.truncate(16);
        if near.is_empty() {
            near.push(b'7');
        }
    }
    near
}

pub(crate) fn identifier(random: &mut Random) -> Vec<u8> {
    let length = *random.pick(&[1, 2, 8, 35]);
    (0..length).map(|_| *random.pick(b"ABCXYZabcxyz0123456789-_.")).collect()
}

pub(crate) fn date(random: &mut Random) -> Date {
    let year = random.between(2000, 2099) as u16;
    match random.below(4) {
        0 => Date { year: 2021, month: 3, day: 1 },
        1 => *random.pick(&[
            Date { year: 2000, month: 2, day: 29 },
            Date { year: 2096, month: 2, day: 29 },
            Date { year: 2000, month: 1, day: 1 },
            Date { year: 2099, month: 12, day: 31 },
        ]),
        _ => {
            let month = random.between(1, 12) as u8;
            let lengths = [31, 28, 31, 30, 31, 30, 31, 31, 30, 31, 30, 31];
            let last = lengths[usize::from(month) - 1];
            let day = if random.percent(30) { last } else { random.between(1, last) };
            Date { year, month, day: day as u8 }
        }
    }
}

fn date_text(date: Date) -> String {
    format!("{:04}-{:02}-{:02}", date.year, date.month, date.day)
}

pub(crate) fn date_and_time(random: &mut Random) -> String {
    let date = date_text(date(random));
    let (hours, minutes, seconds) = (random.below(24), random.below(60), random.below(60));
    format!("{date}T{hours:02}:{minutes:02}:{seconds:02}")
}

/// A random order of a table, for tables that are made without calls.
pub fn record(random: &mut Random, esercizio: u16, number: u32, kind: Kind) -> Order {
    let lines: Vec<_> = amounts(random, false).into_iter().map(|amount| Line { state: LineState::Waiting, amount }).collect();
    Order {
        kind,
        state: reference::State::Acquired,
        esercizio,
        number,
        date: date(random),
        total: lines.iter().map(|line| line.amount).sum(),
        lines,
    }
}

/// The amounts of an order's lines; their sum can be written.
fn amounts(random: &mut Random, lean: bool) -> Vec<u64> {
    let count = if lean { 1 } else { [1, 2, 3, 1 + random.below(8), 8][random.weighted(&[40, 25, 15, 12, 8])] };
    let most = 99_999_999_999;
    let mut left = most;
    let mut amounts: Vec<u64> = (0..count)
        .map(|_| {
            let amount = match random.weighted(&[15, 55, 20, 5, 5]) {
                0 => 0,
                1 => random.between(1, 99_999),
                2 => *random.pick(&[1, 99, 100, 101, 255, 256, 65_535, 65_536, 4_294_967_295, 4_294_967_296]),
                3 => random.between(0, most),
                _ => left,
            };
            let amount = amount.min(left);
            left -= amount;
            amount
        })
        .collect();
    if count > 1 && random.percent(10) {
        amounts.rotate_left(1);
    }
    amounts
}

fn amount_text(cents: u64) -> String {
    format!("{}.{:02}", cents / 100, cents % 100)
}

fn padded(random: &mut Random, number: u64, most: usize) -> String {
    let plain = number.to_string();
    if plain.len() < most && random.percent(15) {
        let width = plain.len() + 1 + random.below(most - plain.len());
        return format!("{number:0width$}");
    }
    plain
}

/// A line that a SOSTITUZIONE may name, and its amount.
#[derive(Clone, Copy, Debug)]
struct Named {
    kind: Kind,
    number: u64,
    line: u64,
    esercizio: u64,
    amount: u64,
}

/// A body's executed lines.
fn executed_lines(body: &Body) -> Vec<Named> {
    let mut found = Vec::new();
    for order in &body.orders {
        let lines = order.lines.iter().zip(1..).filter(|(line, _)| line.state == LineState::Executed);
        found.extend(lines.map(|(line, number)| Named {
            kind: order.kind,
            number: order.number.into(),
            line: number,
            esercizio: order.esercizio.into(),
            amount: line.amount,
        }));
    }
    found
}

/// The lines that a SOSTITUZIONE of this number names: mostly executed ones, each once; what is wrong is wrong in one of them. Those that
/// are rightly named are taken out of the executed ones.
fn named_lines(random: &mut Random, body: &Body, kind: Kind, own: (u64, u64), lean: bool, executed: &mut Vec<Named>) -> Vec<Named> {
    let most = if lean { 1 } else { [1, 2, 3, 8][random.weighted(&[45, 25, 20, 10])] };
    let mut named = Vec::new();
    while named.len() < most {
        let places: Vec<_> = (0..executed.len()).filter(|&at| executed[at].kind == kind).collect();
        if places.is_empty() {
            break;
        }
        named.push(executed.swap_remove(*random.pick(&places)));
    }
    if named.is_empty() {
        let (number, line) = (random.between(1, 30), random.between(1, 2));
        named.push(Named { kind, number, line, esercizio: own.1, amount: random.between(0, 300) });
    }
    if random.percent(30) {
        let (count, other) = (named.len(), *random.pick(&named));
        let line = random.pick_mut(&mut named);
        match random.below(9) {
            0 => line.number += *random.pick(&[1, 256, 65_536, 9_000_000]),
            1 => line.line += *random.pick(&[1, 7, 255, 256, 512]),
            2 => line.line = 0,
            3 => line.esercizio = *random.pick(&[2000, 2020, 2021, 2022, 2099]),
            4 => line.amount ^= *random.pick(&[1, 256]),
            5 => (line.number, line.esercizio) = own,
            // Any line of the body, waiting and replaced ones and those of annulled orders too.
            6 if !body.orders.is_empty() => {
                let order = random.pick(&body.orders);
                (line.number, line.esercizio) = (order.number.into(), order.esercizio.into());
                line.line = random.between(1, order.lines.len() as u64);
                line.amount = order.lines[line.line as usize - 1].amount;
            }
            // The same line twice, beside each other or not.
            _ if count < 8 => named.insert(random.below(count + 1), other),
            _ => *line = other,
        }
    }
    for line in &mut named {
        (line.number, line.line) = (line.number.min(9_999_999), line.line.min(999));
    }
    named
}

/// The structure that names a line.
fn replaces(random: &mut Random, line: &Named) -> Node {
    let (name, party) = names_of(line.kind);
    let nodes = vec![
        Node::text(format!("numero_{name}_da_sostituire"), padded(random, line.number, 7)),
        Node::text(format!("progressivo_{party}_da_sostituire"), padded(random, line.line, 3)),
        Node::text(format!("esercizio_{name}_da_sostituire"), line.esercizio.to_string()),
    ];
    Node::nodes(format!("sostituzione_{name}"), nodes)
}

fn names_of(kind: Kind) -> (&'static str, &'static str) {
    match kind {
        Kind::Mandato => ("mandato", "beneficiario"),
        Kind::Reversale => ("reversale", "versante"),
    }
}

/// An order for a body: new ones, ones that name a record the body has, and ones that replace executed lines.
fn order(random: &mut Random, body: &Body, esercizio: u16, lean: bool, executed: &mut Vec<Named>) -> Node {
    // Where no line is executed, a replacement would nearly always be refused.
    let operation = random.weighted(if executed.is_empty() { &[52, 22, 24, 2] } else { &[36, 18, 20, 26] });
    let wanted = [20, 85, 85, 6][operation];
    let known = if !body.orders.is_empty() && random.percent(wanted) { Some(random.pick(&body.orders)) } else { None };
    let kind = match known {
        Some(record) if random.percent(95) => record.kind,
        _ if operation == 3 && !executed.is_empty() => random.pick(executed).kind,
        _ => *random.pick(&[Kind::Mandato, Kind::Reversale]),
    };
    let number = match known {
        Some(record) => u64::from(record.number),
        None => match random.weighted(&[70, 25, 5]) {
            0 => random.between(1, 30),
            1 => random.between(1, 9_999_999),
            _ => *random.pick(&[1, 255, 256, 65_535, 65_536, 9_999_999]),
        },
    };
    let named = match operation {
        3 => named_lines(random, body, kind, (number, esercizio.into()), lean, executed),
        _ => Vec::new(),
    };
    let mut amounts = match known {
        _ if operation == 3 => named.iter().map(|line| line.amount).collect(),
        Some(record) if operation == 2 && random.percent(90) => record.lines.iter().map(|line| line.amount).collect(),
        _ => amounts(random, lean),
    };
    // An ANNULLO that names nearly the right order: one line more, one less, two lines changed over, a cent moved.
    if operation == 2 && random.percent(25) {
        match random.below(4) {
            0 if amounts.len() < 8 => amounts.push(0),
            1 if amounts.len() > 1 => {
                amounts.pop();
            }
            2 => amounts.rotate_left(1),
            _ => {
                let from = random.pick_mut(&mut amounts);
                if *from > 0 {
                    *from -= 1;
                    if random.percent(50) {
                        *random.pick_mut(&mut amounts) += 1;
                    }
                }
            }
        }
    }
    let mut total: u64 = amounts.iter().sum();
    if random.percent(5) {
        total = *random.pick(&[total + 1, total.saturating_sub(1), total ^ 256, 0, total / 2]);
        total = total.min(99_999_999_999);
    }
    let date = match known {
        Some(record) if random.percent(50) => record.date,
        _ => date(random),
    };
    let mut numbering: Vec<u64> = (1..=amounts.len() as u64).collect();
    if random.percent(5) {
        match random.below(4) {
            0 => numbering.rotate_left(1),
            1 => *random.pick_mut(&mut numbering) = *random.pick(&[0, 1, 2, 8, 9, 256, 257, 999]),
            2 => numbering.iter_mut().for_each(|number| *number -= 1),
            _ => numbering.iter_mut().for_each(|number| *number += 1),
        }
    }
    // The lines of a replacement are executed: a later order of the flow may name them.
    if operation == 3 && known.is_none() {
        let esercizio = esercizio.into();
        executed.extend(amounts.iter().zip(1..).map(|(&amount, line)| Named { kind, number, line, esercizio, amount }));
    }
    let (name, party) = names_of(kind);
    let mut nodes = vec![
        Node::text("tipo_operazione", ["INSERIMENTO", "VARIAZIONE", "ANNULLO", "SOSTITUZIONE"][operation]),
        Node::text(format!("numero_{name}"), padded(random, number, 7)),
        Node::text(format!("data_{name}"), date_text(date)),
        Node::text(format!("importo_{name}"), amount_text(total)),
    ];
    for (index, (progressivo, amount)) in numbering.into_iter().zip(amounts).enumerate() {
        let text = party_name(random, lean);
        let mut inside = vec![
            Node::text(format!("progressivo_{party}"), padded(random, progressivo, 3)),
            Node::text(format!("importo_{party}"), amount_text(amount)),
            Node::nodes(party, vec![Node::text(format!("anagrafica_{party}"), text)]),
        ];
        match named.get(index) {
            Some(line) => inside.push(replaces(random, &Named { kind, ..*line })),
            // Another operation passes the structure over, wherever it stands and whatever it holds.
            None if random.percent(4) => {
                let line = Named { kind, number: random.between(1, 30), line: 1, esercizio: 2021, amount };
                let mut passed = replaces(random, &line);
                if random.percent(40) {
                    passed = Node::text(passed.name, *random.pick(&["", "x", " "]));
                }
                inside.insert(random.below(4), passed);
            }
            None => {}
        }
        nodes.push(Node::nodes(format!("informazioni_{party}"), inside));
    }
    Node::nodes(name, nodes)
}

/// Pieces of text, each a whole number of characters or one reference, with the characters it counts for.
#[rustfmt::skip]
const PIECES: [(&str, usize); 27] = [
    ("a", 1), ("Z", 1), (" ", 1), ("\n", 1), ("\r", 1), ("\t", 1), ("&amp;", 1), ("&lt;", 1), ("&gt;", 1), ("&quot;", 1),
    ("&apos;", 1), ("&amp;lt;", 4), ("]", 1), ("]]&gt;", 3), (">", 1), ("\"", 1), ("à", 1), ("é", 1), ("\u{85}", 1), ("€", 1),
    ("\u{FEFF}", 1), ("\u{FFFD}", 1), ("\u{1F600}", 1), ("\u{10FFFF}", 1), ("e\u{301}", 2), ("\r\n", 2), ("à&amp;", 2),
];

fn party_name(random: &mut Random, lean: bool) -> Vec<u8> {
    if lean || random.percent(50) {
        return random.pick(&["R", "Rossi", "Bianchi &amp; figli", "Società D&apos;Este", " "]).as_bytes().to_vec();
    }
    let most = match random.weighted(&[60, 25, 10, 5]) {
        0 => 1 + random.below(20),
        1 => 140,
        2 => random.below(140) + 1,
        _ => 141,
    };
    counted_text(random, most)
}

/// Text that counts for exactly this many characters, each reference as one, without `]]>`.
pub(crate) fn counted_text(random: &mut Random, length: usize) -> Vec<u8> {
    // Now and then one piece alone: so a name reaches 560 bytes of letters and 840 of references.
    if random.percent(15) {
        let single: Vec<_> = PIECES.iter().filter(|(_, count)| *count == 1).collect();
        return random.pick(&single).0.repeat(length).into_bytes();
    }
    let mut text = Vec::new();
    let mut left = length;
    while left > 0 {
        let (piece, count) = *random.pick(&PIECES);
        let breaks = piece == ">" && text.ends_with(b"]]");
        if count <= left && !breaks {
            text.extend(piece.as_bytes());
            left -= count;
        }
    }
    text
}

/// An element to pass over: any name its parent doesn't name, anything inside.
fn stray(random: &mut Random, named: &[&str], depth: usize) -> Node {
    let name = loop {
        let name = if random.percent(50) { *random.pick(&OTHER_NAMES) } else { *random.pick(&NAMES) };
        if !named.contains(&name) {
            break name;
        }
    };
    inner_stray(random, name, depth)
}

fn inner_stray(random: &mut Random, name: &str, depth: usize) -> Node {
    if depth < 12 && random.percent(35) {
        let count = 1 + random.below(2);
        let nodes = (0..count)
            .map(|_| {
                let name = if random.percent(50) { random.pick(&OTHER_NAMES) } else { random.pick(&NAMES) };
                inner_stray(random, name, depth + 1)
            })
            .collect();
        return Node::nodes(name, nodes);
    }
    let length = random.below(12);
    Node::text(name, counted_text(random, length))
}

/// Strews elements to pass over into the parents, whose children `names` lists.
pub(crate) fn strew(random: &mut Random, node: &mut Node, depth: usize, chance: usize, names: fn(&[u8]) -> Option<Names>) {
    let Some(named) = names(&node.name) else { return };
    let Some(children) = node.children_mut() else { return };
    for child in children.iter_mut() {
        strew(random, child, depth + 1, chance, names);
    }
    if random.percent(chance) {
        for _ in 0..1 + random.below(3) {
            let place = random.below(children.len() + 1);
            children.insert(place, stray(random, named, depth + 1));
        }
    }
}

/// A chain of elements that reaches this depth, to stand in the root.
fn chain(random: &mut Random, depth: usize) -> Node {
    let mut node = Node::text("x", "");
    for _ in 2..depth {
        node = Node::nodes(*random.pick(&["x", "mandato", "y_1"]), vec![node]);
    }
    Node::nodes("catena", vec![node])
}

/// Writes a flow: prologue, elements, white space, now and then brought to the greatest length or just over it.
pub fn write(random: &mut Random, root: &Node) -> Vec<u8> {
    write_up_to(random, root, LONGEST_FLOW)
}

/// Writes a document whose greatest length is this.
pub(crate) fn write_up_to(random: &mut Random, root: &Node, longest: usize) -> Vec<u8> {
    let mut white = match random.weighted(&[60, 20, 20]) {
        0 => White::None,
        1 => White::Lines,
        _ => White::Random(random.clone()),
    };
    let mut flow = Vec::new();
    if random.percent(25) {
        flow.extend(MARK);
    }
    if random.percent(40) {
        flow.extend(DECLARATION);
    }
    white.write(&mut flow);
    let front = flow.len();
    root.write(&mut white, &mut flow);
    white.write(&mut flow);
    if random.percent(4) && flow.len() < longest {
        let target = longest - 2 + random.below(5);
        let missing = target - flow.len().min(target);
        let (place, filler) = match random.below(3) {
            0 => (front, b" ".repeat(missing)),
            1 => (flow.len(), b"\n".repeat(missing)),
            _ if missing > 7 => {
                let place = front + root.name.len() + root.attribute.len() + 2;
                let text = [&b"<x>"[..], &b"]".repeat(missing - 7), b"</x>"].concat();
                (place, text)
            }
            _ => (front, b"\t".repeat(missing)),
        };
        flow.splice(place..place, filler);
    }
    flow
}

/// A flow without damage: fields and structure stand, though orders may be refused.
pub fn whole(random: &mut Random, table: &Table, size: Size) -> (u64, Vec<u8>) {
    let (edition, number) = edition(random);
    let mut root = tree(random, table, size, edition);
    match random.weighted(&[60, 25, 10, 5]) {
        0 => {}
        1 => strew(random, &mut root, 1, 20, named),
        2 => strew(random, &mut root, 1, 80, named),
        _ => {
            let depth = *random.pick(&[3, 11, 12, 12, 12, 13]);
            let chain = chain(random, depth - 1);
            let children = root.children_mut().expect("the root holds elements");
            children.insert(random.below(children.len() + 1), chain);
        }
    }
    (number, write(random, &root))
}

/// A flow damaged in one place: in its elements, its fields or its bytes; with the edition's number.
pub fn damaged(random: &mut Random, table: &Table, size: Size) -> (u64, Vec<u8>) {
    let (edition, number) = edition(random);
    let mut root = tree(random, table, size, edition);
    if random.percent(4) {
        root.attribute = random.pick(&WRONG_IDS).as_bytes().to_vec();
    }
    (number, damaged_in(random, root))
}

fn damaged_in(random: &mut Random, mut root: Node) -> Vec<u8> {
    if random.percent(25) {
        strew(random, &mut root, 1, 30, named);
    }
    match random.weighted(&[28, 42, 24, 6]) {
        0 => {
            damage_elements(random, &mut root, &NAMES);
            write(random, &root)
        }
        1 => {
            damage_field(random, &mut root, edges);
            write(random, &root)
        }
        2 => {
            let mut flow = write(random, &root);
            damage_bytes(random, &mut flow);
            flow
        }
        _ => {
            // Two or three parts of a prologue in any order, then the elements.
            let mut flow: Vec<u8> = (0..1 + random.below(3)).flat_map(|_| *random.pick(&PROLOGUES)).copied().collect();
            root.write(&mut White::None, &mut flow);
            flow.extend(*random.pick(&[&b""[..], b"", b"\r\n", b"\0", MARK, b"x", b"<x></x>", b"<!-- -->"]));
            flow
        }
    }
}

pub(crate) fn damage_elements(random: &mut Random, root: &mut Node, names: &[&str]) {
    let ways = root.ways();
    let way = random.pick(&ways);
    let (&place, above) = way.split_last().expect("a way has a step");
    let siblings = root.at(above).children_mut().expect("a way leads through elements");
    match random.below(13) {
        0 => {
            siblings.remove(place);
        }
        1 => siblings.insert(place, siblings[place].clone()),
        2 => {
            let copy = siblings[place].clone();
            siblings.insert(random.below(siblings.len() + 1), copy);
        }
        3 => {
            let node = siblings.remove(place);
            siblings.insert(random.below(siblings.len() + 1), node);
        }
        4 => {
            let node = siblings.remove(place);
            let mut ways = root.ways();
            ways.push(Vec::new());
            let parents: Vec<_> = ways.into_iter().filter(|way| root.at(way).children_mut().is_some()).collect();
            let parent = root.at(&parents[random.below(parents.len())]).children_mut().expect("only parents are kept");
            parent.insert(random.below(parent.len() + 1), node);
        }
        5 => siblings[place].name = random.pick(names).as_bytes().to_vec(),
        6 => {
            let name = if random.percent(30) { TOO_LONG } else { random.pick(&OTHER_NAMES) };
            siblings[place].name = name.as_bytes().to_vec();
        }
        7 => {
            let name = &mut siblings[place].name;
            let changed = if random.percent(40) { &mut name[0] } else { random.pick_mut(name) };
            *changed = *random.pick(b"aZ09_-:. /@[`{\x80\xC3");
        }
        8 => siblings[place].inside = Inside::Text(random.pick(&["", " ", "x", "\n\t"]).as_bytes().to_vec()),
        9 => {
            let inside = Inside::Nodes(vec![Node::text(*random.pick(&["x", "mandato", "esercizio"]), "")]);
            siblings[place].inside = inside;
        }
        10 => {
            let wrapped = siblings[place].clone();
            siblings[place] = Node::nodes(*random.pick(&["x", "mandato", "beneficiario"]), vec![wrapped]);
        }
        11 => {
            // One more than the most lines, or one name for another throughout.
            let copies = vec![siblings[place].clone(); *random.pick(&[2, 6, 7, 8])];
            siblings.splice(place..place, copies);
        }
        _ => root.name = random.pick(&["flusso_ordinativ", "mandato", "x", "Flusso_ordinativi"]).as_bytes().to_vec(),
    }
}

/// Texts at the edges of each field's form, inside and outside.
#[rustfmt::skip]
pub(crate) fn edges(name: &[u8]) -> Names {
    match name {
        b"codice_ABI_BT" => &[
            "", "0123", "012345", "0123a", " 1234", "1234 ", "00000", "99999", "٠١٢٣٤", "-1234", "+1234", "0123/", ":1234",
            "&amp;",
        ],
        b"identificativo_flusso" => &[
            "", "-", ".", "_", "A B", "à", "a:b", "abcdefghijklmnopqrstuvwxyz012345678", "abcdefghijklmnopqrstuvwxyz0123456789",
            "&lt;", "A1\n", "a/b", "a@b", "a[b", "a`b", "a{b", "a,b", "a+b",
        ],
        b"data_ora_creazione_flusso" => &[
            "", "2021-03-01T00:00:00", "2021-03-01T23:59:59", "2021-03-01T24:00:00", "2021-03-01T23:60:00", "2021-03-01T23:59:60",
            "2021-03-01t23:59:59", "2021-03-01 23:59:59", "2021-03-01T23:59:59Z", "2021-03-01T23:59", "2021-03-01T2:59:59",
            "2021-03-01T23-59-59", "2021-02-29T23:59:59", "2000-02-29T23:59:59", "1999-12-31T23:59:59", "2100-01-01T00:00:00",
            "2021-03-01T", "2021-03-01T/0:00:00", "2021-03-01T0::00:00", " 2021-03-01T00:00:00", "2021-03-01T09:30:00+00:00",
            "2021-03-01T09:30:00-23:59", "2021-03-01T09:30:00+24:00", "2021-03-01T09:30:00-23:60", "2021-03-01T09:30:00z",
            "2021-03-01T09:30:00+0100", "2021-03-01T09:30:00+01", "2021-03-01T09:30:00 01:00", "2021-03-01T09:30:00+01:00Z",
            "2021-03-01T09:30:00+0a:00", "2021-02-29T09:30:00Z", "2099-12-31T23:59:59-23:59", "2021-03-01T24:00:00+0x:00",
        ],
        b"codice_ente_BT" => &[
            "", "000471", "471", "0471", "0000000000000471", "00000000000000471", "47 1", "471 ", "47_1", "47-1", "é", "&amp;",
            "@", "[", "`", "{", "/", ":",
        ],
        b"esercizio" | b"esercizio_mandato_da_sostituire" | b"esercizio_reversale_da_sostituire" => &[
            "", "2000", "2099", "1999", "2100", "02021", "202", "20211", "2o21", " 2021", "2021 ", "-2021", "0000", "9999", "20/1",
            "20:1",
        ],
        b"tipo_operazione" => &[
            "", "INSERIMENTO", "VARIAZIONE", "ANNULLO", "SOSTITUZIONE", "inserimento", "INSERIMENT", "INSERIMENTOX", "ANNULLO ",
            " ANNULLO", "ANNULLA", "SOSTITUZIONI", "VARIAZIONE\n",
        ],
        b"numero_mandato" | b"numero_reversale" | b"numero_mandato_da_sostituire" | b"numero_reversale_da_sostituire" => &[
            "", "0", "0000000", "1", "0000001", "00000001", "9999999", "10000000", "09999999", "1a", " 1", "1 ", "-1", "+1", "1.0",
            "/", ":",
        ],
        b"data_mandato" | b"data_reversale" => &[
            "", "2000-02-29", "2021-02-29", "2020-02-29", "2020-02-30", "2024-02-29", "2100-02-28", "2000-01-01", "2099-12-31",
            "1999-12-31", "2100-01-01", "2021-00-10", "2021-13-10", "2021-01-00", "2021-01-32", "2021-04-31", "2021-06-31",
            "2021-09-31", "2021-11-31", "2021-04-30", "2021-12-31", "2021-1-1", "2021/01/01", "20210101", "2021-01-01 ",
            " 2021-01-01", "2021-01-0a", "2021-0:-01", "2o21-01-01", "2021-01-011", "12021-01-01",
        ],
        b"importo_mandato" | b"importo_reversale" | b"importo_beneficiario" | b"importo_versante" => &[
            "", "0.00", "0.01", "999999999.99", "1000000000.00", "0999999999.99", "00.50", "0.5", "01.00", "000.00", ".50", "1.",
            "1", "1.000", "1,00", "-1.00", "+1.00", " 1.00", "1.00 ", "1.0a", "a.00", "1..00", "10.00.00", "/.00", ":.00", "1.0:",
            "184467440737095516.16",
        ],
        b"progressivo_beneficiario" | b"progressivo_versante" | b"progressivo_beneficiario_da_sostituire"
        | b"progressivo_versante_da_sostituire" => &[
            "", "0", "00", "000", "1", "01", "001", "0001", "2", "8", "9", "999", "1000", "257", "/", ":", "1a", " 1", "1 ", "-1",
            "+1",
        ],
        _ => &[
            "", " ", "\n", "&amp;", "&amp;lt;", "&#38;", "&", "&amp", "]]>", "]]", "\u{0}", "\u{1F}", "\u{7F}", "<", "x",
        ],
    }
}

pub(crate) fn damage_field(random: &mut Random, root: &mut Node, edges: fn(&[u8]) -> Names) {
    let ways = root.ways();
    let mut leaves: Vec<_> = ways.into_iter().filter(|way| root.at(way).children_mut().is_none()).collect();
    // Often two fields at once, so that it matters which is first.
    let count = if random.percent(70) { 1 } else { 2 };
    for _ in 0..count {
        // The header's fields come first, and as often as all the orders'.
        let most = if random.percent(40) { leaves.len().min(6) } else { leaves.len() };
        let way = leaves.swap_remove(random.below(most));
        let leaf = root.at(&way);
        let Inside::Text(text) = &mut leaf.inside else { continue };
        if leaf.name.starts_with(b"anagrafica") && random.percent(40) {
            let length = *random.pick(&[0, 1, 139, 140, 141, 142, 200]);
            *text = counted_text(random, length);
        } else if leaf.name.starts_with(b"anagrafica") || random.percent(4) {
            let place = random.below(text.len() + 1);
            text.splice(place..place, random.pick(&TEXT_EDGES).iter().copied());
        } else if leaf.name.starts_with(b"data_") && random.percent(40) {
            let (year, month, day) = (random.between(1999, 2100), random.below(14), *random.pick(&[0, 1, 9, 28, 29, 30, 31, 32]));
            text.splice(..text.len().min(10), format!("{year}-{month:02}-{day:02}").bytes());
        } else if random.percent(80) {
            *text = random.pick(edges(&leaf.name)).as_bytes().to_vec();
        } else if !text.is_empty() {
            *random.pick_mut(text) = *random.pick(b" 09aZ.-:/\x00\x7F&<>]");
        }
    }
}

/// What might stand before the root, rightly or wrongly.
#[rustfmt::skip]
const PROLOGUES: [&[u8]; 18] = [
    MARK, MARK, DECLARATION, DECLARATION, b" ", b"\n", b"\t\r", b"\xEF\xBB", b"\xFE\xFF", b"\x0C", b"<!DOCTYPE x>", b"<!-- -->",
    b"<?xml version='1.0' encoding='UTF-8'?>", b"<?xml version=\"1.0\" encoding=\"utf-8\"?>", b"<?xml version=\"1.0\"?>",
    b"<?xml version=\"1.1\" encoding=\"UTF-8\"?>", b"<?xml version=\"1.0\" encoding=\"UTF-8\" ?>", b"<?XML version=\"1.0\" encoding=\"UTF-8\"?>",
];

/// What markup might hold and the profile refuses, and what it takes in the wrong place.
#[rustfmt::skip]
const TOKENS: [&[u8]; 43] = [
    b"<!-- -->", b"<![CDATA[x]]>", b"<?x?>", b"<!DOCTYPE a>", DECLARATION, MARK, b"<x/>", b"<x></x>",
    b"<flusso_ordinativi></flusso_ordinativi>", b"<x>", b"</x>", b"<x a=\"1\"></x>", b"<x ></x>", b"</ x>", b"< x></x>", b"<>",
    b"</>", b"<", b">", b"]]>", b"]]", b"&amp;", b"&apos;", b"&#38;", b"&nbsp;", b"&", b";", b" ", b"\t", b"\r", b"\n", b"\x0B",
    b"\x0C", b"\x00", b"\xC2\xA0", b"\xC2\x85", b"\xC3", b"\xED\xA0\x80", b"\xEF\xBF\xBE", b"\xEF\xBF\xBD", b"\xF4\x90\x80\x80",
    b"\xC0\xBC", b"0",
];

/// Damages bytes in one place.
pub fn damage_bytes(random: &mut Random, bytes: &mut Vec<u8>) {
    let length = bytes.len();
    // Tags and prologue are where bytes matter: look for one near a random place, half of the time.
    let mut place = random.below(length);
    if random.percent(50)
        && let Some(ahead) = bytes[place..].iter().position(|byte| b"<>&/".contains(byte))
    {
        place += ahead;
    }
    match random.below(16) {
        0 => place = random.below(length.min(45)),
        1 => place = length,
        _ => {}
    }
    match random.below(11) {
        0 if place < length => bytes[place] ^= 1 << random.below(8),
        1 if place < length => bytes[place] = random.byte(),
        2 if place < length => bytes[place] = *random.pick(b"<>&;/\"' \t\n\r]=!?-_09azAZ\x00\x1F\x7F\x80\xBF\xC3\xFF"),
        3 if place < length => {
            bytes.remove(place);
        }
        4 => bytes.insert(place, *random.pick(b"<>&;/\"' \t\n\r]=!?-_09azAZ\x00\x1F\x7F\x80\xBF\xC3\xFF")),
        5 => bytes.truncate(place),
        6 => {
            let end = length.min(place + 1 + random.below(64));
            let copy = bytes[place..end].to_vec();
            bytes.splice(place..place, copy);
        }
        7 => {
            let end = length.min(place + 1 + random.below(64));
            bytes.drain(place..end);
        }
        8 if place < length => {
            let other = random.below(length);
            bytes.swap(place, other);
        }
        _ => {
            let token = *random.pick(&TOKENS);
            let replaced = if random.percent(30) { token.len().min(length - place) } else { 0 };
            bytes.splice(place..place + replaced, token.iter().copied());
        }
    }
}

/// How many orders the flow is likely to hold: its `tipo_operazione` end tags.
pub fn orders_in(flow: &[u8]) -> usize {
    let tag = b"</tipo_operazione>";
    flow.windows(tag.len()).filter(|window| window == tag).count()
}

/// A length for the outcome buffer: mostly enough, often exactly, sometimes not.
pub fn room(random: &mut Random, flow: &[u8]) -> usize {
    let exact = 16 * orders_in(flow);
    match random.weighted(&[45, 30, 10, 8, 7]) {
        0 => exact,
        1 => 1024,
        2 => exact + 1 + random.below(40),
        3 => exact.saturating_sub(1 + random.below(17)),
        _ => *random.pick(&[0, 1, 15, 16, 17, 1023, 1025]),
    }
}

#[cfg(test)]
mod tests {
    use super::*;

    #[test]
    fn text_counts_what_it_should() {
        let mut random = Random::of_case(1, 1);
        for length in [1, 2, 3, 139, 140, 141] {
            let text = counted_text(&mut random, length);
            assert!(reference::markup::is_text(&text), "{}", text.escape_ascii());
            let replaced = String::from_utf8(reference::markup::replaced(&text)).unwrap();
            assert_eq!(replaced.chars().count(), length);
        }
    }
}
