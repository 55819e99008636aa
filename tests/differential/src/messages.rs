//! Outcome messages: what one is written from, and messages to be read, whole and damaged.

use reference::fields::Operation;
use reference::message::{self, ENTRY_VALUES, Entry, GIVEN, Given, HEADER, HEADER_VALUES, ISTAT, LONGEST_MESSAGE, Message};
use reference::{Edition, Kind, LONGEST_FLOW, MOST_ORDERS, OUTCOME, Table, fields, markup, structure};

use crate::case::{Call, Case, Values};
use crate::flows::{self, Inside, Names, Node, Size};
use crate::random::Random;
use crate::tables;

/// A case about messages: one written after a flow, or one that is read and written again.
pub fn case(random: &mut Random) -> Case {
    if random.percent(45) {
        let table = tables::valid(random);
        let size = if random.percent(80) { Size::Few } else { Size::Any };
        let (edition, flow) =
            if random.percent(88) { flows::whole(random, &table, size) } else { flows::damaged(random, &table, size) };
        let room = 1024;
        let write = write(random, &table, edition, &flow);
        return Case { table: table.encode(), calls: vec![Call::Flow { edition, flow, room }, write] };
    }
    let (_, edition) = flows::edition(random);
    let bytes = bytes(random);
    let bytes = if random.percent(20) { with_attribute(random, &bytes) } else { bytes };
    let mut calls = Vec::new();
    if random.percent(80) {
        calls.push(Call::Read { edition, room: values_room(random, &bytes), message: bytes.clone() });
    }
    if calls.is_empty() || random.percent(50) {
        let exact = again(&bytes).len();
        calls.push(Call::Rewrite { edition, message: bytes, room: room(random, exact, &[0, 1, 1_300, 35_122, 65_536]) });
    }
    Case { table: Vec::new(), calls }
}

/// The message with an attribute on its root, most often an Id that may stand in edition 2.
fn with_attribute(random: &mut Random, bytes: &[u8]) -> Vec<u8> {
    let attribute = if random.percent(70) { *random.pick(&flows::IDS) } else { *random.pick(&flows::WRONG_IDS) };
    let name = b"<messaggi_esito_applicativo";
    match bytes.windows(name.len()).position(|window| window == name) {
        Some(place) => [&bytes[..place + name.len()], attribute.as_bytes(), &bytes[place + name.len()..]].concat(),
        None => bytes.to_vec(),
    }
}

/// What a message is written from, most of it right, for a flow on a table.
pub fn write(random: &mut Random, table: &Table, edition: u64, flow: &[u8]) -> Call {
    let mut outcomes = outcomes(random, table, edition, flow);
    if random.percent(25) {
        damage_outcomes(random, &mut outcomes);
    }
    let mut values: Values = std::array::from_fn(|place| value(random, place));
    if random.percent(30) {
        let place = random.below(values.len());
        damage_value(random, place, &mut values[place]);
    }
    let exact = length(edition, flow, &outcomes, &values);
    let room = room(random, exact, &[0, 1, 1_023, 35_121, 35_122, 65_536]);
    Call::Write { edition, flow: flow.to_vec(), outcomes, values, room }
}

fn given(values: &Values) -> Given<'_> {
    std::array::from_fn(|place| &values[place][..])
}

/// The length of the message; 0 where none is written.
fn length(edition: u64, flow: &[u8], outcomes: &[u8], values: &Values) -> usize {
    message::message_of(edition, flow, outcomes, &given(values)).map_or(0, |values| message::bytes(&values).len())
}

fn again(bytes: &[u8]) -> Vec<u8> {
    message::values_of(2, bytes).map_or(Vec::new(), |read| message::bytes(&read.values()))
}

/// A length for the buffer: enough, exactly enough, one byte short.
fn room(random: &mut Random, exact: usize, others: &[usize]) -> usize {
    match random.weighted(&[35, 25, 20, 10, 10]) {
        0 => 40_000,
        1 => exact,
        2 => exact.saturating_sub(1),
        3 => exact + 1 + random.below(20),
        _ => *random.pick(others),
    }
}

fn values_room(random: &mut Random, bytes: &[u8]) -> usize {
    let entries = message::values_of(2, bytes).map_or(1, |read| read.values().entries.len());
    room(random, HEADER_VALUES + ENTRY_VALUES * entries, &[0, 79, 80, 127, 3_151, 3_152])
}

/// The outcome bytes that the flow gets on the table; where it is refused for the table's sake, bytes that it might have got.
fn outcomes(random: &mut Random, table: &Table, edition: u64, flow: &[u8]) -> Vec<u8> {
    let mut outcomes = vec![0; 1_024];
    let answer = reference::flow(&mut table.encode(), edition, flow, &mut outcomes);
    outcomes.truncate(OUTCOME * answer.orders as usize);
    if answer.code == 0 {
        return outcomes;
    }
    let read_as = Edition::numbered(edition).unwrap_or(Edition::Oil);
    let read = if flow.len() > LONGEST_FLOW { None } else { markup::read(flow, true) };
    let read = read.as_ref().and_then(|root| structure::read(root, read_as)).and_then(|raw| fields::read(&raw, read_as).ok());
    let Some(read) = read else {
        return vec![0; OUTCOME * (1 + random.below(3))];
    };
    for order in read.orders {
        outcomes.extend([order.kind as u8, order.operation as u8, code(random), order.lines.len() as u8]);
        outcomes.extend(order.number.to_be_bytes());
        outcomes.extend(order.total.to_be_bytes());
    }
    outcomes
}

fn code(random: &mut Random) -> u8 {
    if random.percent(40) { 0 } else { *random.pick(&[12, 13, 14, 15, 16, 17, 18, 19, 24, 25, 26]) }
}

fn damage_outcomes(random: &mut Random, outcomes: &mut Vec<u8>) {
    match random.below(8) {
        0 => outcomes.push(random.byte()),
        1 => outcomes.extend([0; OUTCOME]),
        2 => {
            outcomes.pop();
        }
        3 => outcomes.truncate(random.below(outcomes.len() + 1)),
        4 if outcomes.len() >= 2 * OUTCOME => outcomes.rotate_left(OUTCOME),
        5 | 6 => {
            // Any code in place of one.
            let orders = outcomes.len() / OUTCOME;
            if let Some(code) = outcomes.get_mut(OUTCOME * random.below(orders) + 2) {
                *code = *random.pick(&[0, 1, 5, 10, 11, 12, 13, 14, 15, 16, 17, 18, 19, 20, 21, 22, 23, 24, 25, 26, 27, 255]);
            }
        }
        _ => {
            let place = random.below(outcomes.len());
            if let Some(byte) = outcomes.get_mut(place) {
                *byte = if random.percent(50) { *byte ^ 1 << random.below(8) } else { random.byte() };
            }
        }
    }
}

/// A right caller's value; `place` is that among the nine.
fn value(random: &mut Random, place: usize) -> Vec<u8> {
    match place {
        0 | 1 => time(random),
        ISTAT if random.percent(50) => Vec::new(),
        _ => text(random),
    }
}

fn time(random: &mut Random) -> Vec<u8> {
    let zone = match random.below(3) {
        0 => "Z".into(),
        1 => random.pick(&["+00:00", "-00:00", "+23:59", "-23:59", "+01:00"]).to_string(),
        _ => format!("{}{:02}:{:02}", random.pick(&["+", "-"]), random.below(24), random.below(60)),
    };
    (flows::date_and_time(random) + &zone).into_bytes()
}

fn text(random: &mut Random) -> Vec<u8> {
    match random.below(4) {
        0 => random.pick(&["UFABCD", "I.C. Giovanni Pascoli", "80012345678", "Società D&apos;Este", " "]).as_bytes().to_vec(),
        1 => of_bytes(random, 1),
        2 => of_bytes(random, 140),
        _ => {
            let length = 1 + random.below(140);
            of_bytes(random, length)
        }
    }
}

/// Text of exactly so many bytes.
fn of_bytes(random: &mut Random, length: usize) -> Vec<u8> {
    let mut text = flows::counted_text(random, length);
    // Cut at a character, not in a reference, and filled up.
    while text.len() > length || !markup::is_text(&text) {
        text.pop();
    }
    text.resize(length, b'x');
    text
}

fn damage_value(random: &mut Random, place: usize, value: &mut Vec<u8>) {
    if place < 2 && random.percent(60) {
        *value = random.pick(TIMES).as_bytes().to_vec();
    } else if random.percent(40) {
        let length = *random.pick(&[0, 1, 139, 140, 141, 142, 280]);
        *value = of_bytes(random, length);
    } else if random.percent(70) {
        let at = random.below(value.len() + 1);
        value.splice(at..at, random.pick(&flows::TEXT_EDGES).iter().copied());
    } else {
        flows::damage_bytes(random, value);
    }
}

/// Times at the edges of their form.
#[rustfmt::skip]
const TIMES: Names = &[
    "", "2021-03-01T09:30:00", "2021-03-01T09:30:00Z", "2021-03-01T09:30:00z", "2021-03-01T09:30:00+00:00", "2021-03-01T09:30:00-00:00",
    "2021-03-01T09:30:00-23:59", "2021-03-01T09:30:00+23:59", "2021-03-01T09:30:00+24:00", "2021-03-01T09:30:00-24:00",
    "2021-03-01T09:30:00+23:60", "2021-03-01T09:30:00+1:00", "2021-03-01T09:30:00+01:0", "2021-03-01T09:30:00+01:000",
    "2021-03-01T09:30:00+0100", "2021-03-01T09:30:00+01", "2021-03-01T09:30:00 01:00", "2021-03-01T09:30:00+01:00Z", "2021-03-01T09:30:00Z ",
    " 2021-03-01T09:30:00Z", "2021-03-01T24:00:00Z", "2021-03-01T09:60:00Z", "2021-03-01T09:30:60Z", "2021-02-29T09:30:00Z",
    "2000-02-29T09:30:00Z", "1999-12-31T23:59:59Z", "2099-12-31T23:59:59Z", "2100-01-01T00:00:00Z", "2021-03-01T09:30:00.5Z",
    "2021-03-01T09:30:00+0:000", "2021-03-01T09:30:00+/0:00", "2021-03-01T09:30:00+00::0", "2021-02-29T09:30:0xZ", "2021-13-01T09:30:00Z",
];

/// The bytes of a message that is to be read.
pub fn bytes(random: &mut Random) -> Vec<u8> {
    let mut root = tree(random, None);
    match random.weighted(&[22, 12, 22, 26, 18]) {
        0 => {}
        1 => {
            let chance = *random.pick(&[20, 80]);
            flows::strew(random, &mut root, 1, chance, named);
        }
        2 => damage_elements(random, &mut root),
        3 => damage_field(random, &mut root),
        _ => {
            let mut bytes = flows::write_up_to(random, &root, LONGEST_MESSAGE);
            flows::damage_bytes(random, &mut bytes);
            return bytes;
        }
    }
    flows::write_up_to(random, &root, LONGEST_MESSAGE)
}

/// A message as a tree, of so many entries where that is said.
fn tree(random: &mut Random, entries: Option<usize>) -> Node {
    let count = entries.unwrap_or_else(|| [1, 2, 3, 1 + random.below(64), 64, 65][random.weighted(&[35, 30, 20, 7, 4, 4])]);
    let header = std::array::from_fn(|place| match place {
        0 => (0..5).map(|_| b'0' + random.below(10) as u8).collect(),
        1 => time(random),
        ISTAT if random.percent(50) => Vec::new(),
        8 => random.pick(&["000471", "471", "A", "0000000000000471"]).as_bytes().to_vec(),
        _ => text(random),
    });
    let split = random.below(count + 1);
    let same = random.percent(50).then(|| (flows::identifier(random), time(random)));
    let kind = |place: usize| if place < split { Kind::Reversale } else { Kind::Mandato };
    let entries = (0..count).map(|place| entry(random, kind(place), same.as_ref())).collect();
    let mut root = node(&Message { header, entries });
    // A number may stand with zeros in front, which don't count.
    for way in root.ways() {
        let node = root.at(&way);
        if let Inside::Text(text) = &mut node.inside
            && node.name.starts_with(b"numero_")
            && text.len() < 7
            && random.percent(15)
        {
            text.insert(0, b'0');
        }
    }
    root
}

fn entry(random: &mut Random, kind: Kind, same: Option<&(Vec<u8>, Vec<u8>)>) -> Entry {
    let (identifier, time) = same.cloned().unwrap_or_else(|| (flows::identifier(random), time(random)));
    Entry {
        kind,
        operation: *random.pick(&[Operation::Inserimento, Operation::Variazione, Operation::Annullo, Operation::Sostituzione]),
        code: code(random),
        identifier,
        esercizio: *random.pick(&[2000, 2020, 2021, 2022, 2099]),
        number: *random.pick(&[1, 7, 12, 255, 256, 65_536, 9_999_999]),
        date: flows::date(random),
        total: *random.pick(&[0, 1, 99, 100, 15_000, 4_294_967_296, 99_999_999_999]),
        time,
    }
}

/// The tree of a message.
pub fn node(message: &Message) -> Node {
    let field = |name: &str, text: &[u8]| Node::text(name, text);
    let mut testata: Vec<_> = HEADER.iter().zip(&message.header).take(9).map(|(name, text)| field(name, text)).collect();
    if message.header[ISTAT].is_empty() {
        testata.remove(ISTAT);
    }
    let mut nodes = vec![Node::nodes("testata_messaggio", testata), field(HEADER[9], &message.header[9])];
    nodes.extend(message.entries.iter().map(|entry| {
        let (name, order) = match entry.kind {
            Kind::Mandato => ("esito_mandati", "mandato"),
            Kind::Reversale => ("esito_reversali", "reversale"),
        };
        let date = format!("{:04}-{:02}-{:02}", entry.date.year, entry.date.month, entry.date.day);
        let word = message::word(entry.operation, entry.code != 0);
        let mut nodes = vec![
            field("identificativo_flusso", &entry.identifier),
            field("esercizio", entry.esercizio.to_string().as_bytes()),
            field(&format!("numero_{order}"), entry.number.to_string().as_bytes()),
            field(&format!("data_{order}"), date.as_bytes()),
            field("importo", format!("{}.{:02}", entry.total / 100, entry.total % 100).as_bytes()),
            field("esito_operazione", word.as_bytes()),
            field("data_ora_esito_operazione", &entry.time),
        ];
        if entry.code != 0 {
            let code = entry.code.to_string();
            let element = message::element_in_error(entry.kind, entry.code);
            let list = [("codice_errore", &code), ("descrizione", &code), ("elemento", &element)];
            nodes.push(Node::nodes("lista_errori", list.map(|(name, text)| field(name, text.as_bytes())).to_vec()));
        }
        Node::nodes(name, nodes)
    }));
    Node::nodes("messaggi_esito_applicativo", nodes)
}

/// The children that a parent of a message names, those that are never written among them.
#[rustfmt::skip]
fn named(parent: &[u8]) -> Option<Names> {
    match parent {
        b"messaggi_esito_applicativo" => Some(&["testata_messaggio", "identificativo_flusso_BT", "esito_reversali", "esito_mandati"]),
        b"testata_messaggio" => Some(&[
            "codice_ABI_BT", "data_ora_creazione_flusso", "codice_ente", "descrizione_ente", "codice_istat_ente", "codice_fiscale_ente",
            "codice_tramite_ente", "codice_tramite_BT", "codice_ente_BT",
        ]),
        b"esito_reversali" => Some(&[
            "identificativo_flusso", "esercizio", "numero_reversale", "progressivo_versante", "data_reversale", "importo",
            "esito_operazione", "data_ora_esito_operazione", "lista_errori",
        ]),
        b"esito_mandati" => Some(&[
            "identificativo_flusso", "esercizio", "numero_mandato", "progressivo_beneficiario", "data_mandato", "importo",
            "esito_operazione", "data_ora_esito_operazione", "lista_errori",
        ]),
        b"lista_errori" => Some(&["progressivo_versante", "progressivo_beneficiario", "codice_errore", "descrizione", "elemento"]),
        _ => None,
    }
}

/// Every name that a message knows.
#[rustfmt::skip]
const NAMES: [&str; 28] = [
    "messaggi_esito_applicativo", "testata_messaggio", "codice_ABI_BT", "data_ora_creazione_flusso", "codice_ente", "descrizione_ente",
    "codice_istat_ente", "codice_fiscale_ente", "codice_tramite_ente", "codice_tramite_BT", "codice_ente_BT", "identificativo_flusso_BT",
    "esito_reversali", "esito_mandati", "identificativo_flusso", "esercizio", "numero_reversale", "numero_mandato", "data_reversale",
    "data_mandato", "importo", "esito_operazione", "data_ora_esito_operazione", "lista_errori", "codice_errore", "descrizione", "elemento",
    "signature",
];

fn damage_elements(random: &mut Random, root: &mut Node) {
    let ways = root.ways();
    let parents: Vec<_> = ways.iter().filter(|way| root.at(way).children_mut().is_some()).cloned().collect();
    match random.below(6) {
        // Table 17's names that are never written, and the other kind's.
        0 | 1 => {
            let name = *random.pick(&["progressivo_versante", "progressivo_beneficiario"]);
            let text = *random.pick(&["1", "001", "", "x"]);
            let parent = root.at(&parents[random.below(parents.len())]).children_mut().expect("only parents are kept");
            parent.insert(random.below(parent.len() + 1), Node::text(name, text));
        }
        // One kind for the other, throughout an entry or in its name alone.
        2 => {
            let entries = root.children_mut().expect("the root holds elements");
            let place = 2 + random.below(entries.len() - 2);
            let to = *random.pick(&["esito_reversali", "esito_mandati"]);
            entries[place].name = to.as_bytes().to_vec();
            if random.percent(50) {
                rename(&mut entries[place], to == "esito_mandati");
            }
        }
        // An entry moved, or so many of it that there may be too many.
        3 => {
            let entries = root.children_mut().expect("the root holds elements");
            let place = 2 + random.below(entries.len() - 2);
            let entry = entries.remove(place);
            let copies = *random.pick(&[0, 1, 1, 2, 63, 64, 65, MOST_ORDERS + 2 - entries.len().min(66)]);
            let at = random.below(entries.len() + 1);
            entries.splice(at..at, vec![entry; copies]);
        }
        // A list of errors doubled, left out, or where none belongs.
        4 => {
            let entries = root.children_mut().expect("the root holds elements");
            let place = 2 + random.below(entries.len() - 2);
            let nodes = entries[place].children_mut().expect("an entry holds elements");
            let error = ["codice_errore", "descrizione"].map(|name| Node::text(name, "16"));
            let name = *random.pick(&["numero_mandato", "numero_reversale"]);
            let list = Node::nodes("lista_errori", [&error[..], &[Node::text("elemento", name)]].concat());
            if nodes.len() > 7 && random.percent(50) {
                nodes.pop();
            } else {
                nodes.push(list);
            }
        }
        _ => flows::damage_elements(random, root, &NAMES),
    }
}

fn rename(node: &mut Node, mandato: bool) {
    let [from, to]: [&[u8]; 2] = if mandato { [b"reversale", b"mandato"] } else { [b"mandato", b"reversale"] };
    for child in node.children_mut().into_iter().flatten() {
        if let Some(stem) = child.name.strip_suffix(from) {
            child.name = [stem, to].concat();
        }
        rename(child, mandato);
    }
}

/// Texts at the edges of each field's form, inside and outside.
#[rustfmt::skip]
fn edges(name: &[u8]) -> Names {
    match name {
        b"data_ora_creazione_flusso" | b"data_ora_esito_operazione" => TIMES,
        b"esito_operazione" => &[
            "", "ACQUISITO", "NON ACQUISITO", "VARIATO", "NON VARIATO", "ANNULLATO", "NON ANNULLATO", "SOSTITUITO", "NON SOSTITUITO",
            "RISCOSSO", "PAGATO", "STORNATO", "REGOLARIZZATO", "NON REGOLARIZZATO", "NON ESEGUIBILE", "NON  VARIATO", "NON VARIATO ",
            "acquisito", "NON", "NONVARIATO", "NON SOSTITUITO ", "ACQUISITOX", "NON\tVARIATO",
        ],
        b"codice_errore" | b"descrizione" => &[
            "", "0", "00", "1", "10", "11", "12", "13", "14", "15", "16", "17", "18", "19", "20", "23", "24", "25", "26", "27", "99", "011", "1a", "a1", " 1",
            "1 ", "-1", "/1", "1:", "119",
        ],
        b"elemento" => &[
            "", "tipo_operazione", "progressivo_beneficiario", "progressivo_versante", "importo_mandato", "importo_reversale",
            "numero_mandato", "numero_reversale", "importo", "numero", "progressivo_beneficiario_", "Numero_mandato", "numero_mandato ",
        ],
        b"importo" => flows::edges(b"importo_mandato"),
        b"codice_ente" | b"descrizione_ente" | b"codice_istat_ente" | b"codice_fiscale_ente" | b"codice_tramite_ente"
        | b"codice_tramite_BT" | b"identificativo_flusso_BT" => flows::edges(b"anagrafica_versante"),
        _ => flows::edges(name),
    }
}

fn damage_field(random: &mut Random, root: &mut Node) {
    if random.percent(25) {
        let way = if random.percent(80) { vec![0, 2 + random.below(6)] } else { vec![1] };
        let length = *random.pick(&[0, 1, 139, 140, 141, 142, 280]);
        let text = of_bytes(random, length);
        if way.len() == 1 || way[1] < root.children()[0].children().len() {
            root.at(&way).inside = Inside::Text(text);
        }
    } else {
        flows::damage_field(random, root, edges);
    }
}

/// Cases that leave nothing to chance.
pub fn sweep() -> impl Iterator<Item = Case> {
    read_sweep().chain(long_sweep()).chain(write_sweep())
}

/// Messages at the greatest length and around it, and with 63 to 65 entries of both kinds.
fn long_sweep() -> impl Iterator<Item = Case> {
    let padded = (LONGEST_MESSAGE - 2..LONGEST_MESSAGE + 3).flat_map(|length| {
        let (message, white) = (small(), vec![b' '; length - small().len()]);
        [[&white[..], &message].concat(), [&message[..], &white].concat()]
    });
    let counted = (0..=65).flat_map(|reversali| {
        (63..=65usize).filter_map(move |all| {
            let entry = |kind| entry(&mut Random::of_case(1, reversali as u64), kind, None);
            let mandati = all.checked_sub(reversali)?;
            let entries = [vec![entry(Kind::Reversale); reversali], vec![entry(Kind::Mandato); mandati]].concat();
            let header = message::values_of(1, &small()).expect("it stands").values().header;
            Some(message::bytes(&Message { header, entries }))
        })
    });
    padded.chain(counted).map(|message| {
        let calls = vec![
            Call::Read { edition: 1, message: message.clone(), room: 3_152 },
            Call::Rewrite { edition: 2, message, room: 65_536 },
        ];
        Case { table: Vec::new(), calls }
    })
}

/// A message with a refused reversale and an accepted mandato.
fn small() -> Vec<u8> {
    let mut random = Random::of_case(1, 1);
    let mut entry = |kind, code| {
        let same = (b"A1".to_vec(), b"2021-03-01T09:30:30+01:00".to_vec());
        Entry { code, operation: Operation::Annullo, number: 12, total: 2_050, ..entry(&mut random, kind, Some(&same)) }
    };
    let entries = vec![entry(Kind::Reversale, 12), entry(Kind::Mandato, 0)];
    let header = ["01234", "2021-03-01T09:31:00Z", "U", "I.C. &amp; \u{e0}", "1", "8", "A", "B", "000471", "BT"];
    message::bytes(&Message { header: header.map(|text| text.as_bytes().to_vec()), entries })
}

/// Every byte of a message left out, and in its place the bytes that markup, fields and text know.
fn read_sweep() -> impl Iterator<Item = Case> {
    const BYTES: &[u8] = b"\x00\t\n\r !\"&'+-./019:;<=>?@AZ[]_`az{\x7F\x80\xBF\xC3\xE2\xF0\xFF";
    let message = small();
    (0..message.len() * (BYTES.len() + 1)).map(move |index| {
        let (place, byte) = (index / (BYTES.len() + 1), index % (BYTES.len() + 1));
        let mut changed = message.clone();
        match BYTES.get(byte) {
            Some(&byte) => changed[place] = byte,
            None => drop(changed.remove(place)),
        }
        let call = if index % 5 == 0 {
            Call::Rewrite { edition: 1 + index as u64 % 2, message: changed, room: 2_000 }
        } else {
            Call::Read { edition: 1 + index as u64 % 2, message: changed, room: 176 }
        };
        Case { table: Vec::new(), calls: vec![call] }
    })
}

/// The flow that the sweep's messages are written for, and its outcomes.
fn written() -> (Vec<u8>, Vec<u8>) {
    let order = |kind: &str, party: &str, operation: &str, total: &str| {
        format!(
            "<{kind}><tipo_operazione>{operation}</tipo_operazione><numero_{kind}>0012</numero_{kind}><data_{kind}>2021-03-01</data_{kind}>\
             <importo_{kind}>{total}</importo_{kind}><informazioni_{party}><progressivo_{party}>1</progressivo_{party}>\
             <importo_{party}>{total}</importo_{party}><{party}><anagrafica_{party}>R</anagrafica_{party}></{party}></informazioni_{party}></{kind}>"
        )
    };
    let flow = format!(
        "<flusso_ordinativi><codice_ABI_BT>01234</codice_ABI_BT><identificativo_flusso>A1</identificativo_flusso>\
         <data_ora_creazione_flusso>2021-03-01T09:30:00</data_ora_creazione_flusso><codice_ente_BT>000471</codice_ente_BT>\
         <esercizio>2021</esercizio>{}{}</flusso_ordinativi>",
        order("mandato", "beneficiario", "ANNULLO", "1.00"),
        order("reversale", "versante", "INSERIMENTO", "999999999.99"),
    );
    let outcomes =
        [[1, 3, 16, 1, 0, 0, 0, 12, 0, 0, 0, 0, 0, 0, 0, 100], [2, 1, 0, 1, 0, 0, 0, 12, 0, 0, 0, 0x17, 0x48, 0x76, 0xE7, 0xFF]];
    (flow.into_bytes(), outcomes.concat())
}

/// Every outcome byte with every value; each caller's value at its edges of length, form and character; each length of the buffer near
/// the message's.
fn write_sweep() -> impl Iterator<Item = Case> {
    let (flow, right) = written();
    let values: Values =
        GIVEN.map(|name| if name.starts_with("data_ora") { b"2021-03-01T09:30:00Z".to_vec() } else { b"x".to_vec() });
    let exact = length(1, &flow, &right, &values);
    let mut calls: Vec<(Vec<u8>, Values, usize)> = Vec::new();
    for index in 0..right.len() * 256 {
        let mut outcomes = right.clone();
        outcomes[index / 256] = index as u8;
        calls.push((outcomes, values.clone(), 2_000));
    }
    calls.extend((0..=48).map(|length| ([&right[..], &[7; 16]].concat()[..length].to_vec(), values.clone(), 2_000)));
    calls.extend((exact - 20..exact + 20).chain([0, 1]).map(|room| (right.clone(), values.clone(), room)));
    let mut texts: Vec<Vec<u8>> = [0, 1, 2, 139, 140, 141, 142].map(|length| vec![b'y'; length]).to_vec();
    texts.extend((0..=255).map(|byte| vec![byte]));
    texts.extend(flows::TEXT_EDGES.map(<[u8]>::to_vec));
    texts.extend(
        ["\u{e0}".repeat(70), "\u{e0}".repeat(70) + "x", "&quot;".repeat(23) + "xx", "&quot;".repeat(24)].map(String::into_bytes),
    );
    let mut times: Vec<Vec<u8>> = TIMES.iter().map(|time| time.as_bytes().to_vec()).collect();
    for part in 0..100 {
        times.push(format!("2021-03-01T23:59:59+{part:02}:59").into_bytes());
        times.push(format!("2021-03-01T23:59:59-23:{part:02}").into_bytes());
        times.push(format!("2021-03-01T{part:02}:59:59Z").into_bytes());
    }
    let time = b"2021-03-01T23:59:59+23:59";
    for index in 0..time.len() * 256 {
        let mut changed = time.to_vec();
        changed[index / 256] = index as u8;
        times.push(changed);
    }
    for place in 0..GIVEN.len() {
        for text in if place < 2 { &times } else { &texts } {
            let mut values = values.clone();
            values[place] = text.clone();
            calls.push((right.clone(), values, 2_000));
        }
    }
    calls.into_iter().map(move |(outcomes, values, room)| {
        let call = Call::Write { edition: 1, flow: flow.clone(), outcomes, values, room };
        Case { table: Vec::new(), calls: vec![call] }
    })
}

#[cfg(test)]
mod tests {
    use super::*;

    #[test]
    fn the_bases_stand() {
        let (flow, outcomes) = written();
        let values = GIVEN.map(|name| if name.starts_with("data_ora") { b"2021-03-01T09:30:00Z".to_vec() } else { b"x".to_vec() });
        assert!(length(1, &flow, &outcomes, &values) > 1_000);
        assert_eq!(again(&small()), small());
    }

    #[test]
    fn text_of_so_many_bytes() {
        let mut random = Random::of_case(1, 1);
        for length in [0, 1, 2, 139, 140, 141, 280] {
            let text = of_bytes(&mut random, length);
            assert!(text.len() == length && markup::is_text(&text));
        }
    }

    #[test]
    fn a_tree_is_the_message() {
        for index in 0..50 {
            let root = tree(&mut Random::of_case(3, index), Some(3));
            let mut random = Random::of_case(4, index);
            let bytes = flows::write(&mut random, &root);
            assert!(message::values_of(1, &bytes).is_ok(), "{}", bytes.escape_ascii());
        }
    }
}
