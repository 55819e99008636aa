//! Document 02, Req 01, case by case: messages written by hand beside those that are written, read, and written again.

use reference::message::{Given, ReadAnswer, WriteAnswer, bytes, read, rewrite, values_of, write};
use reference::{flow, open, request};

/// The message of document 01's run.
const RUN: &str = concat!(
    "<messaggi_esito_applicativo><testata_messaggio><codice_ABI_BT>01234</codice_ABI_BT>",
    "<data_ora_creazione_flusso>2021-03-01T09:31:00+01:00</data_ora_creazione_flusso><codice_ente>UFABCD</codice_ente>",
    "<descrizione_ente>I.C. Giovanni Pascoli</descrizione_ente><codice_fiscale_ente>80012345678</codice_fiscale_ente>",
    "<codice_tramite_ente>A2A-12345678</codice_tramite_ente><codice_tramite_BT>A2A-87654321</codice_tramite_BT>",
    "<codice_ente_BT>000471</codice_ente_BT></testata_messaggio><identificativo_flusso_BT>BT-238444</identificativo_flusso_BT>",
    "<esito_reversali><identificativo_flusso>A1</identificativo_flusso><esercizio>2021</esercizio>",
    "<numero_reversale>12</numero_reversale><data_reversale>2021-03-01</data_reversale><importo>20.00</importo>",
    "<esito_operazione>NON ACQUISITO</esito_operazione>",
    "<data_ora_esito_operazione>2021-03-01T09:30:30+01:00</data_ora_esito_operazione><lista_errori>",
    "<codice_errore>13</codice_errore><descrizione>13</descrizione><elemento>importo_reversale</elemento></lista_errori>",
    "</esito_reversali><esito_mandati><identificativo_flusso>A1</identificativo_flusso><esercizio>2021</esercizio>",
    "<numero_mandato>12</numero_mandato><data_mandato>2021-03-01</data_mandato><importo>150.00</importo>",
    "<esito_operazione>ACQUISITO</esito_operazione>",
    "<data_ora_esito_operazione>2021-03-01T09:30:30+01:00</data_ora_esito_operazione></esito_mandati>",
    "</messaggi_esito_applicativo>",
);

const GIVEN: Given = [
    b"2021-03-01T09:31:00+01:00",
    b"2021-03-01T09:30:30+01:00",
    b"UFABCD",
    b"I.C. Giovanni Pascoli",
    b"",
    b"80012345678",
    b"A2A-12345678",
    b"A2A-87654321",
    b"BT-238444",
];

fn order(kind: &str, party: &str, operation: &str, number: &str, total: &str, amounts: &[&str]) -> String {
    let lines: String = (1..)
        .zip(amounts)
        .map(|(line, amount)| {
            let named = format!(
                "<sostituzione_{kind}><numero_{kind}_da_sostituire>1</numero_{kind}_da_sostituire>\
                 <progressivo_{party}_da_sostituire>1</progressivo_{party}_da_sostituire>\
                 <esercizio_{kind}_da_sostituire>2021</esercizio_{kind}_da_sostituire></sostituzione_{kind}>"
            );
            format!(
                "<informazioni_{party}><progressivo_{party}>{line}</progressivo_{party}><importo_{party}>{amount}</importo_{party}>\
                 <{party}><anagrafica_{party}>R</anagrafica_{party}></{party}>{}</informazioni_{party}>",
                if operation == "SOSTITUZIONE" { &named } else { "" }
            )
        })
        .collect();
    format!(
        "<{kind}><tipo_operazione>{operation}</tipo_operazione><numero_{kind}>{number}</numero_{kind}>\
         <data_{kind}>2021-03-01</data_{kind}><importo_{kind}>{total}</importo_{kind}>{lines}</{kind}>"
    )
}

fn whole(orders: &[String]) -> String {
    format!(
        "<flusso_ordinativi><codice_ABI_BT>01234</codice_ABI_BT><identificativo_flusso>A1</identificativo_flusso>\
         <data_ora_creazione_flusso>2021-03-01T09:30:00</data_ora_creazione_flusso><codice_ente_BT>000471</codice_ente_BT>\
         <esercizio>2021</esercizio>{}</flusso_ordinativi>",
        orders.concat()
    )
}

fn run() -> String {
    whole(&[
        order("mandato", "beneficiario", "INSERIMENTO", "0012", "150.00", &["100.00", "50.00"]),
        order("reversale", "versante", "INSERIMENTO", "12", "20.00", &["20.01"]),
    ])
}

/// The outcome bytes of a flow on a fresh table.
fn outcomes(text: &str) -> Vec<u8> {
    let mut table = vec![0; 16 + 48 + 96 * 4];
    assert_eq!(open(&request(b"01234", &[(b"000471", 4)]), &mut table), 0);
    let mut outcomes = vec![0; 1024];
    let answer = flow(&mut table, 1, text.as_bytes(), &mut outcomes);
    assert_eq!(answer.code, 0);
    outcomes.truncate(16 * answer.orders as usize);
    outcomes
}

/// The message that is written; the buffer has just its length.
fn written(text: &str, outcomes: &[u8], given: &Given) -> String {
    let mut buffer = vec![0xEE; 40_000];
    let WriteAnswer { code, length } = write(1, text.as_bytes(), outcomes, given, &mut buffer);
    assert_eq!(code, 0);
    assert!(buffer[length as usize..].iter().all(|&byte| byte == 0xEE));
    let mut exact = vec![0; length as usize];
    assert_eq!(write(1, text.as_bytes(), outcomes, given, &mut exact), WriteAnswer { code: 0, length });
    assert_eq!(exact, &buffer[..length as usize]);
    let mut short = vec![0xEE; length as usize - 1];
    assert_eq!(write(1, text.as_bytes(), outcomes, given, &mut short), WriteAnswer { code: 40, length: 0 });
    assert!(short.iter().all(|&byte| byte == 0xEE));
    String::from_utf8(exact).unwrap()
}

fn refusal(text: &str, outcomes: &[u8], given: &Given) -> u64 {
    let mut buffer = vec![0xEE; 40_000];
    let answer = write(1, text.as_bytes(), outcomes, given, &mut buffer);
    assert!(answer.code != 0 && answer.length == 0 && buffer.iter().all(|&byte| byte == 0xEE));
    // 41 comes before 40.
    assert_eq!(write(1, text.as_bytes(), outcomes, given, &mut []), answer);
    answer.code
}

/// A message that must be taken: read, and written again with the same values.
fn taken(message: &str) -> Vec<u8> {
    let mut values = [0xEE; 3_152];
    let answer = read(1, message.as_bytes(), &mut values);
    assert_eq!((answer.code, answer.place, answer.cause), (0, 0, 0), "{message}");
    let length = 80 + 48 * answer.entries as usize;
    assert!(values[length..].iter().all(|&byte| byte == 0xEE));
    let mut short = vec![0xEE; length - 1];
    assert_eq!(read(1, message.as_bytes(), &mut short), ReadAnswer { code: 40, ..ReadAnswer::default() });
    assert!(short.iter().all(|&byte| byte == 0xEE));
    let first = values_of(1, message.as_bytes()).unwrap().values();
    let mut again = vec![0; 40_000];
    let WriteAnswer { code, length: again_length } = rewrite(1, message.as_bytes(), &mut again);
    assert_eq!(code, 0);
    again.truncate(again_length as usize);
    assert_eq!(values_of(1, &again).unwrap().values(), first);
    assert_eq!(bytes(&first), again);
    let mut third = vec![0; again.len()];
    assert_eq!(rewrite(1, &again, &mut third), WriteAnswer { code: 0, length: again_length });
    assert_eq!(third, again);
    assert_eq!(rewrite(1, message.as_bytes(), &mut third[1..]), WriteAnswer { code: 40, length: 0 });
    values[..length].to_vec()
}

/// A message that must be refused; code and cause, and the name of the element at the place.
fn refused(message: &str) -> (u64, u64, &str) {
    let mut values = [0xEE; 3_152];
    let answer = read(1, message.as_bytes(), &mut values);
    assert!(answer.code != 0 && answer.entries == 0 && values.iter().all(|&byte| byte == 0xEE), "{message}");
    assert_eq!(rewrite(1, message.as_bytes(), &mut [0; 40_000]), WriteAnswer { code: answer.code, length: 0 });
    let element = &message[answer.place as usize..];
    let name = if answer.code == 5 { element[1..].split('>').next().unwrap() } else { "" };
    assert!(answer.code == 5 || (answer.place, answer.cause) == (0, 0));
    (answer.code, answer.cause, name)
}

/// The run's message with one text for another, which must be there.
fn changed(old: &str, new: &str) -> String {
    assert!(RUN.contains(old), "{old}");
    RUN.replacen(old, new, 1)
}

#[test]
fn the_run_is_written() {
    assert_eq!(written(&run(), &outcomes(&run()), &GIVEN), RUN);
    let longer = [outcomes(&run()), vec![7; 5]].concat();
    assert_eq!(written(&run(), &longer, &GIVEN), RUN, "bytes past the last order's are not looked at");
}

#[test]
fn the_values_that_are_shown() {
    let values = taken(RUN);
    let number = |at: usize| u32::from_be_bytes(values[at..at + 4].try_into().unwrap()) as usize;
    let text = |at: usize| &RUN[number(at)..number(at) + number(at + 4)];
    let header: Vec<_> = (0..10).map(|place| text(8 * place)).collect();
    assert_eq!(header[..2], ["01234", "2021-03-01T09:31:00+01:00"]);
    assert_eq!(header[2..7], ["UFABCD", "I.C. Giovanni Pascoli", "", "80012345678", "A2A-12345678"]);
    assert_eq!(header[7..], ["A2A-87654321", "000471", "BT-238444"]);
    assert_eq!(values[32..40], [0; 8]);
    assert_eq!(values[80..104], *b"\x02\x01\x0D\0\x07\xE5\0\0\0\0\0\x0C\x07\xE5\x03\x01\0\0\0\0\0\0\x07\xD0");
    assert_eq!((text(104), text(112)), ("A1", "2021-03-01T09:30:30+01:00"));
    assert_eq!(number(104), RUN.find("A1<").unwrap());
    assert_eq!(values[120..128], [0; 8]);
    assert_eq!(values[128..152], *b"\x01\x01\0\0\x07\xE5\0\0\0\0\0\x0C\x07\xE5\x03\x01\0\0\0\0\0\0\x3A\x98");
    assert_eq!(number(152), RUN.rfind("A1<").unwrap());
    assert_eq!(values.len(), 176);
}

#[test]
fn words_and_elements() {
    let words = [("INSERIMENTO", "ACQUISITO"), ("VARIAZIONE", "VARIATO"), ("ANNULLO", "ANNULLATO"), ("SOSTITUZIONE", "SOSTITUITO")];
    for (number, (operation, word)) in (1..).zip(words) {
        for (kind, (name, party)) in [(1, ("mandato", "beneficiario")), (2, ("reversale", "versante"))] {
            let text = whole(&[order(name, party, operation, "7", "1.00", &["1.00"])]);
            for code in 0..=255 {
                let outcome = [kind, number, code, 1, 0, 0, 0, 7, 0, 0, 0, 0, 0, 0, 0, 100];
                if code != 0 && !(12..=19).contains(&code) && !(24..=26).contains(&code) {
                    assert_eq!(refusal(&text, &outcome, &GIVEN), 41, "{code}");
                    continue;
                }
                let message = written(&text, &outcome, &GIVEN);
                let wanted = if code == 0 { word.to_string() } else { format!("NON {word}") };
                assert!(message.contains(&format!("<esito_operazione>{wanted}</esito_operazione>")), "{message}");
                let element = match code {
                    0 => None,
                    12 => Some(format!("progressivo_{party}")),
                    13 | 19 => Some(format!("importo_{name}")),
                    _ => Some(format!("numero_{name}")),
                };
                let list = element.map_or(String::new(), |element| {
                    format!(
                        "<lista_errori><codice_errore>{code}</codice_errore><descrizione>{code}</descrizione>\
                         <elemento>{element}</elemento></lista_errori>"
                    )
                });
                assert!(message.ends_with(&format!(
                    "</data_ora_esito_operazione>{list}</esito_{}></messaggi_esito_applicativo>",
                    if kind == 1 { "mandati" } else { "reversali" }
                )));
                let values = taken(&message);
                assert_eq!(values[80..83], [kind, number, code]);
            }
        }
    }
}

#[test]
fn outcome_bytes_that_are_not_this_flows() {
    let right = outcomes(&run());
    assert_eq!(refusal(&run(), &right[..31], &GIVEN), 41);
    assert_eq!(refusal(&run(), &[], &GIVEN), 41);
    for at in (0..32).filter(|at| at % 16 != 2) {
        for value in 0..=255 {
            let mut other = right.clone();
            other[at] = value;
            if other != right {
                assert_eq!(refusal(&run(), &other, &GIVEN), 41, "byte {at}");
            }
        }
    }
    let swapped = [&right[16..], &right[..16]].concat();
    assert_eq!(refusal(&run(), &swapped, &GIVEN), 41, "the outcomes stand in the flow's order");
}

#[test]
fn a_flow_that_is_refused() {
    let right = outcomes(&run());
    let wrong: Given = [b""; 9];
    assert_eq!(refusal(&" ".repeat(32_769), &right, &wrong), 2);
    assert_eq!(refusal("", &right, &wrong), 3);
    assert_eq!(refusal("<a></a>", &right, &wrong), 4);
    assert_eq!(refusal(&run().replace("20.00", "020.00"), &right, &wrong), 5);
    assert_eq!(refusal(&run(), &right, &wrong), 41);
    // The bank and the body are compared with nothing.
    let other = run().replace("01234", "99999").replace("000471", "0471");
    assert_eq!(written(&other, &right, &GIVEN), RUN.replace(">01234<", ">99999<").replace("000471", "0471"));
}

#[test]
fn the_callers_texts() {
    let right = outcomes(&run());
    let with = |place: usize, text: &[u8]| {
        let mut given = GIVEN;
        given[place] = text;
        write(1, run().as_bytes(), &right, &given, &mut [0; 40_000]).code
    };
    for place in 2..9 {
        assert_eq!(with(place, b""), if place == 4 { 0 } else { 41 });
        assert_eq!(with(place, b" "), 0);
        assert_eq!(with(place, &[b'x'; 140]), 0);
        assert_eq!(with(place, &[b'x'; 141]), 41);
        assert_eq!(with(place, "\u{e0}".repeat(70).as_bytes()), 0);
        assert_eq!(with(place, "\u{e0}".repeat(71).as_bytes()), 41, "bytes are counted");
        assert_eq!(with(place, "&amp;".repeat(28).as_bytes()), 0);
        assert_eq!(with(place, "&amp;".repeat(29).as_bytes()), 41, "a reference counts its bytes");
        for broken in [&b"a<b"[..], b"a&b", b"&#38;", b"]]>", b"\0", b"\x0B", b"\xC3", b"\xED\xA0\x80", b"\xEF\xBF\xBE"] {
            assert_eq!(with(place, broken), 41, "{broken:x?}");
        }
        for stands in ["a>b", "]]", "\r\n", "\u{10FFFF}", "\u{7F}"] {
            assert_eq!(with(place, stands.as_bytes()), 0, "{stands:?}");
        }
    }
    let mut given = GIVEN;
    given[4] = b"000123456";
    let message = written(&run(), &right, &given);
    let istat = "</descrizione_ente><codice_istat_ente>000123456</codice_istat_ente><codice_fiscale_ente>";
    assert_eq!(message, changed("</descrizione_ente><codice_fiscale_ente>", istat));
    taken(&message);
}

#[test]
fn the_callers_times() {
    let right = outcomes(&run());
    let with = |place: usize, text: &str| {
        let mut given = GIVEN;
        given[place] = text.as_bytes();
        write(1, run().as_bytes(), &right, &given, &mut [0; 40_000]).code
    };
    for place in 0..2 {
        for zone in ["Z", "+00:00", "-00:00", "-23:59", "+23:59", "+09:05"] {
            assert_eq!(with(place, &format!("2021-03-01T23:59:59{zone}")), 0, "{zone}");
        }
        for zone in
            ["", "z", "+24:00", "-24:00", "+23:60", "+1:00", "+0100", "01:00", "+01:0", "+01:000", "+01:00Z", " +01:00", "+0a:00"]
        {
            assert_eq!(with(place, &format!("2021-03-01T23:59:59{zone}")), 41, "{zone}");
        }
        for time in ["", "2021-02-29T00:00:00Z", "2021-03-01T24:00:00Z", "2100-01-01T00:00:00Z", "2021-03-01 00:00:00Z"] {
            assert_eq!(with(place, time), 41, "{time}");
        }
    }
}

#[test]
fn reversali_stand_first() {
    let text = whole(&[
        order("mandato", "beneficiario", "INSERIMENTO", "3", "1.00", &["1.00"]),
        order("reversale", "versante", "INSERIMENTO", "2", "1.00", &["1.00"]),
        order("mandato", "beneficiario", "ANNULLO", "1", "1.00", &["1.00"]),
        order("reversale", "versante", "VARIAZIONE", "0000004", "1.00", &["1.00"]),
    ]);
    let message = written(&text, &outcomes(&text), &GIVEN);
    let places = ["<numero_reversale>2<", "<numero_reversale>4<", "<numero_mandato>3<", "<numero_mandato>1<"];
    let places = places.map(|part| message.find(part).unwrap());
    assert!(places.is_sorted());
    let values = taken(&message);
    assert_eq!(values.len(), 80 + 4 * 48);
    let swapped = changed("<esito_reversali>", "<x></x><esito_mandati>").replace("</esito_reversali>", "</esito_mandati>");
    assert_eq!(refused(&swapped.replace("_reversale>", "_mandato>")), (5, 3, "elemento"));
    let (before, after) = RUN.split_at(RUN.find("<esito_mandati>").unwrap());
    let (mandati, end) = after.split_at(after.find("</messaggi").unwrap());
    let at = before.find("<esito_reversali>").unwrap();
    let mixed = [&before[..at], mandati, &before[at..], end].concat();
    assert_eq!(refused(&mixed), (4, 0, ""));
}

#[test]
fn the_longest_message() {
    let outcome = [2, 1, 12, 1, 0, 0x98, 0x96, 0x7F, 0, 0, 0, 0x17, 0x48, 0x76, 0xE7, 0xFF];
    let one = order("reversale", "versante", "INSERIMENTO", "9999999", "999999999.99", &["0.00"]);
    let text = whole(&vec![one; 64]).replace(">A1<", ">A234567890123456789012345678901234.<").replace("000471", "0000000000000471");
    let mut given: Given = [&[b'x'; 140]; 9];
    (given[0], given[1]) = (GIVEN[0], GIVEN[1]);
    assert!(text.len() <= 32_768);
    let message = written(&text, &outcome.repeat(64), &given);
    assert_eq!(message.len(), 35_122 - 64);
    // No flow has room for 64 SOSTITUZIONE, whose word is longer by a letter; but such a message can be read and written again.
    let longest = message.replace("NON ACQUISITO", "NON SOSTITUITO");
    assert_eq!(longest.len(), 35_122);
    assert_eq!(taken(&longest).len(), 3_152);
}

#[test]
fn markup_and_length() {
    for taken_too in [
        format!("\u{FEFF}{RUN}"),
        format!("\u{FEFF}<?xml version=\"1.0\" encoding=\"UTF-8\"?>\n{RUN}\r\n"),
        RUN.replace("><", "> \n<"),
        RUN.to_string() + &" ".repeat(65_536 - RUN.len()),
    ] {
        let mut again = vec![0; RUN.len()];
        assert_eq!(rewrite(1, taken_too.as_bytes(), &mut again), WriteAnswer { code: 0, length: RUN.len() as u64 });
        assert_eq!(again, RUN.as_bytes());
        taken(&taken_too);
    }
    assert_eq!(refused(&(RUN.to_string() + &" ".repeat(65_537 - RUN.len()))), (2, 0, ""));
    assert_eq!(refused(&" ".repeat(65_537)), (2, 0, ""));
    assert_eq!(refused(""), (3, 0, ""));
    assert_eq!(refused(&changed("<messaggi_esito_applicativo>", "<messaggi_esito_applicativo Id=\"a\">")), (3, 0, ""));
    assert_eq!(refused("<a></a>"), (4, 0, ""));
    assert_eq!(refused(&RUN.replace("messaggi_", "messaggio_")), (4, 0, ""));
}

#[test]
fn the_structure() {
    let breaks = |old: &str, new: &str| assert_eq!(refused(&changed(old, new)), (4, 0, ""), "{old} {new}");
    let stands = |old: &str, new: &str| drop(taken(&changed(old, new)));
    for name in
        ["codice_ABI_BT", "codice_ente", "descrizione_ente", "codice_fiscale_ente", "codice_ente_BT", "identificativo_flusso_BT"]
            .into_iter()
            .chain([
                "numero_reversale",
                "data_reversale",
                "importo",
                "esito_operazione",
                "codice_errore",
                "descrizione",
                "elemento",
            ])
    {
        let from = RUN.find(&format!("<{name}>")).unwrap();
        let end = format!("</{name}>");
        let to = from + RUN[from..].find(&end).unwrap() + end.len();
        let element = &RUN[from..to];
        breaks(element, "");
        breaks(element, &element.repeat(2));
        breaks(element, &format!("<{name}><x></x></{name}>"));
        stands(element, &format!("<x><{name}></{name}></x>{element}<signature>y</signature>"));
        let (_, after) = RUN.split_at(to);
        if after.starts_with("</") {
            continue;
        }
        let next = &after[..after.find("</").unwrap() + after[after.find("</").unwrap()..].find('>').unwrap() + 1];
        if !next[1..].contains("<lista") && next.matches('<').count() == 2 {
            breaks(&format!("{element}{next}"), &format!("{next}{element}"));
        }
    }
    let istat = |text: &str| format!("<codice_istat_ente>{text}</codice_istat_ente><codice_fiscale_ente>");
    stands("<codice_fiscale_ente>", &istat("1"));
    breaks("<codice_fiscale_ente>", &istat(&istat("1").replace("<codice_fiscale_ente>", "")));
    assert_eq!(refused(&changed("<codice_fiscale_ente>", &istat(""))), (5, 1, "codice_istat_ente"));
    assert_eq!(refused(&changed("<codice_fiscale_ente>", &istat(&"x".repeat(141)))), (5, 2, "codice_istat_ente"));
    breaks("<lista_errori>", "<lista_errori></lista_errori><lista_errori>");
    let (from, to) = (RUN.find("<lista_errori>").unwrap(), RUN.find("</esito_reversali>").unwrap());
    breaks("</esito_reversali>", &format!("{}</esito_reversali>", &RUN[from..to]));
    // Table 17's names that are never written, and the other kind's, which it doesn't know there.
    let line = |party: &str| format!("<progressivo_{party}>1</progressivo_{party}>");
    for before in ["<data_reversale>", "<identificativo_flusso>", "</esito_reversali>", "<codice_errore>", "</lista_errori>"] {
        breaks(before, &(line("versante") + before));
        stands(before, &(line("beneficiario") + before));
    }
    for before in ["<data_mandato>", "<numero_mandato>", "</esito_mandati>"] {
        breaks(before, &(line("beneficiario") + before));
        stands(before, &(line("versante") + before));
    }
    stands("<testata_messaggio>", &(line("versante") + "<testata_messaggio>"));
    breaks("<identificativo_flusso_BT>BT-238444</identificativo_flusso_BT>", "");
}

#[test]
fn how_many_entries() {
    let from = RUN.find("<esito_reversali>").unwrap();
    let to = RUN.find("<esito_mandati>").unwrap();
    let end = RUN.find("</messaggi").unwrap();
    let with = |reversali: usize, mandati: usize| {
        [&RUN[..from], &RUN[from..to].repeat(reversali), &RUN[to..end].repeat(mandati), &RUN[end..]].concat()
    };
    assert_eq!(refused(&with(0, 0)), (4, 0, ""));
    for (reversali, mandati) in [(1, 0), (0, 1), (64, 0), (0, 64), (32, 32), (63, 1)] {
        assert_eq!(taken(&with(reversali, mandati)).len(), 80 + 48 * (reversali + mandati));
    }
    for (reversali, mandati) in [(65, 0), (0, 65), (32, 33), (64, 1)] {
        assert_eq!(refused(&with(reversali, mandati)), (4, 0, ""));
    }
}

#[test]
fn fields_and_causes() {
    let breaks = |old: &str, new: &str, name: &str, cause: u64| {
        assert_eq!(refused(&changed(&format!(">{old}<"), &format!(">{new}<"))), (5, cause, name), "{new}");
    };
    let times = [("", 1), ("2021-03-01T09:31:00+01:000", 2), ("2021-03-01T09:31:00+1:00", 3), ("2021-03-01T09:31:00", 3)];
    let more =
        [("2021-03-01T09:31:00+24:00", 4), ("2021-02-29T09:31:00Z", 4), ("2021-02-29T09:31:0xZ", 3), ("1999-01-01T00:00:00Z", 4)];
    for (time, cause) in times.into_iter().chain(more) {
        breaks("2021-03-01T09:31:00+01:00", time, "data_ora_creazione_flusso", cause);
        breaks("2021-03-01T09:30:30+01:00", time, "data_ora_esito_operazione", cause);
    }
    for time in ["2021-03-01T09:31:00Z", "2021-03-01T09:31:00-00:00", "2000-02-29T23:59:59+23:59"] {
        taken(&RUN.replace("2021-03-01T09:31:00+01:00", time));
    }
    breaks("01234", "0123", "codice_ABI_BT", 3);
    breaks("01234", "012345", "codice_ABI_BT", 2);
    breaks("000471", "", "codice_ente_BT", 1);
    breaks("000471", "47-1", "codice_ente_BT", 3);
    for (old, name) in [
        ("UFABCD", "codice_ente"),
        ("I.C. Giovanni Pascoli", "descrizione_ente"),
        ("80012345678", "codice_fiscale_ente"),
        ("A2A-12345678", "codice_tramite_ente"),
        ("A2A-87654321", "codice_tramite_BT"),
        ("BT-238444", "identificativo_flusso_BT"),
    ] {
        breaks(old, "", name, 1);
        breaks(old, &"x".repeat(141), name, 2);
        breaks(old, &"&lt;".repeat(36), name, 2);
        taken(&changed(old, &"\u{e0}".repeat(70)));
    }
    breaks("A1", "A 1", "identificativo_flusso", 3);
    breaks("2021", "1999", "esercizio", 4);
    breaks("12", "0", "numero_reversale", 4);
    breaks("12", "00000012", "numero_reversale", 2);
    taken(&changed(">12<", ">0000012<"));
    breaks("2021-03-01", "2021-02-29", "data_reversale", 4);
    breaks("20.00", "020.00", "importo", 3);
    for (word, cause) in [
        ("", 1),
        ("NON ACQUISITO", 3),
        ("RISCOSSO", 3),
        ("NON  VARIATO", 3),
        ("PAGATO", 3),
        ("NON ESEGUIBILE", 3),
        ("NON REGOLARIZZATO", 2),
    ] {
        breaks("ACQUISITO", word, "esito_operazione", cause);
    }
    for (word, cause) in [("ACQUISITO", 3), ("STORNATO", 3), ("acquisito", 3), ("NON ACQUISITO ", 3), ("NON ACQUISITO  ", 2)] {
        breaks("NON ACQUISITO", word, "esito_operazione", cause);
    }
    taken(&changed("NON ACQUISITO", "NON SOSTITUITO"));
    // The word that doesn't fit is told before the time that breaks after it.
    let both = changed("NON ACQUISITO", "ACQUISITO").replace("2021-03-01T09:30:30+01:00", "x");
    assert_eq!(refused(&both), (5, 3, "esito_operazione"));
    for (code, cause) in
        [("", 1), ("013", 2), ("1", 3), ("1a", 3), ("10", 4), ("11", 4), ("20", 4), ("23", 4), ("27", 4), ("00", 4), ("99", 4)]
    {
        breaks("13", code, "codice_errore", cause);
    }
    for (code, cause) in [("", 1), ("13 ", 2), ("14", 3), ("1", 3)] {
        assert_eq!(refused(&changed("<descrizione>13<", &format!("<descrizione>{code}<"))), (5, cause, "descrizione"));
    }
    let fourteen = RUN.replace(">13<", ">14<");
    assert_eq!(refused(&fourteen), (5, 3, "elemento"));
    for code in ["14", "24", "25", "26"] {
        taken(&RUN.replace(">13<", &format!(">{code}<")).replace(">importo_reversale<", ">numero_reversale<"));
    }
    taken(&RUN.replace(">13<", ">12<").replace(">importo_reversale<", ">progressivo_versante<"));
    for (element, cause) in
        [("", 1), ("importo", 3), ("importo_mandato", 3), ("progressivo_beneficiario", 3), ("progressivo_beneficiario_", 2)]
    {
        breaks("importo_reversale", element, "elemento", cause);
    }
}

#[test]
fn entries_of_two_flows() {
    let at = RUN.rfind(">A1<").unwrap();
    let other = [&RUN[..at], &RUN[at..].replace(">A1<", ">B-2<").replace("+01:00", "Z").replace(">2021<", ">2022<")].concat();
    taken(&other);
    let mut again = vec![0; other.len()];
    assert_eq!(rewrite(1, other.as_bytes(), &mut again).code, 0);
    assert_eq!(again, other.as_bytes());
}
