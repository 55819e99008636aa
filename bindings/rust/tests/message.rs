//! Outcome messages through the safe types: written, read, written again, and a refusal of each kind.

use hondivole::{
    Cause, Date, Edition, Entry, Given, Kind, MOST_VALUES_BYTES, MOST_WRITTEN_BYTES, MessageValues, Operation, Refusal, Table,
    read_message, rewrite_message, write_message,
};

const RUN: &[u8] = include_bytes!("../src/run.xml");
const MESSAGE: &str = include_str!("../src/message.xml");

const VALUES: MessageValues = MessageValues {
    created: "2021-03-01T09:31:00+01:00",
    outcome: "2021-03-01T09:30:30+01:00",
    codice_ente: "UFABCD",
    descrizione_ente: "I.C. Giovanni Pascoli",
    codice_istat_ente: "",
    codice_fiscale_ente: "80012345678",
    codice_tramite_ente: "A2A-12345678",
    codice_tramite_bt: "A2A-87654321",
    identificativo_flusso_bt: "BT-238444",
};

fn outcomes() -> [u8; 32] {
    let mut outcomes = [0; 32];
    Table::open("01234", &[("000471", 4)]).unwrap().flow(Edition::Oil, RUN, &mut outcomes).unwrap();
    outcomes
}

#[test]
fn written_and_read() {
    let mut buffer = [7; MOST_WRITTEN_BYTES];
    assert_eq!(write_message(Edition::Oil, RUN, &outcomes(), &VALUES, &mut buffer), Ok(MESSAGE));
    assert!(buffer[MESSAGE.len()..].iter().all(|&byte| byte == 7));
    let mut values = [7; MOST_VALUES_BYTES];
    let message = read_message(Edition::Oil, MESSAGE.as_bytes(), &mut values).unwrap();
    assert_eq!((message.codice_abi_bt, message.codice_ente_bt), ("01234", "000471"));
    assert_eq!(
        (message.created, message.codice_ente, message.descrizione_ente),
        (VALUES.created, "UFABCD", VALUES.descrizione_ente)
    );
    assert_eq!((message.codice_istat_ente, message.codice_fiscale_ente), (None, "80012345678"));
    assert_eq!((message.codice_tramite_ente, message.codice_tramite_bt), ("A2A-12345678", "A2A-87654321"));
    assert_eq!(message.identificativo_flusso_bt, "BT-238444");
    let reversale = Entry {
        kind: Kind::Reversale,
        operation: Operation::Inserimento,
        verdict: Err(Refusal::LinesDontSum),
        identificativo_flusso: "A1",
        esercizio: 2021,
        number: 12,
        date: Date { year: 2021, month: 3, day: 1 },
        total: 2_000,
        outcome: VALUES.outcome,
    };
    let mandato = Entry { kind: Kind::Mandato, verdict: Ok(()), total: 15_000, ..reversale };
    assert_eq!(message.entries().collect::<Vec<_>>(), [reversale, mandato]);
    assert_eq!(values[176..], [7; MOST_VALUES_BYTES - 176]);
}

#[test]
fn an_istat_code() {
    let mut buffer = [0; MOST_WRITTEN_BYTES];
    let values = MessageValues { codice_istat_ente: "000123456", ..VALUES };
    let message = write_message(Edition::Oil, RUN, &outcomes(), &values, &mut buffer).unwrap();
    let mut read = [0; MOST_VALUES_BYTES];
    assert_eq!(read_message(Edition::Oil, message.as_bytes(), &mut read).unwrap().codice_istat_ente, Some("000123456"));
}

#[test]
fn written_again() {
    let mut buffer = [0; MOST_WRITTEN_BYTES];
    assert_eq!(rewrite_message(Edition::Oil, MESSAGE.as_bytes(), &mut buffer), Ok(MESSAGE));
    let wider = format!(
        "\u{FEFF}{}\n",
        MESSAGE.replace("><", "> <").replace("<numero_mandato>12", "<causale>x</causale><numero_mandato>0012")
    );
    assert_eq!(rewrite_message(Edition::Oil, wider.as_bytes(), &mut buffer), Ok(MESSAGE));
    let mut short = vec![7; MESSAGE.len() - 1];
    assert_eq!(rewrite_message(Edition::Oil, wider.as_bytes(), &mut short), Err(Refusal::BufferTooShort));
    assert!(short.iter().all(|&byte| byte == 7));
}

#[test]
fn refused_flows_and_buffers() {
    let mut short = vec![7; MESSAGE.len() - 1];
    assert_eq!(write_message(Edition::Oil, RUN, &outcomes(), &VALUES, &mut short), Err(Refusal::BufferTooShort));
    assert_eq!(write_message(Edition::Oil, &[b' '; 32_769], &outcomes(), &VALUES, &mut short), Err(Refusal::FlowTooLong));
    assert_eq!(write_message(Edition::Oil, b"", &outcomes(), &VALUES, &mut short), Err(Refusal::MarkupBreaks));
    assert_eq!(write_message(Edition::Oil, b"<a></a>", &outcomes(), &VALUES, &mut short), Err(Refusal::StructureBreaks));
    let broken = String::from_utf8_lossy(RUN).replace("2021-03-01<", "2021-02-29<");
    let place = broken.find("<data_mandato").unwrap();
    let refusal = write_message(Edition::Oil, broken.as_bytes(), &outcomes(), &VALUES, &mut short).unwrap_err();
    assert_eq!(refusal, Refusal::FieldBreaks { place, cause: Cause::OutOfRange });
    assert!(short.iter().all(|&byte| byte == 7));
}

#[test]
fn outcomes_that_are_not_this_flows() {
    let refusal = Refusal::ValuesWrong { given: Some(Given::Outcomes) };
    let mut buffer = [0; MOST_WRITTEN_BYTES];
    assert_eq!(write_message(Edition::Oil, RUN, &outcomes()[..31], &VALUES, &mut buffer), Err(refusal));
    for at in 0..32 {
        let mut other = outcomes();
        other[at] ^= 0x40;
        assert_eq!(write_message(Edition::Oil, RUN, &other, &VALUES, &mut buffer), Err(refusal), "byte {at}");
    }
    assert_eq!(refusal.to_string(), "the outcome bytes aren't this flow's");
}

type Change = for<'v> fn(MessageValues<'v>, &'v str) -> MessageValues<'v>;

const CHANGES: [(Given, Change); 9] = [
    (Given::Created, |values, created| MessageValues { created, ..values }),
    (Given::Outcome, |values, outcome| MessageValues { outcome, ..values }),
    (Given::CodiceEnte, |values, codice_ente| MessageValues { codice_ente, ..values }),
    (Given::DescrizioneEnte, |values, descrizione_ente| MessageValues { descrizione_ente, ..values }),
    (Given::CodiceIstatEnte, |values, codice_istat_ente| MessageValues { codice_istat_ente, ..values }),
    (Given::CodiceFiscaleEnte, |values, codice_fiscale_ente| MessageValues { codice_fiscale_ente, ..values }),
    (Given::CodiceTramiteEnte, |values, codice_tramite_ente| MessageValues { codice_tramite_ente, ..values }),
    (Given::CodiceTramiteBt, |values, codice_tramite_bt| MessageValues { codice_tramite_bt, ..values }),
    (Given::IdentificativoFlussoBt, |values, identificativo_flusso_bt| MessageValues { identificativo_flusso_bt, ..values }),
];

/// The library judges each value, and the binding names the one that it refuses: the same ones.
#[test]
fn which_value_is_wrong() {
    let mut texts: Vec<String> =
        ["", "&", "&amp;", "&amp", "&#38;", "]]>", "]]", "a<b", "a>b", "\u{FFFE}", "\u{FFFD}", "\u{10FFFF}"]
            .map(String::from)
            .to_vec();
    texts.extend((0..0x100u32).filter_map(char::from_u32).map(String::from));
    texts.extend([139, 140, 141].map(|length| "x".repeat(length)));
    texts.extend([70, 71].map(|length| "\u{e0}".repeat(length)));
    for part in 0..100 {
        texts.extend([
            format!("20{part:02}-02-29T00:00:00Z"),
            format!("2021-{part:02}-30T00:00:00Z"),
            format!("2021-04-{part:02}T00:00:00Z"),
            format!("2021-05-{part:02}T00:00:00Z"),
            format!("{part:02}21-03-01T00:00:00Z"),
            format!("2021-03-01T{part:02}:00:00Z"),
            format!("2021-03-01T23:{part:02}:00+00:00"),
            format!("2021-03-01T23:59:{part:02}-00:00"),
            format!("2021-03-01T23:59:59+{part:02}:00"),
            format!("2021-03-01T23:59:59-23:{part:02}"),
        ]);
    }
    let time = "2021-03-01T23:59:59+23:59";
    texts.extend((0..=time.len()).map(|length| time[..length].to_string()));
    texts.extend([
        format!("{time}Z"),
        format!(" {time}"),
        time.replace('T', "t"),
        time.replace("+23", "+1"),
        time.replace('+', " "),
    ]);
    for at in 0..time.len() {
        texts.extend(["/", ":", "a", "-", "+", "Z", " "].map(|byte| [&time[..at], byte, &time[at + 1..]].concat()));
    }
    let mut buffer = [0; MOST_WRITTEN_BYTES];
    let mut tried = [0; 2];
    for (given, change) in CHANGES {
        for text in &texts {
            let answer = write_message(Edition::Oil, RUN, &outcomes(), &change(VALUES, text), &mut buffer);
            let stands = answer.is_ok();
            tried[usize::from(stands)] += 1;
            assert_eq!(change(VALUES, text).misformed().is_none(), stands, "{given:?} {text:?}");
            if !stands {
                let refusal = answer.unwrap_err();
                assert_eq!((refusal, refusal.code()), (Refusal::ValuesWrong { given: Some(given) }, 41));
                assert_eq!(refusal.to_string(), given.to_string());
            }
        }
    }
    assert!(tried[0] > 2_000 && tried[1] > 2_000, "{tried:?}");
}

#[test]
fn messages_that_cant_be_read() {
    let at = |message: &str, name: &str, cause| Refusal::FieldBreaks { place: message.find(name).unwrap(), cause };
    let unreal = MESSAGE.replacen("2021-03-01<", "2021-02-30<", 1);
    let misfit = MESSAGE.replace("NON ACQUISITO", "ACQUISITO");
    let line = MESSAGE.replace("<data_mandato>", "<progressivo_beneficiario>1</progressivo_beneficiario><data_mandato>");
    let cases = [
        (" ".repeat(65_537), Refusal::FlowTooLong, "the message is longer than 65,536 bytes".to_string()),
        (MESSAGE[1..].to_string(), Refusal::MarkupBreaks, "the message's markup breaks".to_string()),
        (line, Refusal::StructureBreaks, "the message's structure breaks".to_string()),
        (
            unreal.clone(),
            at(&unreal, "<data_reversale", Cause::OutOfRange),
            format!(
                "data_reversale \"2021-02-30\" at byte {} breaks: right form but a value outside its range",
                unreal.find("<data_reversale").unwrap()
            ),
        ),
        (
            misfit.clone(),
            at(&misfit, "<esito_operazione", Cause::Misformed),
            format!("esito_operazione \"ACQUISITO\" at byte {} breaks: wrong form", misfit.find("<esito_operazione").unwrap()),
        ),
    ];
    for (message, refusal, words) in cases {
        let mut values = [7; MOST_VALUES_BYTES];
        assert_eq!(read_message(Edition::Oil, message.as_bytes(), &mut values), Err(refusal));
        assert_eq!(rewrite_message(Edition::Oil, message.as_bytes(), &mut values), Err(refusal));
        assert_eq!(refusal.of_message(message.as_bytes()).to_string(), words);
        assert_eq!(values, [7; MOST_VALUES_BYTES]);
    }
    let mut short = [7; 175];
    assert_eq!(read_message(Edition::Oil, MESSAGE.as_bytes(), &mut short), Err(Refusal::BufferTooShort));
    assert_eq!(short, [7; 175]);
    assert_eq!(Refusal::BufferTooShort.to_string(), "the buffer is shorter than the message or its values");
}
