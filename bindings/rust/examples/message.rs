//! The outcome message of document 01's run: takes the flow and prints the message, which is that of examples/messages/run.xml.
//!
//! In bindings/rust, after `./library`: `cargo run --example message`

use hondivole::{
    Edition, MOST_OUTCOME_BYTES, MOST_VALUES_BYTES, MOST_WRITTEN_BYTES, MessageValues, Refusal, Table, read_message, write_message,
};

fn main() -> Result<(), Refusal> {
    let flow = include_bytes!("../src/run.xml");
    let mut table = Table::open("01234", &[("000471", 4), ("471", 4)])?;
    let mut outcomes = [0; MOST_OUTCOME_BYTES];
    let taken = table.flow(Edition::Oil, flow, &mut outcomes)?;
    eprintln!("{} of {} orders accepted", taken.accepted(), taken.orders());

    let values = MessageValues {
        created: "2021-03-01T09:31:00+01:00",
        outcome: "2021-03-01T09:30:30+01:00",
        codice_ente: "UFABCD",
        descrizione_ente: "I.C. Giovanni Pascoli",
        codice_istat_ente: "",
        codice_fiscale_ente: "80012345678",
        codice_tramite_ente: "A2A-12345678",
        codice_tramite_bt: "A2A-87654321",
        identificativo_flusso_bt: "BT-238444",
    };
    let mut buffer = [0; MOST_WRITTEN_BYTES];
    let message = write_message(Edition::Oil, flow, &outcomes, &values, &mut buffer)?;
    print!("{message}");

    let mut shown = [0; MOST_VALUES_BYTES];
    for entry in read_message(Edition::Oil, message.as_bytes(), &mut shown)?.entries() {
        match entry.verdict {
            Ok(()) => eprintln!("{:?} {}: accepted", entry.kind, entry.number),
            Err(refusal) => eprintln!("{:?} {}: {refusal}", entry.kind, entry.number),
        }
    }
    Ok(())
}
