//! Engines that are wrong on purpose: the comparison must find each of them.
//!
//! The first five are document 01's "Errors we have seen made".

use reference::fields::{self, FlowOrder, Operation};
use reference::message::{self, Given};
use reference::table::{ENTRY, HEAD, SLOT, number_at};
use reference::{Body, Edition, LineState, Notice, Order, State, Table, markup, structure};

use crate::engine::{Engine, Reference};

/// What an engine does wrong.
#[derive(Clone, Copy, Debug, PartialEq, Eq)]
pub enum Fault {
    /// Codes are turned into integers: 000471 is 471.
    CodesAsIntegers,
    /// A changed order keeps old amounts in lines it no longer has.
    StaleAmounts,
    /// ANNULLO goes by number alone.
    AnnulloByNumber,
    /// "No slot" is answered because another body filled its own.
    SlotsOfAnother,
    /// A flow is half applied before a late field breaks.
    HalfApplied,
    /// Outcome bytes past the last order are cleared.
    OutcomesCleared,
    /// The place of a field is counted without the byte order mark.
    PlaceWithoutMark,
    /// A text that is too long is called misformed.
    LongCalledMisformed,
    /// The empty slot that an INSERIMENTO fills is counted among the steps.
    EmptySlotCounted,
    /// The last bytes of an entry aren't looked at.
    EntryRestIgnored,
    /// Annulled orders are no used slots.
    AnnulledNotUsed,
    /// A refused notice tells the line's cents.
    CentsOnRefusal,
    /// Line numbers are cut to a byte.
    LineCutToByte,
    /// A reversal takes nothing back from what the entry keeps.
    KeptNotTakenBack,
    /// A journal may list a line twice.
    JournalListsTwice,
    /// Kept totals are not looked at.
    KeptIgnored,
    /// A converted entry keeps zeros.
    ConvertedWithoutTotals,
    /// A message has its entries in the flow's order of kinds, mandati first.
    MandatiFirst,
    /// 40 is answered before 41.
    RoomBeforeValues,
    /// A message is begun before it is seen not to fit.
    WrittenBeforeRoom,
    /// A line's number in a message is passed over, so that a line's outcome is read as an order's.
    LinesPassedOver,
    /// What is written again is what was read.
    RewrittenAsRead,
    /// A line may be named twice in one SOSTITUZIONE.
    NamedTwice,
    /// The lines that a SOSTITUZIONE named before one that is refused stay replaced.
    MarksLeft,
    /// A SOSTITUZIONE that names its own key finds itself.
    OwnKeyFound,
    /// The searches for named lines are counted among the steps.
    NamedCounted,
    /// A replacement's new lines count as cash moved, and the replaced ones are not taken back.
    CashMoved,
    /// A replaced line can be reversed.
    ReplacedReversed,
    /// A journal may list a replaced line.
    ReplacedListed,
    /// Of two records of one key a repair keeps the later.
    LaterCopyKept,
    /// A repair reports slots of zeros among the blanked.
    ZerosReported,
    /// A repair leaves what the entries keep.
    TotalsLeft,
    /// A repair counts the kept records as moved.
    KeptCalledMoved,
    /// A report that doesn't fit is begun.
    ReportBegun,
    /// A flow of a closed year without room for its outcomes is answered 8.
    RoomBeforeYear,
    /// A flow of a year before the last closed one is let in.
    EarlierYearTaken,
    /// A close leaves the year's annulled orders.
    AnnulledLeft,
    /// A waiting line of a later year blocks a close.
    OtherYearBlocks,
    /// An annulled order's waiting line blocks a close.
    AnnulledBlocks,
    /// 39 is answered before 38.
    WaitingBeforeEarlier,
    /// A close leaves the totals that the entry keeps.
    TotalsNotSettled,
    /// A close leaves the year that the entry holds.
    YearNotHeld,
    /// What moves up at a close stays in the slot that it left too.
    OldSlotsLeft,
    /// A repair keeps records of closed years.
    ClosedKept,
}

/// All of them.
pub const FAULTS: [Fault; 44] = [
    Fault::CodesAsIntegers,
    Fault::StaleAmounts,
    Fault::AnnulloByNumber,
    Fault::SlotsOfAnother,
    Fault::HalfApplied,
    Fault::OutcomesCleared,
    Fault::PlaceWithoutMark,
    Fault::LongCalledMisformed,
    Fault::EmptySlotCounted,
    Fault::EntryRestIgnored,
    Fault::AnnulledNotUsed,
    Fault::CentsOnRefusal,
    Fault::LineCutToByte,
    Fault::KeptNotTakenBack,
    Fault::JournalListsTwice,
    Fault::KeptIgnored,
    Fault::ConvertedWithoutTotals,
    Fault::MandatiFirst,
    Fault::RoomBeforeValues,
    Fault::WrittenBeforeRoom,
    Fault::LinesPassedOver,
    Fault::RewrittenAsRead,
    Fault::NamedTwice,
    Fault::MarksLeft,
    Fault::OwnKeyFound,
    Fault::NamedCounted,
    Fault::CashMoved,
    Fault::ReplacedReversed,
    Fault::ReplacedListed,
    Fault::LaterCopyKept,
    Fault::ZerosReported,
    Fault::TotalsLeft,
    Fault::KeptCalledMoved,
    Fault::ReportBegun,
    Fault::RoomBeforeYear,
    Fault::EarlierYearTaken,
    Fault::AnnulledLeft,
    Fault::OtherYearBlocks,
    Fault::AnnulledBlocks,
    Fault::WaitingBeforeEarlier,
    Fault::TotalsNotSettled,
    Fault::YearNotHeld,
    Fault::OldSlotsLeft,
    Fault::ClosedKept,
];

/// The reference with one fault.
pub struct Wrong(pub Fault);

impl Wrong {
    /// The code under which the wrong engine looks for this body.
    fn code(&self, table: &[u8], code: &[u8]) -> Vec<u8> {
        if self.0 == Fault::CodesAsIntegers
            && let (Some(table), Some(value)) = (Table::decode(table), integer(code))
            && let Some(body) = table.bodies.iter().find(|body| integer(&body.code) == Some(value))
        {
            return body.code.clone();
        }
        code.to_vec()
    }

    fn notice(&self, notice: &Notice) -> Notice {
        match self.0 {
            Fault::LineCutToByte => Notice { line: notice.line & 0xFF, ..*notice },
            _ => *notice,
        }
    }

    fn cents(&self, table: &[u8], body: &[u8], notice: &Notice, code: u64, cents: &mut u64) {
        if self.0 == Fault::CentsOnRefusal && matches!(code, 21 | 22) {
            let mut copy = table.to_vec();
            let other_way = if code == 21 { reference::reverse } else { reference::execute };
            *cents = other_way(&mut copy, body, notice).cents;
        }
    }

    /// The table as the wrong engine reads it.
    fn mended(&self, table: &[u8]) -> Vec<u8> {
        let mut mended = table.to_vec();
        if self.0 == Fault::EntryRestIgnored && table.len() > HEAD {
            for entry in mended[HEAD..].chunks_mut(ENTRY).take(number_at(table, 0, 2) as usize) {
                if let Some(rest) = entry.get_mut(42..) {
                    rest.fill(0);
                }
            }
        }
        if self.0 == Fault::KeptIgnored
            && let Some(table) = settled(table)
        {
            mended = table;
        }
        mended
    }

    /// The flow as the wrong engine reads it.
    fn renamed(&self, table: &[u8], flow: &[u8]) -> Option<Vec<u8>> {
        const TAG: &[u8] = b"<codice_ente_BT>";
        let from = flow.windows(TAG.len()).position(|window| window == TAG)? + TAG.len();
        let to = from + flow[from..].iter().position(|&byte| byte == b'<')?;
        Some([&flow[..from], &self.code(table, &flow[from..to]), &flow[to..]].concat())
    }
}

/// The table with the totals that its records have, where it is valid but for these.
fn settled(table: &[u8]) -> Option<Vec<u8>> {
    let mut contents = Table::contents(table)?;
    for (body, places) in contents.bodies.iter_mut().zip(slots_of(table)) {
        body.orders.extend(places.iter().map_while(|&at| Order::alone(&table[at..at + SLOT])));
    }
    let settled = contents.encode();
    // What isn't a record's byte or a kept total has to be as it was.
    let mut kept = settled.clone();
    for (entry, old) in kept[HEAD..].chunks_mut(ENTRY).zip(table[HEAD..].chunks(ENTRY)).take(contents.bodies.len()) {
        entry[24..40].copy_from_slice(&old[24..40]);
    }
    (kept == table && contents.stands()).then_some(settled)
}

/// A flow that has fields which stand, as they are.
fn read(edition: u64, flow: &[u8]) -> fields::Flow {
    let edition = Edition::numbered(edition).expect("the flow was read");
    let root = markup::read(flow, edition == Edition::Opi).expect("the flow was read");
    fields::read(&structure::read(&root, edition).expect("the flow was read"), edition).expect("the flow was read")
}

/// The replacement orders of a flow that was taken, each with its place among the orders, the body's code and the year.
fn replacements(edition: u64, flow: &[u8]) -> (Vec<(usize, FlowOrder)>, Vec<u8>, u16) {
    let read = read(edition, flow);
    let orders = read.orders.into_iter().enumerate().filter(|(_, order)| order.operation == Operation::Sostituzione);
    (orders.collect(), read.body, read.esercizio)
}

/// The place of a body's closed year in the table.
fn year_of(table: &[u8], body: &[u8]) -> Option<std::ops::Range<usize>> {
    let at = Table::contents(table)?.bodies.iter().position(|known| known.code == body)?;
    let at = HEAD + ENTRY * at + 40;
    Some(at..at + 2)
}

/// Replaces the executed lines of equal amount that an order names, up to the first that isn't.
fn mark(body: &mut Body, order: &FlowOrder) {
    for line in &order.lines {
        let named = line.named.expect("a replacement's line names one");
        let record = body.orders.iter_mut().find(|record| record.key() == (order.kind, named.esercizio, named.number));
        let found = record.and_then(|record| record.lines.get_mut(usize::from(named.line).wrapping_sub(1)));
        match found {
            Some(found) if found.state == LineState::Executed && found.amount == line.amount => found.state = LineState::Replaced,
            _ => return,
        }
    }
}

/// The places of a table's slots, body after body, as its entries count them.
fn slots_of(table: &[u8]) -> Vec<Vec<usize>> {
    let Some(contents) = Table::contents(table) else { return Vec::new() };
    let mut place = HEAD + ENTRY * contents.bodies.len();
    let bodies = contents.bodies.iter().map(|body| {
        let slots = (0..body.slots).map(|slot| place + SLOT * slot).collect();
        place += SLOT * body.slots;
        slots
    });
    bodies.collect()
}

fn integer(code: &[u8]) -> Option<u64> {
    std::str::from_utf8(code).ok()?.parse().ok()
}

impl Engine for Wrong {
    fn name(&self) -> String {
        format!("the wrong engine ({:?})", self.0)
    }

    fn open(&self, request: &[u8], table: &mut [u8]) -> u64 {
        Reference.open(request, table)
    }

    fn convert(&self, old: &[u8], table: &mut [u8]) -> u64 {
        let code = Reference.convert(old, table);
        if self.0 == Fault::ConvertedWithoutTotals && code == 0 {
            let bodies = number_at(table, 0, 2) as usize;
            table[HEAD..].chunks_mut(ENTRY).take(bodies).for_each(|entry| entry[24..40].fill(0));
        }
        code
    }

    fn flow(
        &self,
        table: &mut [u8],
        edition: u64,
        flow: &[u8],
        outcomes: &mut [u8],
        place: &mut u64,
        orders: &mut u64,
        accepted: &mut u64,
        cause: &mut u64,
        steps: &mut u64,
    ) -> u64 {
        let before = table.to_vec();
        let mut scratch = self.mended(table);
        let code = Reference.flow(&mut scratch, edition, flow, outcomes, place, orders, accepted, cause, steps);
        if code == 0 {
            table.copy_from_slice(&scratch);
        }
        match self.0 {
            Fault::CodesAsIntegers if matches!(code, 0 | 7) => {
                table.copy_from_slice(&before);
                let renamed = self.renamed(table, flow).unwrap_or_default();
                return Reference.flow(table, edition, &renamed, outcomes, place, orders, accepted, cause, steps);
            }
            Fault::StaleAmounts if code == 0 => {
                let slots = HEAD + ENTRY * number_at(table, 0, 2) as usize;
                let pairs = table[slots..].chunks_mut(SLOT).zip(before[slots..].chunks(SLOT));
                for (slot, old) in pairs {
                    for line in usize::from(slot[2])..usize::from(old[2]) {
                        let amount = 32 + 8 * line..40 + 8 * line;
                        slot[amount.clone()].copy_from_slice(&old[amount]);
                    }
                }
            }
            Fault::AnnulloByNumber if code == 0 => {
                let Some(mut changed) = Table::decode(table) else {
                    return code;
                };
                for outcome in outcomes.chunks_mut(16).take(*orders as usize).filter(|outcome| outcome[2] == 19) {
                    let number = number_at(outcome, 4, 4) as u32;
                    let mut records = changed.bodies.iter_mut().flat_map(|body| &mut body.orders);
                    let found = records.find(|record| record.number == number && record.waits());
                    if let Some(record) = found {
                        record.state = State::Annulled;
                        outcome[2] = 0;
                        *accepted += 1;
                    }
                }
                table.copy_from_slice(&changed.encode());
            }
            Fault::SlotsOfAnother if code == 0 && *orders == 1 && *accepted == 1 && outcomes[1] == 1 => {
                let full =
                    Table::decode(&before).is_some_and(|table| table.bodies.iter().any(|body| body.orders.len() == body.slots));
                if full {
                    table.copy_from_slice(&before);
                    outcomes[2] = 15;
                    *accepted = 0;
                }
            }
            Fault::HalfApplied if code == 5 => {
                let good = &flow[..*place as usize];
                let ends = [&b"</mandato>"[..], b"</reversale>"].map(|tag| {
                    let at = good.windows(tag.len()).rposition(|window| window == tag);
                    at.map_or(0, |at| at + tag.len())
                });
                let cut = [&good[..ends[0].max(ends[1])], b"</flusso_ordinativi>"].concat();
                reference::flow(table, edition, &cut, &mut [0; 1024]);
            }
            Fault::LongCalledMisformed if *cause == 2 => *cause = 3,
            Fault::EmptySlotCounted if code == 0 => {
                *steps += outcomes.chunks(16).take(*orders as usize).filter(|outcome| outcome[1..3] == [1, 0]).count() as u64
            }
            Fault::NamedTwice if code == 0 => {
                for (index, order) in replacements(edition, flow).0 {
                    let twice =
                        (1..order.lines.len()).any(|at| order.lines[..at].iter().any(|line| line.named == order.lines[at].named));
                    if outcomes[16 * index + 2] == 25 && twice {
                        outcomes[16 * index + 2] = 0;
                        *accepted += 1;
                    }
                }
            }
            Fault::MarksLeft if code == 0 => {
                let (orders, body, _) = replacements(edition, flow);
                let mut changed = Table::decode(table).expect("the flow left a valid table");
                for (index, order) in orders {
                    if matches!(outcomes[16 * index + 2], 24..=26) {
                        mark(changed.body_mut(&body).expect("the flow's body"), &order);
                    }
                }
                table.copy_from_slice(&changed.encode());
            }
            Fault::OwnKeyFound if code == 0 => {
                let (orders, _, esercizio) = replacements(edition, flow);
                for (index, order) in orders {
                    let own = |line: &fields::FlowLine| {
                        line.named.is_some_and(|named| (named.number, named.esercizio) == (order.number, esercizio))
                    };
                    if outcomes[16 * index + 2] == 24 && order.lines.iter().any(own) {
                        outcomes[16 * index + 2] = 25;
                    }
                }
            }
            Fault::NamedCounted if code == 0 => {
                let accepted = |index: usize| outcomes[16 * index + 2] == 0;
                let orders = replacements(edition, flow).0;
                *steps +=
                    orders.iter().filter(|(index, _)| accepted(*index)).map(|(_, order)| order.lines.len() as u64).sum::<u64>();
            }
            Fault::CashMoved if code == 0 => {
                let (orders, body, _) = replacements(edition, flow);
                let bodies = Table::contents(table).expect("the flow left a valid table").bodies;
                let entry = HEAD + ENTRY * bodies.iter().position(|known| known.code == body).expect("the flow's body");
                for (index, order) in orders {
                    if outcomes[16 * index + 2] == 0 {
                        let at = entry + 16 + 8 * order.kind as usize;
                        let cents = number_at(table, at, 8) + order.total;
                        table[at..at + 8].copy_from_slice(&cents.to_be_bytes());
                    }
                }
            }
            Fault::RoomBeforeYear if code == 36 && outcomes.len() < 16 * read(edition, flow).orders.len() => return 8,
            Fault::EarlierYearTaken if code == 36 => {
                let read = read(edition, flow);
                let year = year_of(table, &read.body).expect("36 is of a body that is there");
                if u64::from(read.esercizio) < number_at(table, year.start, 2) {
                    table[year.clone()].fill(0);
                    let code = Reference.flow(table, edition, flow, outcomes, place, orders, accepted, cause, steps);
                    table[year.clone()].copy_from_slice(&before[year]);
                    return code;
                }
            }
            Fault::OutcomesCleared if code == 0 => outcomes[16 * *orders as usize..].fill(0),
            Fault::PlaceWithoutMark if code == 5 && markup::read(flow, true).is_some() && flow.starts_with(b"\xEF\xBB\xBF") => {
                *place -= 3
            }
            _ => {}
        }
        code
    }

    fn execute(&self, table: &mut [u8], body: &[u8], notice: &Notice, cents: &mut u64) -> u64 {
        let code = Reference.execute(table, &self.code(table, body), &self.notice(notice), cents);
        self.cents(table, body, notice, code, cents);
        code
    }

    fn reverse(&self, table: &mut [u8], body: &[u8], notice: &Notice, cents: &mut u64) -> u64 {
        let before = table.to_vec();
        let code = Reference.reverse(table, &self.code(table, body), &self.notice(notice), cents);
        self.cents(table, body, notice, code, cents);
        if self.0 == Fault::ReplacedReversed
            && code == 22
            && let Some(mut changed) = Table::decode(table)
            && let Some(body) = changed.body_mut(body)
        {
            let key = |order: &Order| (order.kind as u64, u64::from(order.esercizio), u64::from(order.number));
            let named = (notice.kind, notice.esercizio, notice.number);
            let order = body.orders.iter_mut().find(|order| key(order) == named).expect("22 is of an order that is there");
            let line = &mut order.lines[notice.line as usize - 1];
            if line.state == LineState::Replaced {
                line.state = LineState::Waiting;
                *cents = line.amount;
                table.copy_from_slice(&changed.encode());
                return 0;
            }
        }
        if self.0 == Fault::KeptNotTakenBack && code == 0 {
            let slots = HEAD + ENTRY * number_at(table, 0, 2) as usize;
            table[..slots].copy_from_slice(&before[..slots]);
        }
        code
    }

    fn totals(&self, table: &[u8], body: &[u8], used: &mut u64, paid: &mut u64, collected: &mut u64, balance: &mut i64) -> u64 {
        let code = Reference.totals(&self.mended(table), &self.code(table, body), used, paid, collected, balance);
        if self.0 == Fault::AnnulledNotUsed
            && let Some(table) = Table::decode(table)
            && let Some(body) = table.body(body)
        {
            *used = body.orders.iter().filter(|order| order.state == State::Acquired).count() as u64;
        }
        code
    }

    fn message_write(
        &self,
        edition: u64,
        flow: &[u8],
        outcomes: &[u8],
        given: &Given,
        message: &mut [u8],
        length: &mut u64,
    ) -> u64 {
        let code = Reference.message_write(edition, flow, outcomes, given, message, length);
        match (self.0, message::message_of(edition, flow, outcomes, given)) {
            (Fault::MandatiFirst, Ok(mut values)) if code == 0 => {
                values.entries.sort_by_key(|entry| entry.kind as u8);
                message[..*length as usize].copy_from_slice(&message::bytes(&values));
            }
            (Fault::WrittenBeforeRoom, Ok(values)) if code == 40 => {
                message.copy_from_slice(&message::bytes(&values)[..message.len()]);
            }
            (Fault::RoomBeforeValues, _) if code == 41 && message.len() < 1_000 => return 40,
            _ => {}
        }
        code
    }

    fn message_read(
        &self,
        edition: u64,
        bytes: &[u8],
        values: &mut [u8],
        entries: &mut u64,
        place: &mut u64,
        cause: &mut u64,
    ) -> u64 {
        let code = Reference.message_read(edition, bytes, values, entries, place, cause);
        if self.0 == Fault::LinesPassedOver && code == 4 {
            let mut text = String::from_utf8_lossy(bytes).into_owned();
            for party in ["versante", "beneficiario"] {
                text = text.replace(&format!("<progressivo_{party}>"), "<y>").replace(&format!("</progressivo_{party}>"), "</y>");
            }
            return Reference.message_read(edition, text.as_bytes(), values, entries, place, cause);
        }
        code
    }

    fn message_rewrite(&self, edition: u64, bytes: &[u8], again: &mut [u8], length: &mut u64) -> u64 {
        let code = Reference.message_rewrite(edition, bytes, again, length);
        if self.0 == Fault::RewrittenAsRead && code == 0 && again.len() >= bytes.len() {
            again[..bytes.len()].copy_from_slice(bytes);
            *length = bytes.len() as u64;
        }
        code
    }

    fn journal(&self, table: &[u8], body: &[u8], movements: &[u8]) -> u64 {
        let code = Reference.journal(&self.mended(table), &self.code(table, body), movements);
        if self.0 == Fault::ReplacedListed
            && code == 30
            && let Some(mut changed) = Table::decode(table)
        {
            crate::tables::without_replaced(&mut changed);
            return Reference.journal(&changed.encode(), body, movements);
        }
        if self.0 == Fault::JournalListsTwice && code == 32 { 0 } else { code }
    }

    fn close(&self, table: &mut [u8], body: &[u8], year: u64, removed: &mut u64) -> u64 {
        let before = table.to_vec();
        let code = Reference.close(table, &self.code(table, body), year, removed);
        let Some(known) = Table::decode(&before).and_then(|table| table.body(body).cloned()) else {
            return code;
        };
        let waits = |order: &&Order| order.lines.iter().any(|line| line.state == LineState::Waiting);
        let of_year = |order: &&Order| u64::from(order.esercizio) == year;
        let (annulled, acquired): (Vec<&Order>, Vec<&Order>) =
            known.orders.iter().partition(|order| order.state == State::Annulled);
        let place = year_of(&before, body).expect("the body is there");
        let refuse = |table: &mut [u8], removed: &mut u64, code: u64| {
            table.copy_from_slice(&before);
            *removed = 0;
            code
        };
        match self.0 {
            Fault::AnnulledLeft if code == 0 => {
                let mut changed = Table::decode(table).expect("a close leaves a valid table");
                let left: Vec<_> = annulled.into_iter().filter(of_year).cloned().collect();
                *removed -= left.len() as u64;
                changed.body_mut(body).expect("the body is there").orders.extend(left);
                table.copy_from_slice(&changed.encode());
            }
            Fault::OtherYearBlocks if code == 0 && acquired.iter().any(waits) => return refuse(table, removed, 39),
            Fault::AnnulledBlocks if code == 0 && annulled.iter().any(of_year) => return refuse(table, removed, 39),
            Fault::WaitingBeforeEarlier if code == 38 && acquired.into_iter().filter(of_year).any(|order| waits(&order)) => {
                return 39;
            }
            Fault::TotalsNotSettled if code == 0 => {
                let kept = place.start - 16..place.start;
                table[kept.clone()].copy_from_slice(&before[kept]);
            }
            Fault::YearNotHeld if code == 0 => table[place.clone()].copy_from_slice(&before[place]),
            Fault::OldSlotsLeft if code == 0 => {
                let freed = slots_of(&before).into_iter().flatten().filter(|&at| table[at] == 0 && before[at] != 0);
                for at in freed.collect::<Vec<_>>() {
                    table[at..at + SLOT].copy_from_slice(&before[at..at + SLOT]);
                }
            }
            _ => {}
        }
        code
    }

    fn salvage(&self, table: &mut [u8], report: &mut [u8], blanked: &mut u64) -> u64 {
        let before = table.to_vec();
        if self.0 == Fault::ClosedKept
            && let Some(contents) = Table::contents(table)
        {
            let years = (0..contents.bodies.len()).map(|body| HEAD + ENTRY * body + 40);
            years.clone().for_each(|at| table[at..at + 2].fill(0));
            let code = Reference.salvage(table, report, blanked);
            years.for_each(|at| table[at..at + 2].copy_from_slice(&before[at..at + 2]));
            return code;
        }
        let slots = slots_of(table);
        if self.0 == Fault::LaterCopyKept {
            let key = |table: &[u8], at: usize| Order::alone(&table[at..at + SLOT]).map(|order| order.key());
            for places in &slots {
                for (index, &first) in places.iter().enumerate() {
                    let again = places[index + 1..].iter().rev().find(|&&again| key(table, first) == key(table, again));
                    if let (Some(_), Some(&again)) = (key(table, first), again) {
                        (0..SLOT).for_each(|at| table.swap(first + at, again + at));
                    }
                }
            }
        }
        let code = Reference.salvage(table, report, blanked);
        match self.0 {
            Fault::LaterCopyKept if code != 0 => table.copy_from_slice(&before),
            Fault::ZerosReported if code == 0 => {
                let zeros = |at: &&usize| before[**at..**at + SLOT].iter().all(|&byte| byte == 0);
                *blanked += slots.iter().flatten().filter(zeros).count() as u64;
            }
            Fault::TotalsLeft if code == 0 => {
                let pairs = table[HEAD..].chunks_mut(ENTRY).zip(before[HEAD..].chunks(ENTRY)).take(slots.len());
                pairs.for_each(|(entry, old)| entry[24..40].copy_from_slice(&old[24..40]));
            }
            Fault::KeptCalledMoved if code == 0 => {
                for (body, places) in slots.iter().enumerate() {
                    let kept = places.iter().filter(|&&at| table[at] != 0).count() as u16;
                    report[2 * body..2 * body + 2].copy_from_slice(&kept.to_be_bytes());
                }
            }
            Fault::ReportBegun if code == 35 && report.len() > 1 => report[..2].fill(0),
            _ => {}
        }
        code
    }
}
