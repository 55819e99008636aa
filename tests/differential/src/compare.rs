//! Two engines on one case: every answer, every outcome byte, every table byte, and every byte around the buffers.

use reference::message::{GIVEN, Given, ReadAnswer, WriteAnswer};
use reference::{CloseAnswer, FlowAnswer, NoticeAnswer, SalvageAnswer, Totals};

use crate::case::{Answer, Call, Case};
use crate::engine::Engine;
use crate::pen::{Pen, Place};
use crate::told::Told;

/// What differs, in a sentence.
#[derive(Clone, Debug, PartialEq, Eq)]
pub struct Difference {
    /// The call, counted from 0.
    pub call: usize,
    /// What differs there.
    pub what: String,
}

/// Where the buffers of a call lie.
#[derive(Clone, Copy, Debug, PartialEq, Eq)]
pub enum Lend {
    /// Two calls at the end of the pens, two at the beginning: so both engines of a comparison come to both.
    Turns,
    /// Always in this place.
    Always(Place),
}

/// Guarded memory for the buffers and results of a call.
pub struct Yard {
    lend: Lend,
    calls: usize,
    table: Pen,
    input: Pen,
    outcomes: Pen,
    message: Pen,
    values: [Pen; 9],
    written: Pen,
    results: [Pen; 5],
    told: Option<Told>,
}

impl Default for Yard {
    fn default() -> Yard {
        Yard::new(Lend::Turns)
    }
}

/// What a result holds before a call.
const CANARY: u64 = 0xC0DE_C0DE_5A5A_A5A5;

/// What an engine made of a call, besides the table.
#[derive(Clone, Debug, PartialEq, Eq)]
pub struct Served {
    /// The answer.
    pub answer: Answer,
    /// The outcome buffer after a flow; empty for other calls.
    pub outcomes: Vec<u8>,
    /// The lent buffer after a call on a message or a repair: the message, the values or the report; empty for other calls.
    pub written: Vec<u8>,
}

fn input_of(call: &Call) -> &[u8] {
    match call {
        Call::Open { request, .. } => request,
        Call::Convert { old, .. } => old,
        Call::Flow { flow, .. } | Call::Write { flow, .. } => flow,
        Call::Execute { body, .. } | Call::Reverse { body, .. } | Call::Totals { body } | Call::Close { body, .. } => body,
        Call::Read { message, .. } | Call::Rewrite { message, .. } => message,
        Call::Journal { movements, .. } => movements,
        Call::Salvage { .. } => &[],
    }
}

fn is_read(call: &Call) -> bool {
    matches!(call, Call::Read { .. } | Call::Rewrite { .. })
}

impl Yard {
    /// A yard that lends in this way.
    pub fn new(lend: Lend) -> Yard {
        Yard {
            lend,
            calls: 0,
            table: Pen::new(65_792),
            input: Pen::new(65_568),
            outcomes: Pen::new(1_024),
            message: Pen::new(65_537),
            values: std::array::from_fn(|_| Pen::new(141)),
            written: Pen::new(40_000),
            results: std::array::from_fn(|_| Pen::new(8)),
            told: None,
        }
    }

    /// Has what the tried engine makes of messages written down.
    pub fn tell(&mut self, told: Told) {
        self.told = Some(told);
    }

    /// Makes one call on an engine with guards around each buffer and result. `Err` says which byte outside them was written.
    pub fn serve(&mut self, engine: &dyn Engine, table: &mut Vec<u8>, call: &Call) -> Result<Served, String> {
        if let Call::Open { room, .. } | Call::Convert { room, .. } = call {
            *table = noise(*room);
        }
        if let Call::Salvage { damaged, .. } = call {
            table.clone_from(damaged);
        }
        self.put(table, call);
        let answer = self.call(engine, call);
        table.copy_from_slice(self.table.bytes());
        if let Some((buffer, place)) = self.stray(call) {
            let what = format!("a byte at place {place} of the {buffer} was written, outside it");
            *self = Yard::new(self.lend);
            return Err(what);
        }
        if self.input(call).bytes() != input_of(call) {
            return Err("the input was written".into());
        }
        let mut outcomes = self.outcomes.bytes().to_vec();
        if let Call::Write { outcomes: given, values, .. } = call {
            if outcomes != *given {
                return Err("the outcome bytes were written".into());
            }
            if let Some(place) = self.values.iter().zip(values).position(|(pen, value)| pen.bytes() != value) {
                return Err(format!("the caller's {} was written", GIVEN[place]));
            }
            outcomes.clear();
        }
        Ok(Served { answer, outcomes, written: self.written.bytes().to_vec() })
    }

    /// Where the call's input lies: messages are longer than what other calls take, and have a pen of their own.
    fn input(&self, call: &Call) -> &Pen {
        if is_read(call) { &self.message } else { &self.input }
    }

    /// Puts what a call is lent into the pens.
    fn put(&mut self, table: &[u8], call: &Call) {
        let place = match self.lend {
            Lend::Turns if self.calls % 4 < 2 => Place::End,
            Lend::Turns => Place::Beginning,
            Lend::Always(place) => place,
        };
        self.calls += 1;
        self.table.put(table, place);
        if is_read(call) {
            self.message.put(input_of(call), place);
        } else {
            self.input.put(input_of(call), place);
        }
        let (outcomes, written) = match call {
            Call::Flow { room, .. } => (noise(*room), 0),
            Call::Write { outcomes, room, .. } => (outcomes.clone(), *room),
            Call::Read { room, .. } | Call::Rewrite { room, .. } | Call::Salvage { room, .. } => (Vec::new(), *room),
            _ => (Vec::new(), 0),
        };
        self.outcomes.put(&outcomes, place);
        self.written.put(&noise(written), place);
        if let Call::Write { values, .. } = call {
            self.values.iter_mut().zip(values).for_each(|(pen, value)| pen.put(value, place));
        }
        self.results.iter_mut().for_each(|result| result.put_number(CANARY, place));
    }

    /// Makes the call on what the pens hold.
    fn call(&mut self, engine: &dyn Engine, call: &Call) -> Answer {
        let [first, second, third, fourth, fifth] = &mut self.results;
        let lent = self.table.bytes_mut();
        let given = if is_read(call) { self.message.bytes() } else { self.input.bytes() };
        match call {
            Call::Open { .. } => Answer::Open(engine.open(given, lent)),
            Call::Convert { .. } => Answer::Convert(engine.convert(given, lent)),
            Call::Flow { edition, .. } => {
                let outcomes = self.outcomes.bytes_mut();
                let (place, orders, accepted) = (first.number_mut(), second.number_mut(), third.number_mut());
                let (cause, steps) = (fourth.number_mut(), fifth.number_mut());
                let code = engine.flow(lent, *edition, given, outcomes, place, orders, accepted, cause, steps);
                let (place, orders, accepted) = (first.number(), second.number(), third.number());
                Answer::Flow(FlowAnswer { code, place, orders, accepted, cause: fourth.number(), steps: fifth.number() })
            }
            Call::Execute { notice, .. } => {
                let code = engine.execute(lent, given, notice, first.number_mut());
                Answer::Notice(NoticeAnswer { code, cents: first.number() })
            }
            Call::Reverse { notice, .. } => {
                let code = engine.reverse(lent, given, notice, first.number_mut());
                Answer::Notice(NoticeAnswer { code, cents: first.number() })
            }
            Call::Totals { .. } => {
                let (used, paid, collected) = (first.number_mut(), second.number_mut(), third.number_mut());
                let code = engine.totals(lent, given, used, paid, collected, fourth.signed_mut());
                let (used, paid, collected) = (first.number(), second.number(), third.number());
                Answer::Totals(Totals { code, used, paid, collected, balance: fourth.number() as i64 })
            }
            Call::Write { edition, .. } => {
                let values: Given = std::array::from_fn(|place| self.values[place].bytes());
                let (outcomes, written) = (self.outcomes.bytes(), self.written.bytes_mut());
                let code = engine.message_write(*edition, given, outcomes, &values, written, first.number_mut());
                Answer::Write(WriteAnswer { code, length: first.number() })
            }
            Call::Read { edition, .. } => {
                let (entries, place, cause) = (first.number_mut(), second.number_mut(), third.number_mut());
                let code = engine.message_read(*edition, given, self.written.bytes_mut(), entries, place, cause);
                let (entries, place, cause) = (first.number(), second.number(), third.number());
                Answer::Read(ReadAnswer { code, entries, place, cause })
            }
            Call::Rewrite { edition, .. } => {
                let code = engine.message_rewrite(*edition, given, self.written.bytes_mut(), first.number_mut());
                Answer::Write(WriteAnswer { code, length: first.number() })
            }
            Call::Journal { body, .. } => Answer::Journal(engine.journal(lent, body, given)),
            Call::Salvage { .. } => {
                let code = engine.salvage(lent, self.written.bytes_mut(), first.number_mut());
                Answer::Salvage(SalvageAnswer { code, blanked: first.number() })
            }
            Call::Close { year, .. } => {
                let code = engine.close(lent, given, *year, first.number_mut());
                Answer::Close(CloseAnswer { code, removed: first.number() })
            }
        }
    }

    /// The first byte that was written outside what was lent: beside which buffer, and how far from its beginning.
    fn stray(&self, call: &Call) -> Option<(&'static str, isize)> {
        let [first, second, third, fourth, fifth] = &self.results;
        // Only a repair and calls on messages have a buffer to write, and messages have no table.
        let on_message = is_read(call) || matches!(call, Call::Write { .. });
        let (table, written) = (("table", &self.table), ("written buffer", &self.written));
        let pens = [
            if on_message { written } else { table },
            if matches!(call, Call::Salvage { .. }) { written } else { ("input", self.input(call)) },
            ("outcome buffer", &self.outcomes),
            ("first result", first),
            ("second result", second),
            ("third result", third),
            ("fourth result", fourth),
            ("fifth result", fifth),
        ];
        let values = GIVEN.into_iter().zip(&self.values).filter(|_| matches!(call, Call::Write { .. }));
        pens.into_iter().chain(values).find_map(|(buffer, pen)| Some((buffer, pen.stray()?)))
    }

    /// Makes the case's calls on both engines; the first difference. A call on bytes that are no table, or that answers anything at all,
    /// is compared like any other.
    pub fn compare(&mut self, expected: &dyn Engine, tried: &dyn Engine, case: &Case) -> Option<Difference> {
        let mut right = case.table.clone();
        let mut left = case.table.clone();
        for (index, call) in case.calls.iter().enumerate() {
            let difference = |what| Some(Difference { call: index, what });
            let wanted = match self.serve(expected, &mut right, call) {
                Ok(served) => served,
                Err(stray) => return difference(format!("{}: {stray}", expected.name())),
            };
            let got = match self.serve(tried, &mut left, call) {
                Ok(served) => served,
                Err(stray) => return difference(format!("{}: {stray}", tried.name())),
            };
            if wanted.answer != got.answer {
                return difference(format!(
                    "{} answers {:?}, {} answers {:?}",
                    expected.name(),
                    wanted.answer,
                    tried.name(),
                    got.answer
                ));
            }
            if let Some(what) = different_byte("outcome", &wanted.outcomes, &got.outcomes, expected, tried) {
                return difference(what);
            }
            if let Some(what) = different_byte("written", &wanted.written, &got.written, expected, tried) {
                return difference(what);
            }
            if let Some(what) = different_byte("table", &right, &left, expected, tried) {
                return difference(what);
            }
            if let Some(told) = &mut self.told {
                told.tell(tried, call, &got);
            }
        }
        None
    }
}

fn different_byte(buffer: &str, right: &[u8], left: &[u8], expected: &dyn Engine, tried: &dyn Engine) -> Option<String> {
    if right == left {
        return None;
    }
    let place = right.iter().zip(left).position(|(right, left)| right != left)?;
    Some(format!("{buffer} byte {place} is {} after {}, {} after {}", right[place], expected.name(), left[place], tried.name()))
}

/// What a lent buffer holds before the call: never the same byte twice in a row, never only zeros.
pub fn noise(length: usize) -> Vec<u8> {
    (0..length).map(|place| (place as u8).wrapping_mul(37) ^ 0xA5).collect()
}
