//! The comparison tried on itself: the reference differs from itself nowhere, and every engine that is wrong on purpose is found and
//! its case made short. With the feature `native` the library is compared too.

use std::time::Duration;

use differential::cases::{self, Theme};
use differential::random::Random;
use differential::wrong::{FAULTS, Fault, Wrong};
use differential::{Call, Case, Engine, Reference, Yard, shrink, sweep};

const THEMES: [Theme; 11] = [
    Theme::WholeFlow,
    Theme::DamagedFlow,
    Theme::DamagedTable,
    Theme::Notices,
    Theme::Opening,
    Theme::Conversion,
    Theme::Salvage,
    Theme::Closing,
    Theme::Sequence,
    Theme::Messages,
    Theme::Fuzz,
];

fn cases_of(theme: Theme, count: u64) -> impl Iterator<Item = Case> {
    (0..count).map(move |index| cases::case(&mut Random::of_case(7, index), theme))
}

fn no_difference(engine: &dyn Engine) {
    let mut yard = Yard::default();
    for theme in THEMES {
        for case in cases_of(theme, 40) {
            assert_eq!(yard.compare(&Reference, engine, &case), None, "{case:?}");
        }
    }
    for case in sweep::cases().step_by(397) {
        assert_eq!(yard.compare(&Reference, engine, &case), None, "{case:?}");
    }
    for case in cases_of(Theme::Sequence, 20) {
        assert_eq!(yard.isolated(engine, &case), None, "{case:?}");
    }
}

#[test]
fn the_reference_differs_from_itself_nowhere() {
    no_difference(&Reference);
}

#[cfg(feature = "native")]
#[test]
fn the_library_differs_nowhere() {
    no_difference(&differential::engine::Library);
}

#[test]
fn the_same_seed_makes_the_same_case() {
    for theme in THEMES {
        assert!(cases_of(theme, 5).eq(cases_of(theme, 5)));
    }
}

/// Every code of documents 01 and 02 is answered somewhere, by a call or for an order, and every cause.
#[test]
fn every_code_is_reached() {
    let mut yard = Yard::default();
    let mut reached = [0; 42];
    let (mut causes, mut read_causes) = ([0; 5], [0; 5]);
    for theme in THEMES {
        for case in cases_of(theme, 300) {
            let mut table = case.table.clone();
            for call in &case.calls {
                let served = yard.serve(&Reference, &mut table, call).unwrap();
                reached[served.answer.code() as usize] += 1;
                if let differential::Answer::Read(answer) = served.answer {
                    read_causes[answer.cause as usize] += 1;
                }
                if let differential::Answer::Flow(answer) = served.answer {
                    causes[answer.cause as usize] += 1;
                    let codes = served.outcomes.chunks(16).take(answer.orders as usize).map(|outcome| outcome[2]);
                    codes.for_each(|code| reached[usize::from(code)] += 1);
                }
            }
        }
    }
    // 11 is given no more.
    let given = |code: &usize| *code != 11;
    assert!((0..42).filter(given).all(|code| reached[code] > 0), "times each code was answered: {reached:?}");
    assert_eq!(reached[11], 0);
    for causes in [causes, read_causes] {
        assert!(causes.iter().all(|&times| times > 0), "times each cause was answered: {causes:?}");
    }
}

#[test]
fn every_wrong_engine_is_found() {
    for fault in FAULTS {
        let (wrong, mut yard) = (Wrong(fault), Yard::default());
        let mut all = (0..3_000).map(|index| {
            let mut random = Random::of_case(1, index);
            let theme = cases::theme(&mut random);
            cases::case(&mut random, theme)
        });
        let found = all.find(|case| yard.compare(&Reference, &wrong, case).is_some());
        let found = found.unwrap_or_else(|| panic!("{fault:?} is not found"));
        let short = shrink::shortest(&found, Duration::from_secs(20), |case| yard.compare(&Reference, &wrong, case).is_some());
        assert!(yard.compare(&Reference, &wrong, &short).is_some());
        assert!(short.cost() < 1_700, "{fault:?}: the shortest case has {} bytes of {}", short.cost(), found.cost());
    }
}

/// Codes compared as integers come down to the tender letter's own case: the desk has 000471, a call names 471.
#[test]
fn the_defect_of_the_tender_is_made_short() {
    let (wrong, mut yard) = (Wrong(Fault::CodesAsIntegers), Yard::default());
    let mut fails = |case: &Case| yard.compare(&Reference, &wrong, case).is_some();
    let found = cases_of(Theme::Sequence, 500).find(&mut fails).expect("sequences have both bodies");
    let short = shrink::shortest(&found, Duration::from_secs(20), &mut fails);
    assert!(short.calls.len() <= 2 && short.cost() < 900, "{short:?}");
}

/// An engine that lets one body's orders fill another body's slots is found by the interleavings alone.
#[test]
fn isolation_is_tried() {
    let mut yard = Yard::default();
    let leak = Wrong(Fault::SlotsOfAnother);
    let mut fails = |case: &Case| yard.isolated(&leak, case).is_some();
    let found = cases_of(Theme::Sequence, 200).find(&mut fails).expect("bodies fill their slots in a sequence");
    let short = shrink::shortest(&found, Duration::from_secs(20), &mut fails);
    assert!(fails(&short) && short.calls.len() == 3, "{short:?}");
    assert!(matches!(short.calls[0], Call::Open { .. } | Call::Convert { .. } | Call::Salvage { .. }));
}

/// A result that isn't written is found: it holds what it held before.
#[test]
fn unwritten_results_are_found() {
    struct Forgetful;
    impl Engine for Forgetful {
        fn name(&self) -> String {
            "the forgetful engine".into()
        }
        fn open(&self, request: &[u8], table: &mut [u8]) -> u64 {
            Reference.open(request, table)
        }
        fn convert(&self, old: &[u8], table: &mut [u8]) -> u64 {
            Reference.convert(old, table)
        }
        fn flow(
            &self,
            table: &mut [u8],
            edition: u64,
            flow: &[u8],
            outcomes: &mut [u8],
            place: &mut u64,
            orders: &mut u64,
            accepted: &mut u64,
            cause: &mut u64,
            steps: &mut u64,
        ) -> u64 {
            Reference.flow(table, edition, flow, outcomes, place, orders, accepted, cause, steps)
        }
        fn execute(&self, table: &mut [u8], body: &[u8], notice: &reference::Notice, cents: &mut u64) -> u64 {
            Reference.execute(table, body, notice, cents)
        }
        fn reverse(&self, table: &mut [u8], body: &[u8], notice: &reference::Notice, cents: &mut u64) -> u64 {
            Reference.reverse(table, body, notice, cents)
        }
        fn totals(&self, table: &[u8], body: &[u8], used: &mut u64, paid: &mut u64, collected: &mut u64, _: &mut i64) -> u64 {
            Reference.totals(table, body, used, paid, collected, &mut 0)
        }
        fn journal(&self, table: &[u8], body: &[u8], movements: &[u8]) -> u64 {
            Reference.journal(table, body, movements)
        }
    }
    let mut table = vec![0; 160];
    assert_eq!(reference::open(&reference::request(b"01234", &[(b"471", 1)]), &mut table), 0);
    let case = Case { table, calls: vec![Call::Totals { body: b"471".to_vec() }] };
    let found = Yard::default().compare(&Reference, &Forgetful, &case).expect("the balance isn't written");
    assert!(found.what.contains("balance"), "{}", found.what);
}
