//! The command line: see `USAGE`.

use std::process::ExitCode;
use std::sync::atomic::{AtomicU64, Ordering};
use std::time::{Duration, Instant};

use differential::cases::{self, Theme};
use differential::pen::Place;
use differential::random::Random;
use differential::stray::Stray;
use differential::told::Told;
use differential::wrong::{FAULTS, Wrong};
use differential::{Call, Case, Difference, Engine, Lend, Reference, Yard, shrink, sweep};

const USAGE: &str = "\
differential: gives the same cases to the reference and to the library and compares every answer and every byte

Without arguments: the sweep, then 40000 random cases.

  --count N      N random cases
  --seconds N    as many random cases as there is time for
  --seed N       the seed of the random cases (default 1)
  --from N       the first case (default 0); --from N --count 1 makes one case again
  --sweep        only the sweep: every byte of a flow, a table and a request set to every value, every character, days and seconds
  --stride N     the sweep's every N-th case, then the random cases (with --sweep: none of them)
  --long         the sweep, then 1000000 random cases
  --fuzz         everything changed in many places, and random bytes; with --seconds N (default 30) or --count N
  --lend HOW     where buffers and results lie: end (at a page that may not be touched), beginning (after one), turns (default: now at
                 the one, now at the other), heap (allocations of their own, for a run under valgrind)
  --engine E     library (default with the feature native), reference, or a fault: an engine that is wrong on purpose; ReadsPast and
                 ReadsBefore look at a byte they are not lent
  --tell FILE    writes what the engine wrote, rewrote and read of messages into FILE, for another reader of XML: see tests/expat
  --show         prints the cases instead of trying them

The last line is 'differential: N cases, 0 differences'; the exit status is 1 on a difference.";

/// The case that is being tried, and how many have been, for the messages of the watch and of the signal handler.
static CASE: AtomicU64 = AtomicU64::new(0);
static TRIED: AtomicU64 = AtomicU64::new(0);

struct Run {
    cases: Cases,
    seed: u64,
    from: u64,
    count: Option<usize>,
    seconds: Option<u64>,
    stride: usize,
    show: bool,
    lend: Lend,
    engine: Option<String>,
    tell: Option<String>,
}

#[derive(Clone, Copy, PartialEq, Eq)]
enum Cases {
    SweepAndRandom,
    Sweep,
    Random,
    Fuzz,
}

fn main() -> ExitCode {
    let run = match arguments(std::env::args().skip(1)) {
        Ok(Some(run)) => run,
        Ok(None) => {
            println!("{USAGE}");
            return ExitCode::SUCCESS;
        }
        Err(wrong) => {
            eprintln!("differential: {wrong}\n\n{USAGE}");
            return ExitCode::from(2);
        }
    };
    let tried = match engine(run.engine.as_deref()) {
        Ok(engine) => engine,
        Err(wrong) => {
            eprintln!("differential: {wrong}");
            return ExitCode::from(2);
        }
    };
    println!("differential: the reference against {}, seed {}", tried.name(), run.seed);
    fault::watch();
    try_all(&run, &*tried)
}

fn arguments(mut given: impl Iterator<Item = String>) -> Result<Option<Run>, String> {
    let mut run = Run {
        cases: Cases::Random,
        seed: 1,
        from: 0,
        count: None,
        seconds: None,
        stride: 1,
        show: false,
        lend: Lend::Turns,
        engine: None,
        tell: None,
    };
    while let Some(argument) = given.next() {
        let mut number = || -> Result<u64, String> {
            let value = given.next().ok_or(format!("{argument} needs a number"))?;
            value.parse().map_err(|_| format!("{argument}: {value} is no number"))
        };
        match &*argument {
            "--count" => run.count = Some(number()? as usize),
            "--seconds" => run.seconds = Some(number()?),
            "--seed" => run.seed = number()?,
            "--from" => run.from = number()?,
            "--sweep" => run.cases = Cases::Sweep,
            "--stride" => {
                run.stride = number()? as usize;
                if run.stride == 0 {
                    return Err("--stride needs a number above 0".into());
                }
                if run.cases == Cases::Random {
                    run.cases = Cases::SweepAndRandom;
                }
            }
            "--fuzz" => run.cases = Cases::Fuzz,
            "--long" => (run.cases, run.count) = (Cases::SweepAndRandom, Some(1_000_000)),
            "--lend" => run.lend = lend(&given.next().ok_or("--lend needs a place")?)?,
            "--engine" => run.engine = Some(given.next().ok_or("--engine needs a name")?),
            "--tell" => run.tell = Some(given.next().ok_or("--tell needs a file")?),
            "--show" => run.show = true,
            "--help" | "-h" => return Ok(None),
            _ => return Err(format!("{argument} is not known")),
        }
    }
    if run.count.is_none() && run.seconds.is_none() {
        match run.cases {
            Cases::Random | Cases::SweepAndRandom => (run.cases, run.count) = (Cases::SweepAndRandom, Some(40_000)),
            Cases::Fuzz => run.seconds = Some(30),
            Cases::Sweep => {}
        }
    }
    Ok(Some(run))
}

fn lend(how: &str) -> Result<Lend, String> {
    match how {
        "turns" => Ok(Lend::Turns),
        "end" => Ok(Lend::Always(Place::End)),
        "beginning" => Ok(Lend::Always(Place::Beginning)),
        "heap" => Ok(Lend::Always(Place::Heap)),
        _ => Err(format!("--lend {how} is not known: turns, end, beginning, heap")),
    }
}

fn engine(name: Option<&str>) -> Result<Box<dyn Engine>, String> {
    match name {
        #[cfg(feature = "native")]
        None | Some("library") => Ok(Box::new(differential::engine::Library)),
        #[cfg(not(feature = "native"))]
        Some("library") => Err("this build has no library in it: build with --features native".into()),
        #[cfg(not(feature = "native"))]
        None => {
            println!(
                "differential: this build has no library in it, so the reference is tried against itself (build with --features native)"
            );
            Ok(Box::new(Reference))
        }
        Some("reference") => Ok(Box::new(Reference)),
        Some("ReadsPast") => Ok(Box::new(Stray::ReadsPast)),
        Some("ReadsBefore") => Ok(Box::new(Stray::ReadsBefore)),
        Some(name) => {
            let fault = FAULTS.into_iter().find(|fault| format!("{fault:?}") == name);
            let known: Vec<_> = FAULTS.iter().map(|fault| format!("{fault:?}")).collect();
            let wrong = || format!("no engine {name}: library, reference, ReadsPast, ReadsBefore, {}", known.join(", "));
            Ok(Box::new(Wrong(fault.ok_or_else(wrong)?)))
        }
    }
}

fn name(theme: Option<Theme>) -> String {
    theme.map_or("Sweep".into(), |theme| format!("{theme:?}"))
}

/// What may be found wrong with a case.
fn differences(yard: &mut Yard, tried: &dyn Engine, theme: Option<Theme>, case: &Case) -> Option<Difference> {
    let isolated = |yard: &mut Yard| {
        if theme == Some(Theme::Sequence) { yard.isolated(tried, case) } else { None }
    };
    yard.compare(&Reference, tried, case).or_else(|| isolated(yard))
}

/// The cases of a run, each with its number and its theme; those of the sweep have none.
fn cases_of(run: &Run) -> Box<dyn Iterator<Item = (u64, Option<Theme>, Case)>> {
    let (seed, from, stride) = (run.seed, run.from, run.stride);
    let count = run.count.unwrap_or(usize::MAX);
    let sweep = || (0..).zip(sweep::cases()).map(|(index, case)| (index, None, case));
    let random = move |theme: fn(&mut Random) -> Theme| {
        (from..).take(count).map(move |index| {
            let mut random = Random::of_case(seed, index);
            let theme = theme(&mut random);
            (index, Some(theme), cases::case(&mut random, theme))
        })
    };
    match run.cases {
        Cases::SweepAndRandom => Box::new(sweep().step_by(stride).chain(random(cases::theme))),
        Cases::Sweep => Box::new(sweep().skip(from as usize).step_by(stride).take(count)),
        Cases::Random => Box::new(random(cases::theme)),
        Cases::Fuzz => Box::new(random(|_| Theme::Fuzz)),
    }
}

fn try_all(run: &Run, tried: &dyn Engine) -> ExitCode {
    let start = Instant::now();
    let mut yard = Yard::new(run.lend);
    if let Some(file) = &run.tell {
        yard.tell(Told::new(std::fs::File::create(file).expect("the file of --tell can be written")));
    }
    let (mut tries, mut calls, mut rows, mut damaged, mut closes) = (0u64, 0u64, 0u64, 0u64, 0u64);
    for (index, theme, case) in cases_of(run) {
        if run.seconds.is_some_and(|seconds| start.elapsed() >= Duration::from_secs(seconds)) {
            break;
        }
        tries += 1;
        CASE.store(index, Ordering::Relaxed);
        TRIED.store(tries, Ordering::Relaxed);
        calls += case.calls.len() as u64;
        rows += u64::from(theme == Some(Theme::Sequence));
        damaged += case.calls.iter().filter(|call| matches!(call, Call::Salvage { .. })).count() as u64;
        closes += case.calls.iter().filter(|call| matches!(call, Call::Close { .. })).count() as u64;
        if run.show {
            println!("case {index} ({})\n{case}{case:?}", name(theme));
            continue;
        }
        if let Some(difference) = differences(&mut yard, tried, theme, &case) {
            report(run, index, theme, &case, &difference, &mut yard, tried);
            println!("differential: {tries} cases, 1 difference");
            return ExitCode::FAILURE;
        }
    }
    let seconds = start.elapsed().as_secs_f64();
    println!(
        "{calls} calls, {damaged} of them repairs and {closes} closes, {rows} rows of calls also tried body after body and each body alone, {:.0} cases a second",
        tries as f64 / seconds
    );
    println!("differential: {tries} cases, 0 differences");
    ExitCode::SUCCESS
}

fn report(run: &Run, index: u64, theme: Option<Theme>, case: &Case, found: &Difference, yard: &mut Yard, tried: &dyn Engine) {
    println!("case {index} ({}) differs at call {}: {}", name(theme), found.call, found.what);
    let mode = match theme {
        None => " --sweep",
        Some(Theme::Fuzz) => " --fuzz",
        Some(_) => "",
    };
    println!("again: --seed {} --from {index} --count 1{mode}", run.seed);
    let short = shrink::shortest(case, Duration::from_secs(30), |case| differences(yard, tried, theme, case).is_some());
    let still = differences(yard, tried, theme, &short).expect("a case is kept only when it differs");
    println!(
        "shortest found ({} calls, {} bytes for {}): call {}: {}",
        short.calls.len(),
        short.cost(),
        case.cost(),
        still.call,
        still.what
    );
    println!("{short}\n{short:?}");
}

/// Messages for a call that never ends or touches memory that is not its own.
mod fault {
    use super::{CASE, Ordering, TRIED};
    use std::time::Duration;

    /// Watches the run: says which case it was when a call touches a guard page, or when a case takes minutes.
    pub fn watch() {
        signals::handle();
        std::thread::spawn(|| {
            let (mut last, mut same) = (u64::MAX, 0);
            loop {
                std::thread::sleep(Duration::from_secs(10));
                let case = CASE.load(Ordering::Relaxed);
                same = if case == last { same + 1 } else { 0 };
                last = case;
                // Two minutes: a case takes milliseconds, and making a failing one short takes half a minute at most.
                if same == 12 {
                    let tried = TRIED.load(Ordering::Relaxed);
                    println!("differential: case {case} doesn't end\ndifferential: {tried} cases, 1 difference");
                    std::process::exit(1);
                }
            }
        });
    }

    #[cfg(unix)]
    mod signals {
        use super::{CASE, Ordering, TRIED};
        use std::ffi::{c_int, c_void};

        unsafe extern "C" {
            fn signal(number: c_int, handler: extern "C" fn(c_int)) -> usize;
            fn write(file: c_int, bytes: *const c_void, length: usize) -> isize;
            fn _exit(status: c_int) -> !;
        }

        /// SIGILL, SIGABRT, SIGBUS (on Linux), SIGFPE and SIGSEGV.
        const FATAL: [c_int; 5] = [4, 6, 7, 8, 11];

        pub fn handle() {
            for number in FATAL {
                // SAFETY: the handler only reads atomics and calls functions that a signal handler may call.
                unsafe {
                    signal(number, stop);
                }
            }
        }

        extern "C" fn stop(number: c_int) {
            say(b"differential: signal ");
            say_number(number as u64);
            say(b" in case ");
            say_number(CASE.load(Ordering::Relaxed));
            say(b" (--from and --show print it); signal 11 is a call that touched memory not lent to it\ndifferential: ");
            say_number(TRIED.load(Ordering::Relaxed));
            say(b" cases, 1 difference\n");
            // SAFETY: ends the process at once, as a signal handler may.
            unsafe { _exit(1) }
        }

        fn say(text: &[u8]) {
            // SAFETY: the pointer and length are those of a slice.
            unsafe {
                write(1, text.as_ptr().cast(), text.len());
            }
        }

        fn say_number(number: u64) {
            if number > 9 {
                say_number(number / 10);
            }
            say(&[b'0' + (number % 10) as u8]);
        }
    }

    #[cfg(not(unix))]
    mod signals {
        pub fn handle() {}
    }
}
