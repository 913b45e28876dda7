//! What the check and the Rust cost on one catalog, in one process.
//!
//!     bench count FOLDER NAME    each measured thing once, to be counted by callgrind
//!     bench time FOLDER NAME     in nanoseconds
//!
//! A line for each: what, whose, how many calls in it, and nanoseconds a call
//! where they are measured. FOLDER has NAME.image, NAME.pairs, NAME.powers and
//! NAME-*.formula.
mod case;
mod lean;
mod ours;
mod theirs;

use case::Case;
use std::process::ExitCode;
use std::time::Instant;

/// One thing to be measured. What `ready` does is left out of the measure.
pub struct Measured<'a> {
    pub what: String,
    pub whose: &'static str,
    pub calls: usize,
    pub ready: Box<dyn FnMut() + 'a>,
    pub run: Box<dyn FnMut() + 'a>,
}

impl<'a> Measured<'a> {
    pub fn new(
        what: impl Into<String>,
        whose: &'static str,
        calls: usize,
        run: impl FnMut() + 'a,
    ) -> Self {
        Self {
            what: what.into(),
            whose,
            calls,
            ready: Box::new(|| ()),
            run: Box::new(run),
        }
    }
}

/// Callgrind counts inside this function alone.
#[no_mangle]
#[inline(never)]
pub fn bench_measured(run: &mut dyn FnMut()) {
    run();
}

fn main() -> ExitCode {
    let words: Vec<String> = std::env::args().skip(1).collect();
    let [mode, folder, name] = &words[..] else {
        eprintln!("usage: bench count|time FOLDER NAME");
        return ExitCode::from(2);
    };
    let case = match Case::read(folder, name) {
        Ok(case) => case,
        Err(error) => {
            eprintln!("{name}: {error}");
            return ExitCode::FAILURE;
        }
    };
    let counted = mode == "count";
    let theirs = theirs::Theirs::new(&case);
    if let Some(lookup) = case.first_unlike(&theirs) {
        eprintln!("{name}: {lookup} is answered in two ways");
        return ExitCode::FAILURE;
    }
    for measured in ours::measured(&case)
        .into_iter()
        .chain(theirs.measured(&case))
    {
        measure(measured, counted);
    }
    ExitCode::SUCCESS
}

fn measure(mut measured: Measured<'_>, counted: bool) {
    // Once before, so that every page and line of it has been touched.
    (measured.ready)();
    (measured.run)();
    if counted {
        (measured.ready)();
        bench_measured(&mut measured.run);
        let (what, whose) = (&measured.what, measured.whose);
        println!("{what}\t{whose}\t{}", measured.calls);
        return;
    }
    let nanoseconds = (0..ROUNDS).map(|_| median(&mut measured)).min();
    let each = nanoseconds.unwrap_or(0) as f64 / measured.calls as f64;
    let (what, whose) = (&measured.what, measured.whose);
    println!("{what}\t{whose}\t{}\t{each:.1}", measured.calls);
}

/// The quietest of so many rounds, the median of so many runs in each.
const ROUNDS: usize = 7;
const RUNS: usize = 51;

fn median(measured: &mut Measured<'_>) -> u128 {
    let mut times: Vec<u128> = (0..RUNS)
        .map(|_| {
            (measured.ready)();
            let start = Instant::now();
            (measured.run)();
            start.elapsed().as_nanos()
        })
        .collect();
    times.sort_unstable();
    times[RUNS / 2]
}
