//! Compares the proved library with the unchanged Rust at scale: random
//! catalogs, sound and damaged, compiled and asked through the bindings and by
//! the Rust in one process. oracle/README.md says what is compared.
mod asked;
mod bytes;
mod catalogs;
mod damage;
mod faults;
mod judge;
mod lent;
mod questions;
mod random;
mod records;
mod said;
mod theirs;
mod words;

use asked::Asker;
use judge::Judge;
use random::Random;
use records::Catalog;
use std::process::ExitCode;

/// How much is asked in one case.
struct Plan {
    kinds: usize,
    rows: usize,
    lookups: usize,
    formulas: usize,
}

/// Mostly small catalogs, some larger, a few as large as an image holds.
fn plan(random: &mut Random, case: u64) -> Plan {
    let (kinds, rows, lookups, formulas) = match case % 200 {
        199 => (240, 200, 900, 60),
        19 | 39 | 59 | 79 | 99 | 119 | 139 | 159 | 179 => (random.between(30, 90), 40, 400, 60),
        0 => (random.between(1, 3), 1, 60, 20),
        _ => {
            let rows = *random.pick(&[0, 0, 1, 2, 4, 7, 12]);
            (random.between(3, 16), rows, 200, 60)
        }
    };
    Plan {
        kinds,
        rows,
        lookups,
        formulas,
    }
}

fn main() -> ExitCode {
    let Some(options) = Options::read() else {
        eprintln!("usage: scale [--seed N] [--seeds N] [--cases N] [--case N] [--spoil N]");
        return ExitCode::from(2);
    };
    let mut judge = Judge::new(options.seed, options.spoil);
    for seed in options.seed..options.seed + options.seeds {
        judge.seed = seed;
        for case in options.first..options.end {
            judge.case = case;
            run(&mut judge, &mut Random::new(seed, case), case);
        }
    }
    if judge.close() {
        ExitCode::SUCCESS
    } else {
        ExitCode::FAILURE
    }
}

struct Options {
    /// The first of so many seeds.
    seed: u64,
    seeds: u64,
    first: u64,
    end: u64,
    spoil: u64,
}

impl Options {
    fn read() -> Option<Self> {
        let mut options = Self {
            seed: 1,
            seeds: 1,
            first: 0,
            end: 5000,
            spoil: 0,
        };
        let mut words = std::env::args().skip(1);
        while let Some(word) = words.next() {
            let number: u64 = words.next()?.parse().ok()?;
            match word.as_str() {
                "--seed" => options.seed = number,
                "--seeds" => options.seeds = number,
                "--cases" => (options.first, options.end) = (0, number),
                "--case" => (options.first, options.end) = (number, number + 1),
                "--spoil" => options.spoil = number,
                _ => return None,
            }
        }
        Some(options)
    }
}

/// A catalog with its questions, then with each fault in turn, then damaged.
fn run(judge: &mut Judge, random: &mut Random, case: u64) {
    let plan = plan(random, case);
    let catalog = match case % 400 {
        399 => catalogs::full_catalog(random),
        100 => Catalog::default(),
        _ => catalogs::random_catalog(random, plan.kinds, plan.rows),
    };
    let image = catalog.image();
    let mut asker = Asker { judge, random };
    if let Some(over) = asker.compile(&image) {
        asker.ask_lookups(&over, plan.lookups);
        asker.ask_formulas(&over, plan.formulas);
        asker.ask_amiss(&over);
    }
    for number in faults::FIRST..=faults::LAST {
        let faulty = faults::with_fault(asker.random, &catalog, number);
        if let Some(over) = asker.compile(&faulty.image()) {
            asker.ask_lookups(&over, 4);
        }
    }
    for _ in 0..20 {
        let damaged = damage::damaged_image(asker.random, &image);
        asker.compile(&damaged);
    }
}
