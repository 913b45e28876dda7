//! Holds each answer to what it must be, and counts.
use crate::lent::Lent;
use crate::random::Random;
use crate::said::Said;
use std::collections::BTreeMap;

/// Whose word an answer is held to.
#[derive(Clone, Copy, PartialEq, Eq, PartialOrd, Ord)]
pub enum Source {
    Rust,
    /// Document 01's text, read once more in this program.
    Text,
}

/// One answer, and what it must be.
pub struct Held<'a> {
    pub what: &'static str,
    pub source: Source,
    pub said: &'a Said,
    /// The table's words that are written.
    pub written: &'a [u32],
    /// Whether all that was lent to be read is as it was.
    pub kept: bool,
    /// How much there is to read in the request.
    pub size: usize,
}

#[derive(Default)]
struct Count {
    rust: u64,
    text: u64,
}

pub struct Judge {
    first_seed: u64,
    pub seed: u64,
    pub case: u64,
    /// One answer of so many is spoiled; 0 for none.
    spoil: u64,
    random: Random,
    answers: u64,
    spoiled: Vec<u64>,
    differing: Vec<u64>,
    /// By what was asked, by the refusal's number or 0.
    counts: BTreeMap<(&'static str, u32), Count>,
    /// The difference with the least to read.
    smallest: Option<(usize, String)>,
}

const MOST_PRINTED: usize = 10;

impl Judge {
    pub fn new(seed: u64, spoil: u64) -> Self {
        Self {
            first_seed: seed,
            seed,
            case: 0,
            spoil,
            random: Random::new(seed, u64::MAX),
            answers: 0,
            spoiled: Vec::new(),
            differing: Vec::new(),
            counts: BTreeMap::new(),
            smallest: None,
        }
    }

    pub fn hold(&mut self, held: Held<'_>, lent: &mut Lent, request: impl FnOnce() -> String) {
        self.answers += 1;
        if self.spoil > 0 && self.answers % self.spoil == 0 && lent.spoil(&mut self.random) {
            self.spoiled.push(self.answers);
        }
        let count = self
            .counts
            .entry((held.what, held.said.refusal()))
            .or_default();
        match held.source {
            Source::Rust => count.rust += 1,
            Source::Text => count.text += 1,
        }
        let unlike = lent.differs(held.said, held.written);
        if unlike.is_some() || !held.kept {
            self.differing.push(self.answers);
            let unlike = unlike.unwrap_or("something lent to be read was written".into());
            let whose = match held.source {
                Source::Rust => "the Rust",
                Source::Text => "document 01",
            };
            let text = format!(
                "seed {} case {} answer {}: {}\n  {unlike}\n  ours: {}\n  {whose}: {}",
                self.seed,
                self.case,
                self.answers,
                request(),
                lent.shown(),
                held.said
            );
            if self.differing.len() <= MOST_PRINTED && self.spoil == 0 {
                println!("{text}");
            }
            let least = self
                .smallest
                .as_ref()
                .map_or(usize::MAX, |(least, _)| *least);
            if held.size < least {
                self.smallest = Some((held.size, text));
            }
        }
    }

    /// The reading of document 01 against the Rust, where both have a word.
    pub fn hold_reading(&mut self, read: &Said, rust: &Said, request: impl FnOnce() -> String) {
        if read != rust {
            self.differing.push(self.answers);
            println!(
                "seed {} case {}: {}\n  our reading of document 01: {read}\n  the Rust: {rust}",
                self.seed,
                self.case,
                request()
            );
        }
    }

    /// Prints the counts; true where nothing differs that wasn't spoiled, and
    /// everything that was.
    pub fn close(&self) -> bool {
        self.print_counts();
        let rust: u64 = self.counts.values().map(|count| count.rust).sum();
        let text: u64 = self.counts.values().map(|count| count.text).sum();
        if let (Some((_, text)), true) = (&self.smallest, self.differing.len() > 1) {
            println!("the difference with the least to read:\n{text}");
        }
        if self.spoil > 0 {
            println!(
                "{} answers spoiled, {} found to differ, {}",
                self.spoiled.len(),
                self.differing.len(),
                if self.spoiled == self.differing {
                    "the same ones"
                } else {
                    "NOT the same ones"
                }
            );
        }
        println!(
            "seeds {} to {}: {} answers compared ({rust} with the Rust, {text} with document 01 alone), {} differ",
            self.first_seed,
            self.seed,
            self.answers,
            self.differing.len()
        );
        let tried = self.spoil == 0 || !self.spoiled.is_empty();
        self.answers > 0 && tried && self.spoiled == self.differing
    }
    /// By what was asked and how it was answered; `all` for how it was asked.
    fn print_counts(&self) {
        let mut counts: BTreeMap<(&str, String), (u64, u64)> = BTreeMap::new();
        for (&(what, number), count) in &self.counts {
            let answered = match number {
                0 => "  given".into(),
                number => format!("{number:>2}"),
            };
            for line in [answered, "all".into()] {
                let sums = counts.entry((what, line)).or_default();
                sums.0 += count.rust;
                sums.1 += count.text;
            }
        }
        println!("asked | answered | against the Rust | against document 01 alone");
        println!("---|---|---|---");
        for ((what, answered), (rust, text)) in counts {
            println!("{what} | {} | {rust} | {text}", answered.trim());
        }
    }
}
