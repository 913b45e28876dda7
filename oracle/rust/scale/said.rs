//! An answer as the words that it is written in, whoever gives it.
use oracle::answer::Answer;
use std::fmt;

pub const OUT_WORDS: usize = 32;

/// The 32 words, and the entries of the twin list that are written.
#[derive(Clone, PartialEq, Eq)]
pub struct Said {
    pub words: [u32; OUT_WORDS],
    pub twins: Vec<u16>,
}

impl Said {
    fn new(what: u32, index: u32) -> Self {
        let mut words = [0; OUT_WORDS];
        words[0] = what;
        words[1] = index;
        Self {
            words,
            twins: Vec::new(),
        }
    }

    pub fn number() -> Self {
        Self::new(0, 0)
    }

    pub fn kind(index: usize) -> Self {
        Self::new(1, index as u32)
    }

    pub fn compiled() -> Self {
        Self::new(3, 0)
    }

    /// Values below zero in two's complement.
    pub fn refused(number: u32, place: usize, values: &[i64]) -> Self {
        let mut said = Self::new(2, number);
        said.words[2] = place as u32;
        for (word, &value) in said.words[3..].iter_mut().zip(values) {
            *word = value as u32;
        }
        said
    }

    pub fn with_twins(number: u32, place: usize, twins: &[usize]) -> Self {
        let mut said = Self::refused(number, place, &[twins.len() as i64]);
        said.twins = twins.iter().map(|&kind| kind as u16).collect();
        said
    }

    /// What the Rust says; nothing where it has no word for the question.
    pub fn of(answer: &Answer) -> Option<Self> {
        Some(match answer {
            Answer::Number => Self::number(),
            Answer::Kind(index) => Self::kind(*index),
            Answer::Refused(refusal) => {
                let twins = refusal.twins.iter().map(|&kind| kind as u16).collect();
                Self {
                    twins,
                    ..Self::refused(refusal.number, refusal.place?, &refusal.values)
                }
            }
            // Document 01: 28 where the Rust says `NoPowerKind`.
            Answer::OverLimits { base, place } => Self::refused(28, *place, &[*base as i64]),
            Answer::Text(_) | Answer::NotAsked(_) => return None,
        })
    }

    /// The refusal's number, 0 for none.
    pub fn refusal(&self) -> u32 {
        if self.words[0] == 2 {
            self.words[1]
        } else {
            0
        }
    }
}

impl fmt::Display for Said {
    fn fmt(&self, f: &mut fmt::Formatter<'_>) -> fmt::Result {
        let end = (self.words.iter())
            .rposition(|&word| word != 0)
            .map_or(1, |last| last + 1);
        write!(f, "words {:?} twins {:?}", &self.words[..end], self.twins)
    }
}
