//! The buffers of one call: filled with a pattern before it, looked at word by
//! word after it.
use crate::random::Random;
use crate::said::{Said, OUT_WORDS};
use crate::words::{Lookup, Words};

/// Buffers that a call may write. A pattern differs from place to place and
/// from call to call, so that a word that was written shows.
pub struct Lent {
    salt: u32,
    pub table: Vec<u32>,
    pub twins: Vec<u16>,
    pub out: Vec<u32>,
    pub had_room: bool,
}

fn pattern(salt: u32, place: usize) -> u32 {
    let mixed = (place as u32 ^ salt).wrapping_mul(0x9e37_79b1);
    mixed ^ (mixed >> 15)
}

/// No kind's index: those are below 240.
fn twin_pattern(salt: u32, place: usize) -> u16 {
    pattern(salt, place) as u16 | 0x8000
}

impl Lent {
    pub fn new(random: &mut Random, table: usize, twins: usize) -> Self {
        let out = match random.below(20) {
            0 => random.below(OUT_WORDS),
            1..=4 => OUT_WORDS + random.below(16),
            _ => OUT_WORDS,
        };
        let salt = random.next() as u32;
        Self {
            salt,
            table: (0..table).map(|place| pattern(salt, place)).collect(),
            twins: (0..twins).map(|place| twin_pattern(salt, place)).collect(),
            out: (0..out).map(|place| pattern(!salt, place)).collect(),
            had_room: false,
        }
    }

    pub fn compile(&mut self, image: &[u8]) {
        self.had_room = kind_check::lent::compile(image, &mut self.table, &mut self.out);
    }

    pub fn look_up(&mut self, words: Words<'_>, lookup: Lookup) {
        let (table, rows) = (words.table, words.rows);
        let (twins, out) = (&mut self.twins, &mut self.out);
        self.had_room = match lookup {
            Lookup::Combine(code, left, right) => {
                kind_check::lent::combine(table, rows, twins, code, left, right, out)
            }
            Lookup::Power(base, num, den) => {
                kind_check::lent::power(table, twins, base, num, den, out)
            }
            Lookup::Inexact(base) => kind_check::lent::power_inexact(table, twins, base, out),
        };
    }

    pub fn run(&mut self, words: Words<'_>, formula: &[u8]) {
        let (twins, out) = (&mut self.twins, &mut self.out);
        self.had_room = kind_check::lent::formula(words.table, words.rows, twins, formula, out);
    }

    /// The first place where a buffer isn't what it must be after an answer:
    /// the answer's words and nothing past them, the twins and nothing past
    /// them, and the words of the table that are written, if any are.
    pub fn differs(&self, said: &Said, written: &[u32]) -> Option<String> {
        let has_room = self.out.len() >= OUT_WORDS;
        let answer: &[u32] = if has_room { &said.words } else { &[] };
        if self.had_room != has_room {
            return Some(format!("room {} told as {}", has_room, self.had_room));
        }
        let unlike = |what: &str, place: usize, found: u32, wanted: u32| {
            (found != wanted).then(|| format!("{what} {place} is {found}, not {wanted}"))
        };
        let out = self.out.iter().enumerate().find_map(|(place, &found)| {
            let kept = || pattern(!self.salt, place);
            let wanted = answer.get(place).copied().unwrap_or_else(kept);
            unlike("answer word", place, found, wanted)
        });
        let twins = || {
            self.twins.iter().enumerate().find_map(|(place, &found)| {
                let kept = || twin_pattern(self.salt, place);
                let wanted = said.twins.get(place).copied().unwrap_or_else(kept);
                unlike("twin", place, found.into(), wanted.into())
            })
        };
        let table = || {
            self.table.iter().enumerate().find_map(|(place, &found)| {
                let kept = || pattern(self.salt, place);
                let wanted = written.get(place).copied().unwrap_or_else(kept);
                unlike("table word", place, found, wanted)
            })
        };
        out.or_else(twins).or_else(table)
    }

    /// Changes one word of some buffer that has one; nothing if none has.
    pub fn spoil(&mut self, random: &mut Random) -> bool {
        let mut buffers: Vec<usize> = Vec::new();
        let lengths = [self.out.len(), self.twins.len(), self.table.len()];
        buffers.extend((0..3).filter(|&buffer| lengths[buffer] > 0));
        if buffers.is_empty() {
            return false;
        }
        let buffer = *random.pick(&buffers);
        let place = random.below(lengths[buffer]);
        match buffer {
            0 => self.out[place] ^= 1 << random.below(32),
            1 => self.twins[place] ^= 1 << random.below(16),
            _ => self.table[place] ^= 1 << random.below(32),
        }
        true
    }

    /// What was written, for a report.
    pub fn shown(&self) -> String {
        let twins = self
            .twins
            .iter()
            .take_while(|&&entry| entry < 0x8000)
            .copied()
            .collect();
        match self.out.get(..OUT_WORDS) {
            Some(words) => {
                let words = words.try_into().expect("32 words");
                Said { words, twins }.to_string()
            }
            None => format!("no room for an answer, twins {twins:?}"),
        }
    }
}
