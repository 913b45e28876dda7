//! Random lookups and formulas.
use crate::bytes::TOKEN;
use crate::random::Random;
use crate::words::Lookup;

pub const MOST_TOKENS: usize = 128;
const GREATEST: i32 = i32::MAX;
const POWERS: [(i32, u32); 15] = [
    (0, 1),
    (1, 1),
    (2, 1),
    (3, 1),
    (-1, 1),
    (-2, 1),
    (1, 2),
    (1, 3),
    (2, 3),
    (-1, 2),
    (2, 2),
    (4, 2),
    (0, 7),
    (-6, 4),
    (3, 2),
];
/// At the ends of the limits.
const END_POWERS: [(i32, u32); 9] = [
    (GREATEST, 1),
    (-GREATEST, 1),
    (1, GREATEST as u32),
    (-1, GREATEST as u32),
    (GREATEST, GREATEST as u32),
    (i32::MIN, 2),
    (2, 1 << 31),
    (32767, 32767),
    (GREATEST, 2),
];

fn random_exponent(random: &mut Random) -> (i32, u32) {
    match random.below(100) {
        0..=9 => *random.pick(&END_POWERS),
        10..=14 => (random.next() as i32, (random.next() as u32 >> 1).max(1)),
        _ => *random.pick(&POWERS),
    }
}

/// Products more often than the rest, and more often of kinds that have one.
pub fn random_lookup(random: &mut Random, kinds: usize, plain: &[u16]) -> Lookup {
    let likely = !plain.is_empty() && random.percent(60);
    let mut kind = || match likely {
        true => *random.pick(plain),
        false => random.below(kinds) as u16,
    };
    let (left, right) = (kind(), kind());
    match random.below(100) {
        0..=7 => Lookup::Combine(2, left, right),
        8..=15 => Lookup::Combine(3, left, right),
        // Sums of two kinds drawn alone would nearly all be 42.
        16..=19 => Lookup::Combine(random.between(2, 3) as u8, left, left),
        20..=46 => Lookup::Combine(4, left, right),
        47..=66 => Lookup::Combine(5, left, right),
        67..=74 => Lookup::Combine(6, left, right),
        75..=82 => Lookup::Combine(7, left, right),
        83..=84 => Lookup::Inexact(left),
        _ => {
            let (num, den) = random_exponent(random);
            Lookup::Power(left, num, den)
        }
    }
}

pub fn token(code: u8, kind: usize, num: i32, den: u32) -> Vec<u8> {
    let mut bytes = vec![code, 0];
    bytes.extend((kind as u16).to_le_bytes());
    bytes.extend(num.to_le_bytes());
    bytes.extend(den.to_le_bytes());
    bytes
}

fn plain(code: u8) -> Vec<u8> {
    token(code, 0, 0, 0)
}

/// Formulas that grow from parts whose answer is known: what is given a kind
/// grows on, and some that is refused grows too, so that a refusal lies deep
/// inside.
pub struct Grower {
    kinds: usize,
    parts: Vec<Vec<u8>>,
    made: usize,
}

impl Grower {
    pub fn new(random: &mut Random, kinds: usize) -> Self {
        let mut parts: Vec<Vec<u8>> = (0..kinds).map(|kind| token(1, kind, 0, 0)).collect();
        for _ in 0..=kinds / 8 {
            parts.push(plain(0));
        }
        random.shuffle(&mut parts);
        Self {
            kinds,
            parts,
            made: 0,
        }
    }

    pub fn next(&mut self, random: &mut Random) -> Vec<u8> {
        self.made += 1;
        loop {
            let formula = match self.made % 40 {
                0 => self.terms_first(random),
                20 => self.chain(random),
                _ => self.grown(random),
            };
            if formula.len() <= TOKEN * MOST_TOKENS {
                return formula;
            }
        }
    }

    /// Takes the formula in as a part.
    pub fn learn(&mut self, random: &mut Random, formula: Vec<u8>, refused: bool) {
        if !refused || random.percent(6) {
            self.parts.push(formula);
        }
    }

    /// One more operation over parts.
    fn grown(&self, random: &mut Random) -> Vec<u8> {
        let mut formula = random.pick(&self.parts).clone();
        if random.percent(30) {
            formula.extend(match random.below(100) {
                0..=39 => plain(10),
                40..=44 => plain(9),
                _ => {
                    let (num, den) = random_exponent(random);
                    token(8, 0, num, den)
                }
            });
            return formula;
        }
        let right = if random.percent(35) {
            formula.clone()
        } else {
            random.pick(&self.parts).clone()
        };
        formula.extend(right);
        formula.extend(plain(*random.pick(&[2, 3, 4, 4, 4, 5, 5, 5, 6, 7, 11])));
        formula
    }

    /// Up to 32 terms of one kind, and only then what joins them.
    fn terms_first(&self, random: &mut Random) -> Vec<u8> {
        let terms = *random.pick(&[2, 5, 31, 32]);
        let kind = token(1, random.below(self.kinds), 0, 0);
        let code = *random.pick(&[2, 3, 4, 11]);
        [kind.repeat(terms), plain(code).repeat(terms - 1)].concat()
    }

    /// A sum or quotient carried on and on, to the last token that is allowed.
    fn chain(&self, random: &mut Random) -> Vec<u8> {
        let kind = token(1, random.below(self.kinds), 0, 0);
        let step = [kind.clone(), plain(*random.pick(&[2, 3, 5]))].concat();
        [kind, step.repeat(*random.pick(&[12, 63])), plain(10)].concat()
    }
}
