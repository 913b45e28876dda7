//! Document 01 read once more, for lookups and formulas over any words that
//! are lent: 5, 40, 41, 50 are not the Rust's, and a table that no compilation
//! wrote is unknown to it. Where the Rust does answer, this reading is held to
//! it.
use crate::bytes::{exponent, malformed, reduced, tokens, Token};
use crate::said::Said;

pub const TABLE_WORDS: usize = 9296;
pub const TWINS: usize = 240;
pub const KINDS_AT: usize = 16;
pub const KIND_WORDS: usize = 32;
pub const ROWS_AT: usize = 7696;
pub const NONE: u32 = 65_535;
const POINT: u32 = 1;

/// One lone lookup.
#[derive(Clone, Copy)]
pub enum Lookup {
    Combine(u8, u16, u16),
    Power(u16, i32, u32),
    Inexact(u16),
}

/// A refusal's number and values, its place still to come.
enum No {
    Values(u32, Vec<i64>),
    Twins(u32, Vec<usize>),
}

type Found = Result<usize, No>;
type Dimensions = [(i64, i64); 12];

fn no<T>(number: u32, values: &[usize]) -> Result<T, No> {
    let values = values.iter().map(|&value| value as i64).collect();
    Err(No::Values(number, values))
}

fn no_kind<T>(number: u32, dimensions: &Dimensions, grade: u32) -> Result<T, No> {
    let mut values: Vec<i64> = (dimensions.iter())
        .flat_map(|&(num, den)| [num, den])
        .collect();
    values.push(i64::from(grade));
    Err(No::Values(number, values))
}

impl No {
    fn at(self, place: usize) -> Said {
        match self {
            Self::Values(number, values) => Said::refused(number, place, &values),
            Self::Twins(number, twins) => Said::with_twins(number, place, &twins),
        }
    }
}

/// The words that are lent to a lookup.
#[derive(Clone, Copy)]
pub struct Words<'a> {
    pub table: &'a [u32],
    pub rows: &'a [u32],
    pub twins: usize,
}

impl Words<'_> {
    fn count(&self) -> usize {
        self.table[0] as usize
    }

    fn kind(&self, kind: usize) -> &[u32] {
        &self.table[KINDS_AT + KIND_WORDS * kind..][..KIND_WORDS]
    }

    fn is_given(&self, kind: usize) -> bool {
        self.kind(kind)[24] == 1
    }

    fn grade(&self, kind: usize) -> u32 {
        self.kind(kind)[25]
    }

    fn is_point(&self, kind: usize) -> bool {
        self.kind(kind)[26] == POINT
    }

    /// A kind that a word names, if it names one.
    fn link(word: u32) -> Option<usize> {
        (word != NONE).then_some(word as usize)
    }

    fn difference(&self, kind: usize) -> Option<usize> {
        Self::link(self.kind(kind)[27])
    }

    fn dimensions(&self, kind: usize) -> Dimensions {
        let words = self.kind(kind);
        std::array::from_fn(|base| {
            let num = words[2 * base] as i32;
            (i64::from(num), i64::from(words[2 * base + 1]))
        })
    }

    /// The refusals that come before the question is looked at.
    fn refusal(&self) -> Option<Said> {
        for (lent, needed) in [(self.table.len(), TABLE_WORDS), (self.twins, TWINS)] {
            if lent < needed {
                return Some(Said::refused(5, 0, &[lent as i64]));
            }
        }
        let fine = is_table(self.table) && are_rows(self.rows, self.table[0]);
        (!fine).then(|| Said::refused(40, 0, &[0]))
    }

    /// A power is lent no rows.
    pub fn lookup(&self, lookup: Lookup) -> Said {
        let words = match lookup {
            Lookup::Combine(..) => *self,
            _ => Words { rows: &[], ..*self },
        };
        words
            .refusal()
            .unwrap_or_else(|| match words.looked_up(lookup) {
                Ok(kind) => Said::kind(kind),
                Err(no) => no.at(0),
            })
    }

    fn looked_up(&self, lookup: Lookup) -> Found {
        match lookup {
            Lookup::Combine(code, left, right) => {
                if !(2..=7).contains(&code) {
                    return no(50, &[0]);
                }
                let (left, right) = (self.indexed(left)?, self.indexed(right)?);
                self.combine(code, left, right)
            }
            Lookup::Power(base, num, den) => {
                let Some(exponent) = exponent(i64::from(num), i64::from(den)) else {
                    return no(50, &[0]);
                };
                self.power(8, self.indexed(base)?, Some(exponent))
            }
            Lookup::Inexact(base) => self.power(9, self.indexed(base)?, None),
        }
    }

    fn indexed(&self, kind: u16) -> Found {
        let kind = usize::from(kind);
        if kind < self.count() {
            Ok(kind)
        } else {
            no(41, &[kind])
        }
    }

    fn combine(&self, code: u8, left: usize, right: usize) -> Found {
        if code < 4 {
            self.sum(code, left, right)
        } else {
            self.product(code, left, right)
        }
    }

    fn sum(&self, code: u8, left: usize, right: usize) -> Found {
        match (self.difference(left), self.difference(right)) {
            (Some(difference), Some(_)) => match code {
                2 => no(43, &[2, left, right]),
                _ if left == right => Ok(difference),
                _ => no(42, &[left, right]),
            },
            (Some(difference), None) if difference == right => Ok(left),
            (Some(difference), None) => no(42, &[difference, right]),
            (None, Some(_)) if code == 3 => no(43, &[3, left, right]),
            (None, Some(difference)) if difference == left => Ok(right),
            (None, Some(difference)) => no(42, &[difference, left]),
            (None, None) if left == right => Ok(left),
            (None, None) => no(42, &[left, right]),
        }
    }

    fn product(&self, code: u8, left: usize, right: usize) -> Found {
        for side in [left, right] {
            if !self.is_given(side) {
                return no(19, &[side]);
            }
        }
        for side in [left, right] {
            if self.is_point(side) {
                return no(23, &[left, usize::from(code), right, side]);
            }
        }
        let (a, b) = (self.grade(left), self.grade(right));
        let Some(grade) = grade_of(code, a, b) else {
            return no(24, &[left, right, a as usize, b as usize]);
        };
        if let Some(kind) = self
            .neutral(code, left, right)
            .or(self.rated(code, left, right))
        {
            return Ok(kind);
        }
        let sign = if code == 5 { -1 } else { 1 };
        let (first, second) = (self.dimensions(left), self.dimensions(right));
        let dimensions = std::array::from_fn(|base| {
            let ((a, b), (c, d)) = (first[base], second[base]);
            reduced(a * d + sign * c * b, b * d)
        });
        let fitting = self.fitting(&dimensions, grade);
        match fitting[..] {
            [] => no_kind(45, &dimensions, grade),
            [kind] => Ok(kind),
            _ => match self.row(code, left, right) {
                Some(kind) => Ok(kind),
                None => Err(No::Twins(44, fitting)),
            },
        }
    }

    fn neutral(&self, code: u8, left: usize, right: usize) -> Option<usize> {
        let one = Self::link(self.table[2])?;
        match code {
            4 if right == one => Some(left),
            4 if left == one => Some(right),
            5 if right == one => Some(left),
            5 if left == right => Some(one),
            _ => None,
        }
    }

    fn rated(&self, code: u8, left: usize, right: usize) -> Option<usize> {
        let duration = self.difference(Self::link(self.table[3])?)?;
        match code {
            4 if right == duration => Self::link(self.kind(left)[28]),
            4 if left == duration => Self::link(self.kind(right)[28]),
            5 if right == duration => Self::link(self.kind(left)[29]),
            _ => None,
        }
    }

    fn fitting(&self, dimensions: &Dimensions, grade: u32) -> Vec<usize> {
        (0..self.count())
            .filter(|&kind| {
                !self.is_point(kind)
                    && self.is_given(kind)
                    && self.grade(kind) == grade
                    && self.dimensions(kind) == *dimensions
            })
            .collect()
    }

    fn row(&self, code: u8, left: usize, right: usize) -> Option<usize> {
        let asked = [left as u32, u32::from(code) - 4, right as u32];
        let row = self.rows.chunks(4).find(|row| row[..3] == asked)?;
        Some(row[3] as usize)
    }

    /// An inexact exponent is none. `code` is that of the token.
    fn power(&self, code: u8, base: usize, exponent: Option<(i64, i64)>) -> Found {
        let Some((num, den)) = exponent.filter(|_| !self.is_point(base)) else {
            return no(43, &[usize::from(code), base, NONE as usize]);
        };
        if (num, den) == (1, 1) {
            return Ok(base);
        }
        if self.grade(base) != 0 {
            return no(46, &[self.grade(base) as usize]);
        }
        if !self.is_given(base) {
            return no(19, &[base]);
        }
        let mut dimensions = self.dimensions(base);
        for power in &mut dimensions {
            match crate::bytes::exponent(power.0 * num, power.1 * den) {
                Some(within) => *power = within,
                None => return no(28, &[base]),
            }
        }
        if let Some(one) = Self::link(self.table[2]) {
            if num == 0 || base == one {
                return Ok(one);
            }
        }
        let fitting = self.fitting(&dimensions, 0);
        match fitting[..] {
            [] => no_kind(47, &dimensions, 0),
            [kind] => Ok(kind),
            _ => Err(No::Twins(48, fitting)),
        }
    }

    pub fn formula(&self, bytes: &[u8]) -> Said {
        if let Some(refusal) = self.refusal() {
            return refusal;
        }
        if let Some(place) = malformed(bytes) {
            return Said::refused(50, place, &[place as i64]);
        }
        let mut terms = Vec::new();
        for (place, token) in tokens(bytes).into_iter().enumerate() {
            match self.step(token, &mut terms) {
                Ok(term) => terms.push(term),
                Err(no) => return no.at(place),
            }
        }
        match terms[0] {
            Some(kind) => Said::kind(kind),
            None => Said::number(),
        }
    }

    /// The term that a token leaves, nothing for a number; those it takes go.
    fn step(&self, token: Token, terms: &mut Vec<Option<usize>>) -> Result<Option<usize>, No> {
        let code = token.code;
        if code == 0 {
            return Ok(None);
        }
        if code == 1 {
            return self.indexed(token.kind as u16).map(Some);
        }
        let last = terms.pop().flatten();
        if (8..=10).contains(&code) {
            let Some(kind) = last else { return Ok(None) };
            return match code {
                8 => self.power(8, kind, exponent(token.num, token.den)),
                9 => self.power(9, kind, None),
                _ => self.scaled(10, kind),
            }
            .map(Some);
        }
        match (terms.pop().flatten(), last) {
            (None, None) => return Ok(None),
            (Some(left), Some(right)) if code == 11 => {
                if left == right {
                    Ok(left)
                } else {
                    no(42, &[left, right])
                }
            }
            (Some(left), Some(right)) => self.combine(code, left, right),
            (Some(kind), None) if code == 4 || code == 5 => self.scaled(code, kind),
            (None, Some(kind)) if code == 4 => self.scaled(4, kind),
            (None, Some(kind)) if code == 5 => self.power(5, kind, Some((-1, 1))),
            (Some(kind), None) | (None, Some(kind)) => no(49, &[usize::from(code), kind]),
        }
        .map(Some)
    }

    fn scaled(&self, code: u8, kind: usize) -> Found {
        if self.is_point(kind) {
            no(43, &[usize::from(code), kind, NONE as usize])
        } else {
            Ok(kind)
        }
    }
}

fn grade_of(code: u8, a: u32, b: u32) -> Option<u32> {
    let grade = match code {
        4 if a == 0 || b == 0 => a + b,
        5 if b == 0 => a,
        6 if a > 0 && b > 0 => a.abs_diff(b),
        7 if a > 0 && b > 0 => a + b,
        _ => return None,
    };
    (grade <= 3).then_some(grade)
}

fn is_link(word: u32, kinds: u32) -> bool {
    word < kinds || word == NONE
}

/// Which words are a table, by docs/TABLE.md; there are enough of them.
fn is_table(words: &[u32]) -> bool {
    let (kinds, rows) = (words[0], words[1]);
    kinds <= 240
        && rows <= 400
        && is_link(words[2], kinds)
        && is_link(words[3], kinds)
        && words[KINDS_AT..]
            .chunks(KIND_WORDS)
            .take(kinds as usize)
            .all(|kind| is_kind(kind, kinds))
        && are_rows(&words[ROWS_AT..][..4 * rows as usize], kinds)
}

fn is_kind(words: &[u32], kinds: u32) -> bool {
    let difference = if words[26] == POINT {
        words[27] < kinds
    } else {
        words[27] == NONE
    };
    words[24] <= 1
        && words[25] <= 3
        && words[26] <= 2
        && difference
        && is_link(words[28], kinds)
        && is_link(words[29], kinds)
        && (words[24] == 0
            || words[..24]
                .chunks(2)
                .all(|pair| is_declared(pair[0], pair[1])))
}

/// An exponent that a catalog can declare, in lowest terms.
fn is_declared(num: u32, den: u32) -> bool {
    let num = i64::from(num as i32);
    (-32_768..=32_767).contains(&num)
        && (1..=32_767).contains(&den)
        && reduced(num, i64::from(den)) == (num, i64::from(den))
}

fn are_rows(rows: &[u32], kinds: u32) -> bool {
    rows.len() % 4 == 0
        && rows
            .chunks(4)
            .all(|row| row[0] < kinds && row[1] <= 3 && row[2] < kinds && row[3] < kinds)
}
