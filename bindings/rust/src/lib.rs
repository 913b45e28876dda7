//! The proved kind check, called from Rust.
//!
//! A [`Catalog`] owns what the library is lent: the compiled table, its rows in force and the list of twins. Every answer is the library's own, told
//! as an enum; a [`Refusal`] prints its cause in words, and [`report`] has what is printed for an answer. [`lent`] has the calls as they are, for
//! callers with buffers of their own.

pub mod lent;
mod refusal;
mod token;

pub use refusal::{Cause, Dimensions, Refusal};
pub use token::{Exponent, Op, Token};

const TABLE_WORDS: usize = 9296;
const ROWS_AT: usize = 7696;
const TWINS: usize = 240;
const OUT_WORDS: usize = 32;
const PART_WORDS: usize = 3;

/// An answer's words. They have room for every answer, so each call with them is true.
type Out = [u32; OUT_WORDS];
const NO_ANSWER: Out = [0; OUT_WORDS];

/// Where a part lies: 1 for the image and 0 for the word, its first byte, its length.
type Part = [usize; PART_WORDS];

/// What a formula is: a number or a kind, by its index.
#[derive(Clone, Copy, Debug, PartialEq, Eq)]
pub enum Term {
    Number,
    Kind(u16),
}

/// What a report prints for a formula's answer: a kind's id as it stands in the image, its padding left off, or the caller's own word for a number,
/// whole. Empty where the image meets one of the refusals 1 to 4, or the kind is past the end.
pub fn report<'a>(image: &'a [u8], word: &'a [u8], term: Term) -> &'a [u8] {
    let mut part: Part = [0; PART_WORDS];
    match term {
        Term::Number => lent::report(image, word, false, 0, &mut part),
        Term::Kind(kind) => lent::report(image, word, true, kind, &mut part),
    };
    let [lender, start, length] = part;
    let whole = if lender == 1 { image } else { word };
    &whole[start..start + length]
}

/// A compiled catalog.
#[derive(Clone, Debug)]
pub struct Catalog {
    table: Vec<u32>,
    rows: Vec<u32>,
    twins: Vec<u16>,
}

impl Catalog {
    /// Compiles a catalog image.
    pub fn compile(image: &[u8]) -> Result<Catalog, Refusal> {
        let mut table = vec![0; TABLE_WORDS];
        let twins = vec![0; TWINS];
        let mut out = NO_ANSWER;
        lent::compile(image, &mut table, &mut out);
        match told(&out, &twins) {
            Some(refusal) => Err(refusal),
            None => {
                let end = ROWS_AT + 4 * table[1] as usize;
                let rows = table[ROWS_AT..end].to_vec();
                Ok(Catalog { table, rows, twins })
            }
        }
    }

    /// How many kinds there are.
    pub fn kinds(&self) -> u16 {
        self.table[0] as u16
    }

    /// The kind of left and right combined.
    pub fn combine(&mut self, left: u16, op: Op, right: u16) -> Result<u16, Refusal> {
        let mut out = NO_ANSWER;
        lent::combine(&self.table, &self.rows, &mut self.twins, op.code(), left, right, &mut out);
        self.kind(&out)
    }

    /// The kind of a power.
    pub fn power(&mut self, base: u16, exponent: Exponent) -> Result<u16, Refusal> {
        let mut out = NO_ANSWER;
        match exponent {
            Exponent::Exact(num, den) => lent::power(&self.table, &mut self.twins, base, num, den, &mut out),
            Exponent::Inexact => lent::power_inexact(&self.table, &mut self.twins, base, &mut out),
        };
        self.kind(&out)
    }

    /// What a formula is, from its tokens.
    pub fn formula(&mut self, tokens: &[Token]) -> Result<Term, Refusal> {
        let bytes: Vec<u8> = tokens.iter().flat_map(|token| token.bytes()).collect();
        self.formula_bytes(&bytes)
    }

    /// What a formula is, from the bytes of its tokens, 12 each.
    pub fn formula_bytes(&mut self, bytes: &[u8]) -> Result<Term, Refusal> {
        let mut out = NO_ANSWER;
        lent::formula(&self.table, &self.rows, &mut self.twins, bytes, &mut out);
        match told(&out, &self.twins) {
            Some(refusal) => Err(refusal),
            None if out[0] == 1 => Ok(Term::Kind(out[1] as u16)),
            None => Ok(Term::Number),
        }
    }

    fn kind(&self, out: &Out) -> Result<u16, Refusal> {
        match told(out, &self.twins) {
            Some(refusal) => Err(refusal),
            None => Ok(out[1] as u16),
        }
    }
}

/// The refusal of an answer, if it is one.
fn told(out: &Out, twins: &[u16]) -> Option<Refusal> {
    (out[0] == 2).then(|| Refusal { number: out[1], place: out[2], cause: Cause::of(out, twins) })
}
