//! The check, through the bindings: each call tests the words that it is lent.
use crate::case::{Case, Lookup};
use crate::Measured;
use kind_check::lent;
use std::hint::black_box;

const TABLE_WORDS: usize = 9296;
const ROWS_AT: usize = 7696;
const WHOSE: &str = "ours";

pub struct Ours {
    table: Vec<u32>,
    rows: Vec<u32>,
    twins: Vec<u16>,
    out: [u32; 32],
}

impl Ours {
    pub fn new(case: &Case) -> Self {
        let mut table = vec![0; TABLE_WORDS];
        let mut out = [0; 32];
        lent::compile(&case.image, &mut table, &mut out);
        assert_eq!(out[0], 3, "the catalog compiles");
        let rows = table[ROWS_AT..][..4 * table[1] as usize].to_vec();
        Self {
            table,
            rows,
            twins: vec![0; 240],
            out,
        }
    }

    /// The kind, or the refusal's number below zero.
    fn answer(&self) -> i64 {
        match self.out[0] {
            1 => self.out[1].into(),
            2 => -i64::from(self.out[1]),
            _ => i64::MAX,
        }
    }

    pub fn look_up(&mut self, is_power: bool, [a, b, c, _]: Lookup) -> i64 {
        let (table, twins, out) = (&self.table, &mut self.twins, &mut self.out);
        if is_power {
            lent::power(table, twins, a as u16, b as i32, c as u32, out);
        } else {
            lent::combine(table, &self.rows, twins, b as u8, a as u16, c as u16, out);
        }
        self.answer()
    }

    pub fn run(&mut self, formula: &[u8]) -> i64 {
        let (twins, out) = (&mut self.twins, &mut self.out);
        lent::formula(&self.table, &self.rows, twins, formula, out);
        self.answer()
    }
}

pub fn measured(case: &Case) -> Vec<Measured<'_>> {
    let mut all = Vec::new();
    let mut table = vec![0; TABLE_WORDS];
    let mut out = [0; 32];
    all.push(Measured::new("compile", WHOSE, 1, move || {
        black_box(lent::compile(black_box(&case.image), &mut table, &mut out));
    }));
    for (what, lookups) in case.classes() {
        let is_power = what.starts_with("power");
        let mut ours = Ours::new(case);
        all.push(Measured::new(what, WHOSE, lookups.len(), move || {
            for &lookup in &lookups {
                black_box(ours.look_up(is_power, black_box(lookup)));
            }
        }));
    }
    all.push(in_formulas(case, ONE_TOKEN, vec![token(1, 0, 0, 0)]));
    for (what, lookups) in case.classes() {
        let is_power = what.starts_with("power");
        let formulas = (lookups.iter())
            .map(|&lookup| as_formula(is_power, lookup))
            .collect();
        all.push(in_formulas(case, format!("{what}, as a formula"), formulas));
    }
    for (name, formula) in &case.formulas {
        let mut ours = Ours::new(case);
        all.push(Measured::new(name, WHOSE, 1, move || {
            black_box(ours.run(black_box(formula)));
        }));
    }
    all
}

/// What a formula costs that has no step: the tests of what is lent, and one
/// leaf.
const ONE_TOKEN: &str = "formula of one token";

fn in_formulas<'a>(case: &Case, what: impl Into<String>, formulas: Vec<Vec<u8>>) -> Measured<'a> {
    let mut ours = Ours::new(case);
    Measured::new(what, WHOSE, formulas.len(), move || {
        for formula in &formulas {
            black_box(ours.run(black_box(formula)));
        }
    })
}

/// The tokens of one lookup.
fn as_formula(is_power: bool, [a, b, c, _]: Lookup) -> Vec<u8> {
    let (left, right) = (token(1, a, 0, 0), token(1, c, 0, 0));
    if is_power {
        [left, token(8, 0, b, c)].concat()
    } else {
        [left, right, token(b, 0, 0, 0)].concat()
    }
}

fn token(code: i64, kind: i64, num: i64, den: i64) -> Vec<u8> {
    let mut bytes = vec![code as u8, 0];
    bytes.extend((kind as u16).to_le_bytes());
    bytes.extend((num as i32).to_le_bytes());
    bytes.extend((den as u32).to_le_bytes());
    bytes
}
