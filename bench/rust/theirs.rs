//! The unchanged Rust. Kinds, exponents and a formula's steps are at hand as
//! its own values before anything is measured.
use crate::case::{Case, Lookup};
use crate::{lean, Measured};
use bridgman_core::catalog::Catalog;
use bridgman_core::{Exponent, Kind, Op, ProductOp, QuantityError, Registry, Term};
use oracle::answer::{of_kind, of_term, op_of_code, Answer};
use oracle::{image, limits};
use std::cell::RefCell;
use std::hint::black_box;
use std::rc::Rc;

const WHOSE: &str = "Rust";

pub struct Theirs {
    catalog: Catalog,
    registry: Registry,
}

/// A token as a step over terms.
enum Step<'r> {
    Leaf(Term<'r>),
    Combine(Op),
    Power(Exponent),
    Absolute,
    Compare,
}

/// A lookup over the Rust's own values.
enum Asked<'r> {
    Product(Kind<'r>, ProductOp, Kind<'r>),
    Power(Kind<'r>, Exponent),
}

impl<'r> Asked<'r> {
    fn answer(&self) -> Result<Kind<'r>, QuantityError<'r>> {
        match self {
            Self::Product(left, op, right) => left.product(*op, *right),
            Self::Power(base, exponent) => base.power(exponent),
        }
    }
}

fn number(answer: Answer) -> i64 {
    match answer {
        Answer::Kind(index) => index as i64,
        Answer::Refused(refusal) => -i64::from(refusal.number),
        _ => i64::MAX,
    }
}

impl Theirs {
    pub fn new(case: &Case) -> Self {
        let catalog = image::read(&case.image).expect("a sound image");
        let lean = Registry::compile(lean::catalog(&case.image));
        assert!(lean.is_ok(), "the lean reading compiles too");
        let registry = Registry::compile(catalog.clone()).expect("a catalog that compiles");
        Self { catalog, registry }
    }

    fn kind(&self, place: i64) -> Kind<'_> {
        let kind = self.registry.kinds().nth(place as usize);
        kind.expect("a kind below the count")
    }

    fn asked(&self, is_power: bool, [a, b, c, _]: Lookup) -> Asked<'_> {
        if is_power {
            let exponent = limits::exponent(b, c).expect("within the limits");
            return Asked::Power(self.kind(a), Exponent::Exact(exponent));
        }
        let op = op_of_code(b).and_then(Op::product);
        Asked::Product(self.kind(a), op.expect("a product's code"), self.kind(c))
    }

    pub fn look_up(&self, is_power: bool, lookup: Lookup) -> i64 {
        number(of_kind(self.asked(is_power, lookup).answer(), lookup[1]))
    }

    fn steps(&self, formula: &[u8]) -> Vec<Step<'_>> {
        let step = |token: &[u8]| {
            let numerator = i32::from_le_bytes([token[4], token[5], token[6], token[7]]);
            let denominator = u32::from_le_bytes([token[8], token[9], token[10], token[11]]);
            match token[0] {
                0 => Step::Leaf(Term::Number),
                1 => {
                    let place = u16::from_le_bytes([token[2], token[3]]);
                    Step::Leaf(Term::Kind(self.kind(place.into())))
                }
                8 => {
                    let exponent = limits::exponent(numerator.into(), denominator.into());
                    Step::Power(Exponent::Exact(exponent.expect("within the limits")))
                }
                9 => Step::Power(Exponent::Inexact),
                10 => Step::Absolute,
                11 => Step::Compare,
                code => Step::Combine(op_of_code(code.into()).expect("a known code")),
            }
        };
        formula.chunks(12).map(step).collect()
    }

    pub fn run(&self, formula: &[u8]) -> i64 {
        number(of_term(run(&self.steps(formula)), 0, 0))
    }

    pub fn measured<'a>(&'a self, case: &'a Case) -> Vec<Measured<'a>> {
        let mut all = vec![self.compiled_alone(), from_image(case)];
        for (what, lookups) in case.classes() {
            let is_power = what.starts_with("power");
            let asked: Vec<Asked<'_>> = (lookups.iter())
                .map(|&lookup| self.asked(is_power, lookup))
                .collect();
            all.push(Measured::new(what, WHOSE, asked.len(), move || {
                for asked in &asked {
                    let _ = black_box(black_box(asked).answer());
                }
            }));
        }
        for (name, formula) in &case.formulas {
            let steps = self.steps(formula);
            all.push(Measured::new(name, WHOSE, 1, move || {
                let _ = black_box(run(black_box(&steps)));
            }));
        }
        all
    }

    /// `Registry::compile` by itself: the catalog is at hand, the registry is
    /// dropped afterwards.
    fn compiled_alone(&self) -> Measured<'_> {
        let waiting = Rc::new(RefCell::new((None, None)));
        let taken = waiting.clone();
        let mut measured = Measured::new("Registry::compile alone", WHOSE, 1, move || {
            let (catalog, registry) = &mut *taken.borrow_mut();
            let catalog = catalog.take().expect("made ready");
            *registry = Registry::compile(catalog).ok();
        });
        measured.ready = Box::new(move || {
            *waiting.borrow_mut() = (Some(self.catalog.clone()), None);
        });
        measured
    }
}

/// The image read, compiled, and the registry dropped.
fn from_image(case: &Case) -> Measured<'_> {
    Measured::new("compile", WHOSE, 1, move || {
        let catalog = lean::catalog(black_box(&case.image));
        drop(black_box(Registry::compile(catalog)));
    })
}

fn run<'r>(steps: &[Step<'r>]) -> Result<Term<'r>, QuantityError<'r>> {
    let mut terms: Vec<Term<'r>> = Vec::with_capacity(32);
    let pop = |terms: &mut Vec<Term<'r>>| terms.pop().expect("a balanced formula");
    for step in steps {
        let term = match step {
            Step::Leaf(term) => *term,
            Step::Power(exponent) => pop(&mut terms).power(exponent)?,
            Step::Absolute => pop(&mut terms).absolute()?,
            Step::Combine(op) => {
                let right = pop(&mut terms);
                pop(&mut terms).combine(*op, right)?
            }
            Step::Compare => {
                let right = pop(&mut terms);
                pop(&mut terms).same(right)?
            }
        };
        terms.push(term);
    }
    Ok(pop(&mut terms))
}
