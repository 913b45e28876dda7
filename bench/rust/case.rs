//! A catalog's image with its lookups and formulas, read from files.
use crate::ours::Ours;
use crate::theirs::Theirs;
use std::io::{Error, ErrorKind};
use std::path::Path;

/// A lookup in the words of a `.pairs` or `.powers` file: left, code, right or
/// base, numerator, denominator; then the kind that answers it, or a refusal's
/// number below zero.
pub type Lookup = [i64; 4];

pub struct Case {
    pub image: Vec<u8>,
    pub pairs: Vec<Lookup>,
    pub powers: Vec<Lookup>,
    /// By name.
    pub formulas: Vec<(String, Vec<u8>)>,
}

/// So many lookups of a class make one measure.
const MOST: usize = 100;

impl Case {
    pub fn read(folder: &str, name: &str) -> Result<Self, Error> {
        let path = |ending: &str| Path::new(folder).join(format!("{name}{ending}"));
        let mut formulas = Vec::new();
        for entry in std::fs::read_dir(folder)? {
            let file = entry?.file_name().into_string().unwrap_or_default();
            let formula = file
                .strip_prefix(name)
                .and_then(|rest| rest.strip_prefix('-'))
                .and_then(|rest| rest.strip_suffix(".formula"));
            if let Some(formula) = formula {
                let bytes = std::fs::read(path(&format!("-{formula}.formula")))?;
                formulas.push((format!("formula {formula}"), bytes));
            }
        }
        formulas.sort();
        Ok(Self {
            image: std::fs::read(path(".image"))?,
            pairs: lookups(&path(".pairs"))?,
            powers: lookups(&path(".powers"))?,
            formulas,
        })
    }

    /// Products that a kind answers, products refused 44, powers that a kind
    /// answers, the exponents zero and one left out; named as in the table.
    pub fn classes(&self) -> Vec<(&'static str, Vec<Lookup>)> {
        let some = |lookups: &[Lookup], test: &dyn Fn(&Lookup) -> bool| {
            let fitting = lookups.iter().filter(|lookup| test(lookup));
            fitting.take(MOST).copied().collect()
        };
        let product = |lookup: &Lookup| lookup[1] >= 4;
        let whole = |lookup: &Lookup| lookup[1] == 0 || lookup[1] == lookup[2];
        vec![
            (
                "product answered by a kind",
                some(&self.pairs, &|lookup| product(lookup) && lookup[3] >= 0),
            ),
            (
                "product refused 44",
                some(&self.pairs, &|lookup| product(lookup) && lookup[3] == -44),
            ),
            (
                "power answered",
                some(&self.powers, &|lookup| !whole(lookup) && lookup[3] >= 0),
            ),
        ]
    }

    /// What is measured must be one and the same work: the first lookup or
    /// formula that the two answer differently, or otherwise than the file says.
    pub fn first_unlike(&self, theirs: &Theirs) -> Option<String> {
        let mut ours = Ours::new(self);
        for (what, lookups) in self.classes() {
            let is_power = what.starts_with("power");
            for lookup in lookups {
                let answers = [
                    ours.look_up(is_power, lookup),
                    theirs.look_up(is_power, lookup),
                ];
                if answers != [lookup[3]; 2] {
                    return Some(format!("{lookup:?} {answers:?}"));
                }
            }
        }
        for (name, formula) in &self.formulas {
            let answers = [ours.run(formula), theirs.run(formula)];
            if answers[0] != answers[1] {
                return Some(format!("{name} {answers:?}"));
            }
        }
        None
    }
}

/// Nothing where there is no such file.
fn lookups(path: &Path) -> Result<Vec<Lookup>, Error> {
    if !path.exists() {
        return Ok(Vec::new());
    }
    let wrong = || Error::new(ErrorKind::InvalidData, "a line is not four numbers");
    std::fs::read_to_string(path)?
        .lines()
        .map(|line| {
            let numbers: Option<Vec<i64>> = line.split(' ').map(|word| word.parse().ok()).collect();
            numbers
                .and_then(|four| four.try_into().ok())
                .ok_or_else(wrong)
        })
        .collect()
}
