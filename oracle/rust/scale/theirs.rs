//! What the Rust makes of an image, a lookup or a formula, in the words that
//! ours must write.
use crate::words::{Lookup, Words, KINDS_AT, KIND_WORDS, NONE, ROWS_AT, TABLE_WORDS};
use bridgman_core::catalog::Catalog;
use bridgman_core::{AffineRole, Exponent, Kind, Registry};
use oracle::answer::{code_of, index, of_kind, op_of_code, Answer};
use oracle::{compiled, limits};

/// A compiled catalog: the words that are written for it, and the Rust's
/// registries with its rows and without.
pub struct Over {
    pub image: Vec<u8>,
    pub table: Vec<u32>,
    pub registry: Registry,
    pub rowless: Registry,
    /// The kinds that products are made of: resolved, no points.
    pub plain: Vec<u16>,
}

impl Over {
    /// The catalog compiled by the Rust, or its refusal.
    pub fn compile(image: &[u8], catalog: Catalog) -> Result<Self, Answer> {
        let registry = compiled::registry(&catalog)?;
        let table = table_words(&catalog, &registry);
        let plain = (0..)
            .zip(registry.kinds())
            .filter(|(_, kind)| kind.role() != AffineRole::Point && kind.dimensions().is_ok())
            .map(|(place, _)| place)
            .collect();
        let mut rowless = catalog;
        rowless.operations.clear();
        let rowless = Registry::compile(rowless).expect("rows are looked at last");
        Ok(Self {
            image: image.to_vec(),
            table,
            registry,
            rowless,
            plain,
        })
    }

    pub fn kinds(&self) -> usize {
        self.registry.kinds().len()
    }

    pub fn rows(&self) -> &[u32] {
        &self.table[ROWS_AT..][..4 * self.table[1] as usize]
    }

    /// What is lent to a lookup, and the Rust that answers it: over no rows at
    /// all that is the one compiled without any.
    pub fn lent(&self, with_rows: bool, twins: usize) -> (Words<'_>, &Registry) {
        let (rows, registry) = if with_rows {
            (self.rows(), &self.registry)
        } else {
            (&[][..], &self.rowless)
        };
        let table = &self.table;
        (Words { table, rows, twins }, registry)
    }
}

/// docs/TABLE.md's layout of what the Rust compiled. The registry doesn't tell
/// its dimensionless kind; that is the declared one.
fn table_words(catalog: &Catalog, registry: &Registry) -> Vec<u32> {
    let kinds: Vec<Kind<'_>> = registry.kinds().collect();
    let rows = compiled::rows_in_force(registry, catalog);
    let one = (catalog.dimensionless.as_ref())
        .and_then(|id| kinds.iter().position(|kind| kind.id() == id));
    let mut words = vec![0; TABLE_WORDS];
    words[0] = kinds.len() as u32;
    words[1] = rows.len() as u32;
    words[2] = one.map_or(NONE, |kind| kind as u32);
    words[3] = link(registry.time());
    for (place, &kind) in words[KINDS_AT..].chunks_mut(KIND_WORDS).zip(&kinds) {
        put_kind(place, kind);
    }
    for (place, row) in words[ROWS_AT..].chunks_mut(4).zip(&rows) {
        let row = [row.left, row.operation as usize, row.right, row.result];
        place.copy_from_slice(&row.map(|word| word as u32));
    }
    words
}

fn link(kind: Option<Kind<'_>>) -> u32 {
    kind.map_or(NONE, |kind| index(kind) as u32)
}

fn put_kind(words: &mut [u32], kind: Kind<'_>) {
    let given = kind.dimensions().ok();
    let exponents = match given {
        Some(dimensions) => limits::flattened(dimensions).expect("declared exponents are small"),
        None => [0, 1].repeat(limits::BASES),
    };
    for (word, exponent) in words.iter_mut().zip(exponents) {
        *word = exponent as u32;
    }
    let role = kind.role();
    words[24] = given.is_some().into();
    words[25] = kind.grade().index().into();
    words[26] = match role {
        AffineRole::Linear => 0,
        AffineRole::Point => 1,
        AffineRole::Difference => 2,
    };
    words[27] = link((role == AffineRole::Point).then(|| kind.difference()));
    words[28] = link(kind.rate_of());
    words[29] = link(kind.rate());
}

/// A lookup that the Rust can be asked.
pub fn look_up(registry: &Registry, lookup: Lookup) -> Answer {
    let kind = |place: u16| registry.kinds().nth(place.into());
    let power = |base: u16, exponent: Exponent| {
        let base = kind(base).expect("a kind below the count");
        of_kind(base.power(&exponent), code_of(&exponent))
    };
    match lookup {
        Lookup::Combine(code, left, right) => {
            let left = kind(left).expect("a kind below the count");
            let right = kind(right).expect("a kind below the count");
            let op = op_of_code(code.into()).expect("an operation's code");
            of_kind(left.combine(op, right), code.into())
        }
        Lookup::Power(base, num, den) => {
            let exponent = limits::exponent(num.into(), den.into());
            power(base, Exponent::Exact(exponent.expect("within the limits")))
        }
        Lookup::Inexact(base) => power(base, Exponent::Inexact),
    }
}
