//! Compilation: the registry told kind by kind and row by row, or the refusal
//! with its place.
use crate::answer::{derivation, graded, index, not_asked, product_code, Answer, Refusal, NO_KIND};
use crate::limits::written;
use bridgman_core::catalog::Catalog;
use bridgman_core::{
    AffineRole, CatalogError, DerivationError, Kind, ProductOp, RateFault, Registry,
};

/// The registry, or the refusal.
pub fn registry(catalog: &Catalog) -> Result<Registry, Answer> {
    Registry::compile(catalog.clone()).map_err(|error| refused(catalog, &error))
}

pub fn compile(catalog: &Catalog) -> (Answer, Option<Registry>) {
    match registry(catalog) {
        Ok(registry) => (Answer::Text(told(&registry, catalog)), Some(registry)),
        Err(answer) => (answer, None),
    }
}

fn role(kind: Kind<'_>) -> &'static str {
    match kind.role() {
        AffineRole::Linear => "linear",
        AffineRole::Point => "point",
        AffineRole::Difference => "difference",
    }
}

fn shown(kind: Option<Kind<'_>>) -> String {
    kind.map_or("-".into(), |kind| index(kind).to_string())
}

fn told_kind(kind: Kind<'_>) -> String {
    let difference = (kind.role() == AffineRole::Point).then(|| kind.difference());
    format!(
        " kind {} {} {} {} {} {}",
        role(kind),
        kind.dimensions().map_or("?".into(), written),
        u8::from(kind.grade()),
        shown(difference),
        shown(kind.rate_of()),
        shown(kind.rate()),
    )
}

/// A row in force: the pair it is for, what it gives, and the declared row
/// that put it there.
pub struct InForce {
    declared: usize,
    turned: bool,
    pub left: usize,
    /// 0 to 3, as in a record.
    pub operation: i64,
    pub right: usize,
    pub result: usize,
}

/// Every pair of kinds is asked for its row, so that nothing in force is
/// missed; they are told by declared row, the turned pair after the straight.
pub fn rows_in_force(registry: &Registry, catalog: &Catalog) -> Vec<InForce> {
    let mut rows = Vec::new();
    for left in registry.kinds() {
        for right in registry.kinds() {
            for op in [
                ProductOp::Mul,
                ProductOp::Div,
                ProductOp::Dot,
                ProductOp::Wedge,
            ] {
                rows.extend(row_in_force(catalog, left, op, right));
            }
        }
    }
    rows.sort_by_key(|row| (row.declared, row.turned));
    rows
}

fn row_in_force(
    catalog: &Catalog,
    left: Kind<'_>,
    op: ProductOp,
    right: Kind<'_>,
) -> Option<InForce> {
    let declared: usize = left.row_provenance(op, right).ok()??.parse().ok()?;
    let result = left.product(op, right).ok()?;
    Some(InForce {
        declared,
        turned: catalog.operations[declared].left != left.id(),
        left: index(left),
        operation: product_code(op) - 4,
        right: index(right),
        result: index(result),
    })
}

fn told_row(row: &InForce) -> String {
    format!(
        " row {} {} {} {} {}",
        row.left, row.operation, row.right, row.result, row.declared
    )
}

fn told(registry: &Registry, catalog: &Catalog) -> String {
    let kinds: String = registry.kinds().map(told_kind).collect();
    let rows = rows_in_force(registry, catalog);
    let count = rows.len();
    let rows: String = rows.iter().map(told_row).collect();
    format!(
        "compiled kinds {} rows {count} time {}{kinds}{rows}",
        registry.kinds().len(),
        shown(registry.time()),
    )
}

/// Where a fault lies.
#[derive(Clone, Copy)]
enum Place {
    Kind(usize),
    Row(usize),
    HeaderByte(usize),
}

impl Place {
    fn number(self) -> usize {
        match self {
            Self::Kind(place) | Self::Row(place) | Self::HeaderByte(place) => place,
        }
    }
    /// What refusal 12 returns: the record, 0 for a header id.
    fn record(self) -> usize {
        match self {
            Self::Kind(record) | Self::Row(record) => record,
            Self::HeaderByte(_) => 0,
        }
    }
}

/// The catalog grows by one declaration a step, in the order in which the Rust
/// looks at them: ids, differences, dimensionless, time, rates, rows.
fn steps(catalog: &Catalog) -> Vec<Place> {
    let kinds = catalog.kinds.len();
    let mut steps: Vec<Place> = (0..kinds).chain(0..kinds).map(Place::Kind).collect();
    steps.extend([Place::HeaderByte(12), Place::HeaderByte(44)]);
    steps.extend((0..kinds).map(Place::Kind));
    steps.extend((0..catalog.operations.len()).map(Place::Row));
    steps
}

/// The catalog after its first `taken` steps.
fn grown(catalog: &Catalog, taken: usize) -> Catalog {
    let kinds = catalog.kinds.len();
    let past = |start: usize| taken.saturating_sub(start);
    let mut part = catalog.clone();
    part.kinds.truncate(taken);
    for (place, kind) in part.kinds.iter_mut().enumerate() {
        if place >= past(kinds) {
            kind.difference_kind = None;
        }
        if place >= past(2 * kinds + 2) {
            kind.rate_of = None;
        }
    }
    if past(2 * kinds) == 0 {
        part.dimensionless = None;
    }
    if past(2 * kinds + 1) == 0 {
        part.time = None;
    }
    part.operations.truncate(past(3 * kinds + 2));
    part
}

/// The step that brings the fault in: without it the catalog compiles, with it
/// the Rust says just what it says of the whole.
fn faulty_step(catalog: &Catalog, error: &CatalogError) -> Option<Place> {
    let steps = steps(catalog);
    let fault = |taken: usize| Registry::compile(grown(catalog, taken)).err();
    let (mut good, mut bad) = (0, steps.len());
    while bad - good > 1 {
        let middle = good + (bad - good) / 2;
        if fault(middle).is_none() {
            good = middle;
        } else {
            bad = middle;
        }
    }
    (fault(good).is_none() && fault(bad).as_ref() == Some(error)).then(|| steps[bad - 1])
}

fn position(catalog: &Catalog, id: &str) -> i64 {
    catalog
        .kinds
        .iter()
        .position(|kind| kind.id == id)
        .map_or(NO_KIND, |place| place as i64)
}

/// Number and values of the refusal; `place` is found only for those that
/// return it.
fn numbered(
    catalog: &Catalog,
    error: &CatalogError,
    place: Option<Place>,
) -> Option<(u32, Vec<i64>)> {
    let kind = |id: &String| position(catalog, id);
    let record = || Some(place?.record() as i64);
    Some(match error {
        CatalogError::EmptyId { .. } => (10, vec![record()?]),
        CatalogError::Duplicate { .. } => (11, vec![record()?]),
        CatalogError::Derivation(DerivationError::Unknown { .. }) => (12, vec![record()?]),
        CatalogError::AffineDimensionMismatch { point, difference } => {
            (13, vec![kind(point), kind(difference)])
        }
        CatalogError::NestedAffineSpace { point, difference } => {
            (14, vec![kind(point), kind(difference)])
        }
        CatalogError::InvalidDimensionlessKind(id) => (15, vec![kind(id)]),
        CatalogError::InvalidTimeKind(id) => (16, vec![kind(id)]),
        CatalogError::InvalidRate { rate, of, fault } => match fault {
            RateFault::NoTimeKind => (17, vec![kind(rate), kind(of), NO_KIND]),
            RateFault::PointKind(point) => (18, vec![kind(rate), kind(of), kind(point)]),
            RateFault::Mismatch { dimensions, grade } => (20, graded(dimensions, *grade)?),
            RateFault::AlsoRateOf(existing) => (21, vec![kind(existing)]),
        },
        CatalogError::CommutativeQuotient { .. } => (22, vec![record()?]),
        CatalogError::Derivation(error) => derivation(error, |id| kind(id))?,
        CatalogError::InvalidOperationRule {
            dimensions, grade, ..
        } => (25, graded(dimensions, *grade)?),
        CatalogError::DerivedOperationRule { derived, .. } => (26, vec![kind(derived)]),
        CatalogError::ConflictingOperationRule { left, right, .. } => {
            (27, vec![kind(left), kind(right)])
        }
        _ => return None,
    })
}

fn refused(catalog: &Catalog, error: &CatalogError) -> Answer {
    let place = match error {
        // Growing step by step would leave out the difference of a later kind,
        // which is the fault itself; here the error names the kind.
        CatalogError::NestedAffineSpace { point, .. } => {
            Some(Place::Kind(position(catalog, point) as usize))
        }
        _ => faulty_step(catalog, error),
    };
    match numbered(catalog, error, place) {
        Some((number, values)) => Answer::Refused(Refusal {
            number,
            place: place.map(Place::number),
            values,
            twins: Vec::new(),
        }),
        None => not_asked("the refusal is not one of document 01"),
    }
}
