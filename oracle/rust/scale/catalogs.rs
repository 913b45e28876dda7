//! Random catalogs, most of which compile: points and differences, rates,
//! unresolved kinds, grades, twins, and rows that choose among twins.
use crate::random::Random;
use crate::records::{Catalog, Exponents, Kind, Row, MOST_KINDS, ONE};
use bridgman_core::{ProductOp, QuantityError, Registry};
use oracle::answer::index;

pub const DIV: u8 = 1;
const LETTERS: &[u8] = b"abcdefghijklmnopqrstuvwxyz";
const ODD: &[u8] = b"!\"#$%&'()*+,-./0:;<=>?@A[\\]^_`a{|}~";
const SMALL: [(i32, i32); 11] = [
    (-3, 1),
    (-2, 1),
    (-1, 1),
    (1, 1),
    (1, 1),
    (2, 1),
    (2, 1),
    (3, 1),
    (1, 2),
    (-1, 2),
    (2, 3),
];
const ENDS: [(i32, i32); 5] = [
    (32767, 1),
    (-32768, 1),
    (1, 32767),
    (-32768, 32767),
    (32766, 32767),
];
const OPERATIONS: [ProductOp; 4] = [
    ProductOp::Mul,
    ProductOp::Div,
    ProductOp::Dot,
    ProductOp::Wedge,
];

fn letters(random: &mut Random, alphabet: &[u8], count: usize) -> String {
    (0..count)
        .map(|_| char::from(*random.pick(alphabet)))
        .collect()
}

/// An id that no kind has: mostly short, some odd, some of 32 bytes that
/// differ at their end only.
pub fn fresh_id(random: &mut Random, kinds: &[Kind]) -> String {
    loop {
        let id = match random.below(100) {
            0..=69 => {
                let length = random.between(1, 5);
                letters(random, LETTERS, length)
            }
            70..=84 => {
                let length = random.between(1, 4);
                letters(random, ODD, length)
            }
            85..=94 => "k".repeat(random.between(1, 4)) + &letters(random, LETTERS, 1),
            _ => "long".repeat(7) + &letters(random, LETTERS, 4),
        };
        if kinds.iter().all(|kind| kind.id != id) {
            return id;
        }
    }
}

/// The same fraction, now and then not in lowest terms.
fn unreduced(random: &mut Random, (numerator, denominator): (i32, i32)) -> (i32, i32) {
    let factor = *random.pick(&[1, 1, 1, 1, 2, 3, 7]);
    if (numerator * factor).abs() > 32767 || denominator * factor > 32767 {
        (numerator, denominator)
    } else {
        (numerator * factor, denominator * factor)
    }
}

fn random_exponents(random: &mut Random, bases: &[usize]) -> Exponents {
    let mut exponents = ONE;
    for &base in bases {
        if random.percent(55) {
            let pool: &[(i32, i32)] = if random.percent(2) { &ENDS } else { &SMALL };
            exponents[base] = *random.pick(pool);
        }
    }
    exponents
}

/// Exponents less those of the divisor, if they fit a record.
fn over(exponents: &Exponents, divisor: &Exponents) -> Option<Exponents> {
    let mut result = ONE;
    for ((quotient, &(a, b)), &(c, d)) in result.iter_mut().zip(exponents).zip(divisor) {
        let (a, b, c, d) = (i64::from(a), i64::from(b), i64::from(c), i64::from(d));
        let (top, bottom) = (a * d - c * b, b * d);
        if top != 0 {
            *quotient = (
                i32::from(i16::try_from(top).ok()?),
                i32::from(i16::try_from(bottom).ok()?),
            );
        }
    }
    Some(result)
}

/// The kinds of one catalog, before they are shuffled.
struct Builder<'a> {
    random: &'a mut Random,
    bases: Vec<usize>,
    pool: Vec<Exponents>,
    catalog: Catalog,
    duration: Option<usize>,
}

impl Builder<'_> {
    fn kind(&mut self) -> Kind {
        self.random.pick(&self.catalog.kinds).clone()
    }

    fn add(&mut self, exponents: Option<Exponents>, grade: u8, difference: &str, rate_of: &str) {
        let exponents =
            exponents.map(|given| given.map(|exponent| unreduced(self.random, exponent)));
        self.catalog.kinds.push(Kind {
            id: fresh_id(self.random, &self.catalog.kinds),
            difference: difference.into(),
            rate_of: rate_of.into(),
            exponents,
            grade,
        });
    }

    fn last_id(&self) -> String {
        self.catalog
            .kinds
            .last()
            .map_or(String::new(), |kind| kind.id.clone())
    }

    fn dimensionless(&mut self) {
        if self.random.percent(75) {
            let grade = self.random.percent(5).into();
            self.add(Some(ONE), grade, "", "");
            self.catalog.dimensionless = self.last_id();
        }
    }

    fn time(&mut self) {
        if self.random.percent(80) {
            let mut exponents = ONE;
            exponents[*self.random.pick(&self.bases)] = (1, 1);
            let exponents = (!self.random.percent(4)).then_some(exponents);
            let graded = self.random.percent(4);
            let grade = if graded {
                self.random.between(1, 3) as u8
            } else {
                0
            };
            self.duration = Some(self.catalog.kinds.len());
            self.add(exponents, grade, "", "");
            let duration = self.last_id();
            self.add(exponents, 0, &duration, "");
            self.catalog.time = self.last_id();
        }
    }

    fn linear(&mut self) {
        let grade = *self.random.pick(&[0, 0, 0, 0, 1, 1, 2, 3]);
        let exponents = *self.random.pick(&self.pool);
        let given = !self.random.percent(6);
        self.add(given.then_some(exponents), grade, "", "");
    }

    /// A kind that fits a product of others, so that products are found.
    fn product_of_two(&mut self) {
        let (left, right) = (self.kind(), self.kind());
        let (Some(first), Some(mut second)) = (left.exponents, right.exponents) else {
            return;
        };
        if self.random.percent(50) {
            second = second.map(|(numerator, denominator)| (-numerator, denominator));
        }
        if let Some(exponents) = over(&first, &second) {
            let grade = *self.random.pick(&[0, 0, left.grade, right.grade]);
            self.add(Some(exponents), grade, "", "");
        }
    }

    fn twin(&mut self) {
        let kind = self.kind();
        self.add(kind.exponents, kind.grade, "", "");
    }

    fn point(&mut self) {
        let target = self.kind();
        if target.is_point() || target.id == self.catalog.dimensionless {
            return;
        }
        let same = self.random.percent(85);
        let grade = if same {
            target.grade
        } else {
            self.random.below(4) as u8
        };
        self.add(target.exponents, grade, &target.id, "");
    }

    fn rate(&mut self) {
        let target = self.kind();
        let duration = self
            .duration
            .and_then(|place| self.catalog.kinds[place].exponents);
        let (Some(duration), Some(exponents)) = (duration, target.exponents) else {
            return;
        };
        let rated = (self.catalog.kinds.iter()).any(|kind| kind.rate_of == target.id);
        if let (false, false, Some(exponents)) =
            (target.is_point(), rated, over(&exponents, &duration))
        {
            self.add(Some(exponents), target.grade, "", &target.id);
        }
    }

    fn build(mut self, size: usize) -> Catalog {
        self.dimensionless();
        self.time();
        self.linear();
        for _ in 0..8 * size {
            if self.catalog.kinds.len() >= size {
                break;
            }
            match self.random.below(8) {
                0 | 1 => self.linear(),
                2 | 3 => self.product_of_two(),
                4 | 5 => self.twin(),
                6 => self.point(),
                _ => self.rate(),
            }
        }
        self.catalog.kinds.truncate(MOST_KINDS);
        self.random.shuffle(&mut self.catalog.kinds);
        self.catalog
    }
}

fn random_kinds(random: &mut Random, size: usize) -> Catalog {
    let mut bases: Vec<usize> = (0..12).collect();
    random.shuffle(&mut bases);
    bases.truncate(*random.pick(&[1, 1, 2, 2, 3, 3, 4, 12]));
    let pool = (0..(size / 3).max(2))
        .map(|_| random_exponents(random, &bases))
        .collect();
    let builder = Builder {
        random,
        bases,
        pool,
        catalog: Catalog::default(),
        duration: None,
    };
    builder.build(size)
}

/// Products that the Rust leaves to a row, with the kinds that fit.
fn twin_products(
    random: &mut Random,
    registry: &Registry,
    most: usize,
) -> Vec<(usize, usize, usize, Vec<usize>)> {
    let kinds: Vec<_> = registry.kinds().collect();
    let products = 4 * kinds.len() * kinds.len();
    let asked: Vec<usize> = if products > most {
        (0..most).map(|_| random.below(products)).collect()
    } else {
        (0..products).collect()
    };
    let mut found = Vec::new();
    for product in asked {
        let (operation, pair) = (product % 4, product / 4);
        let (left, right) = (pair % kinds.len(), pair / kinds.len());
        if let Err(QuantityError::UnresolvedTwin { twins, .. }) =
            kinds[left].product(OPERATIONS[operation], kinds[right])
        {
            let twins = twins.into_iter().map(index).collect();
            found.push((left, operation, right, twins));
        }
    }
    found
}

/// Rows that choose among twins; no pair twice.
fn add_rows(random: &mut Random, catalog: &mut Catalog, count: usize) {
    let Some(registry) = oracle::image::read(&catalog.image())
        .ok()
        .and_then(|read| Registry::compile(read).ok())
    else {
        return;
    };
    let mut choices = twin_products(random, &registry, 4000);
    random.shuffle(&mut choices);
    let mut used = Vec::new();
    for (left, operation, right, twins) in choices {
        if catalog.rows.len() >= count {
            return;
        }
        let commutative = operation != usize::from(DIV) && random.percent(50);
        let turned = (right, operation, left);
        if used.contains(&(left, operation, right)) || (commutative && used.contains(&turned)) {
            continue;
        }
        used.push((left, operation, right));
        if commutative {
            used.push(turned);
        }
        let id = |place: usize| catalog.kinds[place].id.clone();
        let row = Row {
            left: id(left),
            right: id(right),
            result: id(*random.pick(&twins)),
            operation: operation as u8,
            commutative,
        };
        catalog.rows.push(row);
    }
}

/// A catalog of about so many kinds, with up to so many rows.
pub fn random_catalog(random: &mut Random, size: usize, rows: usize) -> Catalog {
    let mut catalog = random_kinds(random, size);
    add_rows(random, &mut catalog, rows);
    catalog
}

/// 240 kinds and 200 commutative rows, of which 400 are in force: as much as a
/// table has room for.
pub fn full_catalog(random: &mut Random) -> Catalog {
    let mut small = ONE;
    let mut double = ONE;
    let base = random.below(12);
    small[base] = (1, 1);
    double[base] = (2, 1);
    let named = |id: String, exponents| Kind {
        id,
        exponents: Some(exponents),
        ..Kind::default()
    };
    let bores = (0..200).map(|place| named(format!("bore{place}"), small));
    let areas = (0..40).map(|place| named(format!("area{place}"), double));
    let kinds: Vec<Kind> = bores.chain(areas).collect();
    let rows = (0..200)
        .map(|place| Row {
            left: kinds[place].id.clone(),
            right: kinds[(place + 1) % 200].id.clone(),
            result: kinds[200 + random.below(40)].id.clone(),
            operation: 0,
            commutative: true,
        })
        .collect();
    let mut catalog = Catalog {
        kinds,
        rows,
        ..Catalog::default()
    };
    random.shuffle(&mut catalog.kinds);
    catalog
}
