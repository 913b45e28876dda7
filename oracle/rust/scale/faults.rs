//! Faults put into a catalog, one function for each refusal from 10 to 27.
//! What the Rust then finds is asked of it: with several faults in one catalog,
//! which of them comes first is part of the answer.
use crate::catalogs::{fresh_id, DIV};
use crate::random::Random;
use crate::records::{Catalog, Exponents, Kind, Row, MOST_KINDS, MOST_ROWS, ONE};

pub const FIRST: usize = 10;
pub const LAST: usize = 27;

/// The catalog with the fault of that number, and sometimes with others.
pub fn with_fault(random: &mut Random, catalog: &Catalog, number: usize) -> Catalog {
    let mut changed = catalog.clone();
    put_fault(random, &mut changed, number);
    for _ in 0..*random.pick(&[0, 0, 0, 1, 1, 2]) {
        let other = random.between(FIRST, LAST);
        put_fault(random, &mut changed, other);
    }
    changed
}

fn put_fault(random: &mut Random, catalog: &mut Catalog, number: usize) {
    if catalog.kinds.is_empty() {
        return name_without_kinds(random, catalog);
    }
    match number {
        10 => empty_id(random, catalog),
        11 => repeated_id(random, catalog),
        12 => unknown_reference(random, catalog),
        13 => difference_of_other_dimensions(random, catalog),
        14 => difference_that_is_a_point(random, catalog),
        15 => catalog.dimensionless = any_id(random, catalog),
        16 => other_time(random, catalog),
        17 => rate_without_time(random, catalog),
        18 => rate_with_a_point(random, catalog),
        19 => unresolved_in_rate_or_row(random, catalog),
        20 => rate_that_misses(random, catalog),
        21 => second_rate(random, catalog),
        22 => commutative_quotient(random, catalog),
        23 => row_with_a_point(random, catalog),
        24 => row_without_a_grade(random, catalog),
        25 => row_that_misses(random, catalog),
        26 => row_already_derived(random, catalog),
        _ => second_row(random, catalog),
    }
}

/// What can be wrong in a catalog of no kinds.
fn name_without_kinds(random: &mut Random, catalog: &mut Catalog) {
    let id = fresh_id(random, &[]);
    match random.below(3) {
        0 => catalog.dimensionless = id,
        1 => catalog.time = id,
        _ => catalog.rows.push(Row {
            left: id.clone(),
            right: id.clone(),
            result: id,
            operation: random.below(4) as u8,
            commutative: random.percent(50),
        }),
    }
}

fn any_id(random: &mut Random, catalog: &Catalog) -> String {
    random.pick(&catalog.kinds).id.clone()
}

fn is_plain(kind: &Kind) -> bool {
    !kind.is_point() && kind.exponents.is_some()
}

/// An id that no kind has, often one that differs little from one.
fn unknown_id(random: &mut Random, catalog: &Catalog) -> String {
    let near = any_id(random, catalog);
    let mut shorter = near.clone();
    shorter.pop();
    let mut other_end = shorter.clone();
    other_end.push('~');
    for id in [
        shorter,
        format!("{near}x"),
        near.to_ascii_uppercase(),
        other_end,
    ] {
        let taken = catalog.kinds.iter().any(|kind| kind.id == id);
        if !taken && (1..=32).contains(&id.len()) && random.percent(50) {
            return id;
        }
    }
    fresh_id(random, &catalog.kinds)
}

fn other_dimensions(random: &mut Random, exponents: Option<Exponents>) -> Option<Exponents> {
    let Some(mut changed) = exponents else {
        return Some(ONE);
    };
    if random.percent(30) {
        return None;
    }
    let base = random.below(12);
    changed[base] = if changed[base].0 == 0 { (1, 1) } else { (0, 1) };
    Some(changed)
}

fn empty_id(random: &mut Random, catalog: &mut Catalog) {
    let kind = random.below(catalog.kinds.len());
    catalog.kinds[kind].id.clear();
}

fn repeated_id(random: &mut Random, catalog: &mut Catalog) {
    let id = any_id(random, catalog);
    let later = random.below(catalog.kinds.len());
    catalog.kinds[later].id = id;
}

fn unknown_reference(random: &mut Random, catalog: &mut Catalog) {
    let id = unknown_id(random, catalog);
    let kind = random.below(catalog.kinds.len());
    match random.below(6) {
        0 => catalog.kinds[kind].difference = id,
        1 => catalog.kinds[kind].rate_of = id,
        2 => catalog.dimensionless = id,
        3 => catalog.time = id,
        _ => {
            let id = if random.percent(67) {
                id
            } else {
                String::new()
            };
            put_row_with(random, catalog, id);
        }
    }
}

fn difference_of_other_dimensions(random: &mut Random, catalog: &mut Catalog) {
    if let Some(point) = random.pick_where(&catalog.kinds, Kind::is_point) {
        catalog.kinds[point].exponents = other_dimensions(random, catalog.kinds[point].exponents);
    }
}

fn difference_that_is_a_point(random: &mut Random, catalog: &mut Catalog) {
    let kind = random.below(catalog.kinds.len());
    let point = random.pick_where(&catalog.kinds, Kind::is_point);
    match (random.below(3), point) {
        (0, _) => catalog.kinds[kind].difference = catalog.kinds[kind].id.clone(),
        (1, Some(point)) => {
            catalog.kinds[kind].difference = catalog.kinds[point].id.clone();
            catalog.kinds[kind].exponents = catalog.kinds[point].exponents;
        }
        (_, Some(point)) => {
            let id = unknown_id(random, catalog);
            let named = catalog.kinds[point].difference.clone();
            if let Some(target) = catalog.kinds.iter_mut().find(|kind| kind.id == named) {
                target.difference = id;
            }
        }
        _ => {}
    }
}

fn other_time(random: &mut Random, catalog: &mut Catalog) {
    let time = catalog.time.clone();
    match catalog.kinds.iter_mut().find(|kind| kind.id == time) {
        Some(clock) if random.percent(30) => clock.grade = random.between(1, 3) as u8,
        _ => catalog.time = any_id(random, catalog),
    }
}

fn rate_without_time(random: &mut Random, catalog: &mut Catalog) {
    catalog.time.clear();
    if !catalog.kinds.iter().any(Kind::is_rate) {
        let rate = random.below(catalog.kinds.len());
        catalog.kinds[rate].rate_of = any_id(random, catalog);
    }
}

fn rate_with_a_point(random: &mut Random, catalog: &mut Catalog) {
    let other = random.below(catalog.kinds.len());
    if let Some(point) = random.pick_where(&catalog.kinds, Kind::is_point) {
        let (rate, target) = if random.percent(50) {
            (point, other)
        } else {
            (other, point)
        };
        catalog.kinds[rate].rate_of = catalog.kinds[target].id.clone();
    }
}

fn unresolved_in_rate_or_row(random: &mut Random, catalog: &mut Catalog) {
    let rate = random.pick_where(&catalog.kinds, Kind::is_rate);
    match (random.below(4), rate) {
        (0, Some(rate)) => catalog.kinds[rate].exponents = None,
        (1, Some(rate)) => {
            let named = catalog.kinds[rate].rate_of.clone();
            if let Some(target) = catalog.kinds.iter_mut().find(|kind| kind.id == named) {
                target.exponents = None;
            }
        }
        (2, _) => {
            let free = |kind: &Kind| !kind.is_point() && !kind.is_rate();
            if let Some(kind) = random.pick_where(&catalog.kinds, free) {
                catalog.kinds[kind].exponents = None;
                let row = random_row(random, catalog);
                put_row(random, catalog, row);
            }
        }
        _ => {
            let unresolved = |kind: &Kind| kind.exponents.is_none();
            if let Some(kind) = random.pick_where(&catalog.kinds, unresolved) {
                let id = catalog.kinds[kind].id.clone();
                put_row_with(random, catalog, id);
            }
        }
    }
}

fn rate_that_misses(random: &mut Random, catalog: &mut Catalog) {
    match random.pick_where(&catalog.kinds, Kind::is_rate) {
        Some(rate) if random.percent(50) => {
            let grade = catalog.kinds[rate].grade + random.between(1, 3) as u8;
            catalog.kinds[rate].grade = grade % 4;
        }
        rate => {
            let rate = rate.unwrap_or(random.below(catalog.kinds.len()));
            catalog.kinds[rate].rate_of = any_id(random, catalog);
        }
    }
}

fn second_rate(random: &mut Random, catalog: &mut Catalog) {
    let rate = random.pick_where(&catalog.kinds, Kind::is_rate);
    if let (Some(rate), true) = (rate, catalog.kinds.len() < MOST_KINDS) {
        let mut second = catalog.kinds[rate].clone();
        second.id = fresh_id(random, &catalog.kinds);
        let place = random.below(catalog.kinds.len() + 1);
        catalog.kinds.insert(place, second);
    }
}

fn commutative_quotient(random: &mut Random, catalog: &mut Catalog) {
    let mut row = random_row(random, catalog);
    row.operation = DIV;
    row.commutative = true;
    if random.percent(30) {
        row.left = unknown_id(random, catalog);
    }
    put_row(random, catalog, row);
}

fn row_with_a_point(random: &mut Random, catalog: &mut Catalog) {
    if let Some(point) = random.pick_where(&catalog.kinds, Kind::is_point) {
        let id = catalog.kinds[point].id.clone();
        put_row_with(random, catalog, id);
    }
}

fn row_without_a_grade(random: &mut Random, catalog: &mut Catalog) {
    let graded = |kind: &Kind| is_plain(kind) && kind.grade > 0;
    let Some(graded) = random.pick_where(&catalog.kinds, graded) else {
        return;
    };
    let id = catalog.kinds[graded].id.clone();
    let mut row = random_row(random, catalog);
    match random.below(3) {
        0 => {
            row.left.clone_from(&id);
            row.right = id;
            row.operation = *random.pick(&[0, DIV]);
        }
        1 => {
            row.right = id;
            row.operation = *random.pick(&[DIV, 2, 3]);
        }
        _ => {
            row.left = id;
            row.operation = *random.pick(&[2, 3]);
        }
    }
    row.commutative &= row.operation != DIV;
    put_row(random, catalog, row);
}

fn row_that_misses(random: &mut Random, catalog: &mut Catalog) {
    let mut row = random_row(random, catalog);
    if let Some(kind) = random.pick_where(&catalog.kinds, is_plain) {
        row.result = catalog.kinds[kind].id.clone();
    }
    put_row(random, catalog, row);
}

/// A row for what is derived anyway: neutral, a kind by itself, a rate.
fn row_already_derived(random: &mut Random, catalog: &mut Catalog) {
    let mut row = random_row(random, catalog);
    let kinds = &catalog.kinds;
    let rate = random.pick_where(kinds, Kind::is_rate).map(|i| &kinds[i]);
    let clock = kinds.iter().find(|kind| kind.id == catalog.time);
    let scalar = random
        .pick_where(kinds, |kind| is_plain(kind) && kind.grade == 0)
        .map(|i| &kinds[i]);
    let made = |left: &String, operation, right: &String, result: &String| Row {
        left: left.clone(),
        right: right.clone(),
        result: result.clone(),
        operation,
        commutative: false,
    };
    match (random.below(4), rate, clock, scalar) {
        (0, Some(rate), Some(clock), _) => {
            row = made(&rate.id, 0, &clock.difference, &rate.rate_of);
            row.commutative = random.percent(50);
        }
        (1, Some(rate), Some(clock), _) => {
            row = made(&rate.rate_of, DIV, &clock.difference, &rate.id);
        }
        (2, _, _, Some(scalar)) => {
            let operation = *random.pick(&[0, DIV]);
            row = made(&scalar.id, operation, &catalog.dimensionless, &scalar.id);
        }
        (3, _, _, Some(scalar)) => {
            row = made(&scalar.id, DIV, &scalar.id, &catalog.dimensionless);
        }
        _ => {}
    }
    put_row(random, catalog, row);
}

fn second_row(random: &mut Random, catalog: &mut Catalog) {
    if catalog.rows.is_empty() {
        return;
    }
    let mut row = random.pick(&catalog.rows).clone();
    if row.operation != DIV && random.percent(60) {
        row.commutative = true;
        if random.percent(50) {
            std::mem::swap(&mut row.left, &mut row.right);
        }
    }
    put_row(random, catalog, row);
}

/// Any kinds, more often those that products are made of.
fn random_row(random: &mut Random, catalog: &Catalog) -> Row {
    let mut kind = || {
        let plain = random.pick_where(&catalog.kinds, is_plain);
        match plain {
            Some(plain) if random.percent(85) => catalog.kinds[plain].id.clone(),
            _ => random.pick(&catalog.kinds).id.clone(),
        }
    };
    let (left, right, result) = (kind(), kind(), kind());
    let operation = *random.pick(&[0, 0, 0, DIV, DIV, 2, 3]);
    Row {
        left,
        right,
        result,
        operation,
        commutative: operation != DIV && random.percent(30),
    }
}

/// A row that names this id somewhere.
fn put_row_with(random: &mut Random, catalog: &mut Catalog, id: String) {
    let mut row = random_row(random, catalog);
    match random.below(3) {
        0 => row.left = id,
        1 => row.right = id,
        _ => row.result = id,
    }
    put_row(random, catalog, row);
}

fn put_row(random: &mut Random, catalog: &mut Catalog, row: Row) {
    if catalog.rows.len() < MOST_ROWS {
        let place = random.below(catalog.rows.len() + 1);
        catalog.rows.insert(place, row);
    }
}
