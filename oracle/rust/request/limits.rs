//! Exponents and dimensions between requests and the Rust: twelve bases named
//! b00 to b11, and the 32-bit limits outside which nothing is asked.
use bridgman_core::Dimensions;
use num_bigint::BigInt;
use num_rational::BigRational;
use num_traits::{ToPrimitive, Zero};

pub const BASES: usize = 12;
const GREATEST: i64 = 2_147_483_647;

pub fn base_name(base: usize) -> String {
    format!("b{base:02}")
}

/// A fraction in lowest terms as numerator and denominator, if both lie within
/// the 32-bit limits.
pub fn within_limits(value: &BigRational) -> Option<(i64, i64)> {
    let numerator = value.numer().to_i64()?;
    let denominator = value.denom().to_i64()?;
    let fits = (-GREATEST..=GREATEST).contains(&numerator) && (1..=GREATEST).contains(&denominator);
    fits.then_some((numerator, denominator))
}

/// The exponent that two raw numbers stand for, if it is one within the limits.
pub fn exponent(numerator: i64, denominator: i64) -> Option<BigRational> {
    if denominator < 1 {
        return None;
    }
    let value = BigRational::new(BigInt::from(numerator), BigInt::from(denominator));
    within_limits(&value).map(|_| value)
}

pub fn dimensions(powers: Vec<BigRational>) -> Dimensions {
    Dimensions::from_rational_powers(
        powers
            .into_iter()
            .enumerate()
            .map(|(base, power)| (base_name(base), power)),
    )
}

/// The exponent of each base in sequence, an absent one as zero.
fn powers(dimensions: &Dimensions) -> Vec<BigRational> {
    (0..BASES)
        .map(|base| {
            let name = base_name(base);
            dimensions
                .powers()
                .find(|(id, _)| *id == name)
                .map_or_else(BigRational::zero, |(_, power)| power.clone())
        })
        .collect()
}

/// Numerator and denominator base by base, 0 and 1 for an absent base; nothing
/// if one of them lies outside the limits.
pub fn flattened(dimensions: &Dimensions) -> Option<Vec<i64>> {
    let mut numbers = Vec::with_capacity(2 * BASES);
    for power in powers(dimensions) {
        let (numerator, denominator) = within_limits(&power)?;
        numbers.extend([numerator, denominator]);
    }
    Some(numbers)
}

/// The bases that are there, as `base:numerator/denominator`.
pub fn written(dimensions: &Dimensions) -> String {
    let present: Vec<String> = powers(dimensions)
        .iter()
        .enumerate()
        .filter(|(_, power)| !power.is_zero())
        .map(|(base, power)| format!("{base}:{}/{}", power.numer(), power.denom()))
        .collect();
    if present.is_empty() {
        "1".into()
    } else {
        present.join(",")
    }
}

/// Twelve fractions joined by commas, each `n` or `n/d`.
pub fn parsed(text: &str) -> Option<Dimensions> {
    let powers: Option<Vec<BigRational>> = text.split(',').map(parsed_exponent).collect();
    let powers = powers?;
    (powers.len() == BASES).then(|| dimensions(powers))
}

pub fn parsed_exponent(text: &str) -> Option<BigRational> {
    let (numerator, denominator) = text.split_once('/').unwrap_or((text, "1"));
    exponent(numerator.parse().ok()?, denominator.parse().ok()?)
}
