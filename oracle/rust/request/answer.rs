//! Answers as lines: what the Rust says, told in document 01's numbers, places
//! and values.
use crate::limits::flattened;
use bridgman_core::{
    DerivationError, Dimensions, Exponent, Grade, Kind, Op, Operation, ProductOp, QuantityError,
    Term,
};
use std::fmt;

/// Stands for a kind that isn't there.
pub const NO_KIND: i64 = 65_535;

pub struct Refusal {
    pub number: u32,
    /// Nothing where neither the Rust nor a smaller question to it tells.
    pub place: Option<usize>,
    pub values: Vec<i64>,
    pub twins: Vec<i64>,
}

pub enum Answer {
    Number,
    Kind(usize),
    Refused(Refusal),
    Text(String),
    /// A power that no kind has, with an exponent outside the 32-bit limits:
    /// the Rust goes on without them, and has no word for it.
    OverLimits {
        base: usize,
        place: usize,
    },
    /// A question that the Rust has no word for, with the reason.
    NotAsked(String),
}

pub fn not_asked(reason: impl Into<String>) -> Answer {
    Answer::NotAsked(reason.into())
}

pub fn listed(numbers: &[i64]) -> String {
    numbers.iter().map(|n| format!(" {n}")).collect()
}

impl fmt::Display for Answer {
    fn fmt(&self, f: &mut fmt::Formatter<'_>) -> fmt::Result {
        match self {
            Self::Number => f.write_str("number"),
            Self::Kind(index) => write!(f, "kind {index}"),
            Self::Text(text) => f.write_str(text),
            Self::OverLimits { .. } => {
                f.write_str("not-asked the power lies outside the 32-bit limits")
            }
            Self::NotAsked(reason) => write!(f, "not-asked {reason}"),
            Self::Refused(refusal) => {
                let place = refusal.place.map_or("?".into(), |place| place.to_string());
                let values = listed(&refusal.values);
                let twins = listed(&refusal.twins);
                write!(
                    f,
                    "refused {} place {place} values{values} twins{twins}",
                    refusal.number
                )
            }
        }
    }
}

pub fn op_code(op: Op) -> i64 {
    match op {
        Op::Add => 2,
        Op::Sub => 3,
        Op::Mul => 4,
        Op::Div => 5,
        Op::Dot => 6,
        Op::Wedge => 7,
    }
}

pub fn op_of_code(code: i64) -> Option<Op> {
    [Op::Add, Op::Sub, Op::Mul, Op::Div, Op::Dot, Op::Wedge]
        .into_iter()
        .find(|&op| op_code(op) == code)
}

/// The code of a power's token.
pub fn code_of(exponent: &Exponent) -> i64 {
    match exponent {
        Exponent::Exact(_) => 8,
        Exponent::Inexact => 9,
    }
}

pub fn product_code(op: ProductOp) -> i64 {
    op_code(op.into())
}

/// Dimensions base by base and then the grade; nothing outside the limits.
pub fn graded(dimensions: &Dimensions, grade: Grade) -> Option<Vec<i64>> {
    let mut values = flattened(dimensions)?;
    values.push(i64::from(grade.index()));
    Some(values)
}

/// A derivation's refusal, whatever its kinds are named by.
pub fn derivation<K>(
    error: &DerivationError<K>,
    index: impl Fn(&K) -> i64,
) -> Option<(u32, Vec<i64>)> {
    Some(match error {
        DerivationError::Unknown { .. } => return None,
        DerivationError::UnresolvedDimensions { kind } => (19, vec![index(kind)]),
        DerivationError::Point {
            left,
            op,
            right,
            point,
        } => (
            23,
            vec![index(left), product_code(*op), index(right), index(point)],
        ),
        DerivationError::Ungraded {
            left,
            right,
            left_grade,
            right_grade,
            ..
        } => (
            24,
            vec![
                index(left),
                index(right),
                i64::from(left_grade.index()),
                i64::from(right_grade.index()),
            ],
        ),
    })
}

/// A kind's place in its registry.
pub fn index(kind: Kind<'_>) -> usize {
    kind.registry()
        .kinds()
        .position(|other| other == kind)
        .expect("a kind is one of its registry's kinds")
}

fn value(kind: Kind<'_>) -> i64 {
    index(kind) as i64
}

/// The operation as the code of its token. The Rust works a number divided by
/// a kind out as a power; the token that was asked is a division.
fn operation_code(operation: &Operation, asked: i64) -> i64 {
    match operation {
        Operation::Binary(op) => op_code(*op),
        Operation::Scale => 4,
        Operation::DivideScalar => 5,
        Operation::Power(_) if asked == 5 => 5,
        Operation::Power(exponent) => code_of(exponent),
        Operation::Abs => 10,
        Operation::Compare => 11,
    }
}

fn twins(kinds: &[Kind<'_>]) -> (Vec<i64>, Vec<i64>) {
    (
        vec![kinds.len() as i64],
        kinds.iter().map(|&kind| value(kind)).collect(),
    )
}

/// What the Rust refused at `place`, where `asked` is the token's code.
fn refused(error: &QuantityError<'_>, asked: i64, place: usize) -> Answer {
    let mut listed = Vec::new();
    let told = match error {
        QuantityError::Derivation(error) => derivation(error, |&kind| value(kind)),
        QuantityError::KindMismatch { expected, actual } => {
            Some((42, vec![value(*expected), value(*actual)]))
        }
        QuantityError::UnsupportedOperation {
            operation,
            left,
            right,
        } => Some((
            43,
            vec![
                operation_code(operation, asked),
                value(*left),
                right.map_or(NO_KIND, value),
            ],
        )),
        QuantityError::UnresolvedTwin { twins: kinds, .. } => {
            let (count, list) = twins(kinds);
            listed = list;
            Some((44, count))
        }
        QuantityError::NoProductKind {
            dimensions, grade, ..
        } => graded(dimensions, *grade).map(|values| (45, values)),
        QuantityError::UngradedPower { grade, .. } => Some((46, vec![i64::from(grade.index())])),
        QuantityError::NoPowerKind {
            base,
            dimensions,
            grade,
            ..
        } => match graded(dimensions, *grade) {
            Some(values) => Some((47, values)),
            None => {
                return Answer::OverLimits {
                    base: index(*base),
                    place,
                }
            }
        },
        QuantityError::UnresolvedPowerTwin { twins: kinds, .. } => {
            let (count, list) = twins(kinds);
            listed = list;
            Some((48, count))
        }
        QuantityError::NumberTerm { operation, kind } => {
            Some((49, vec![operation_code(operation, asked), value(*kind)]))
        }
        _ => None,
    };
    match told {
        Some((number, values)) => Answer::Refused(Refusal {
            number,
            place: Some(place),
            values,
            twins: listed,
        }),
        None => not_asked("the refusal is not one of document 01"),
    }
}

pub fn of_term(result: Result<Term<'_>, QuantityError<'_>>, asked: i64, place: usize) -> Answer {
    match result {
        Ok(Term::Number) => Answer::Number,
        Ok(Term::Kind(kind)) => Answer::Kind(index(kind)),
        Err(error) => refused(&error, asked, place),
    }
}

pub fn of_kind(result: Result<Kind<'_>, QuantityError<'_>>, asked: i64) -> Answer {
    of_term(result.map(Term::Kind), asked, 0)
}
