//! Why something is refused: a case for each cause, with all that is returned, and its words.

use std::fmt;

use crate::Out;

/// A refusal: its number, its place, from 0, and its cause. The place of 2 is the block, of 4 the byte, of other faults the
/// compiled record (kind or row) or the token; of header ids it is byte 12 or 44, of 1, 3, 5, 40 and lone lookups 0.
#[derive(Clone, Debug, PartialEq, Eq)]
pub struct Refusal {
    pub number: u32,
    pub place: u32,
    pub cause: Cause,
}

/// Twelve exponents, numerator and denominator in lowest terms; an absent base is 0 and 1.
#[derive(Clone, Copy, Debug, PartialEq, Eq)]
pub struct Dimensions(pub [(i32, u32); 12]);

/// The causes. Kinds are indexes, operations the codes of their tokens; a kind that isn't there is 65,535.
#[rustfmt::skip]
#[derive(Clone, Debug, PartialEq, Eq)]
pub enum Cause {
    ImageLength { length: u32 },
    WrongBlock { block: u32 },
    Schema { schema: u32 },
    WrongByte { byte: u32 },
    Short { length: u32 },
    EmptyId { kind: u32 },
    DuplicateId { kind: u32 },
    UnknownId { record: u32 },
    DifferenceDimensions { kind: u32, difference: u32 },
    DifferencePoint { kind: u32, difference: u32 },
    Dimensionless { kind: u32 },
    Time { kind: u32 },
    RateWithoutTime { rate: u32, target: u32, point: u32 },
    RateWithPoint { rate: u32, target: u32, point: u32 },
    Unresolved { kind: u32 },
    RateMisses { dimensions: Dimensions, grade: u32 },
    SecondRate { rate: u32 },
    CommutativeDiv { row: u32 },
    PointInProduct { left: u32, op: u32, right: u32, point: u32 },
    NoGrade { left: u32, right: u32, left_grade: u32, right_grade: u32 },
    RowMisses { dimensions: Dimensions, grade: u32 },
    RowDerived { kind: u32 },
    SecondRow { left: u32, right: u32 },
    PowerLimits { base: u32 },
    NoTable,
    NoKind { kind: u32 },
    KindsDiffer { expected: u32, actual: u32 },
    Undefined { op: u32, left: u32, right: u32 },
    Twins { twins: Vec<u16> },
    NoProductKind { dimensions: Dimensions, grade: u32 },
    NonScalarPower { grade: u32 },
    NoPowerKind { dimensions: Dimensions, grade: u32 },
    PowerTwins { twins: Vec<u16> },
    NumberWithKind { op: u32, kind: u32 },
    Malformed { token: u32 },
    /// What this version of the package has no words for.
    Other,
}

impl Dimensions {
    /// Words 3 to 26 of an answer.
    fn of(out: &Out) -> Dimensions {
        Dimensions(std::array::from_fn(|base| (out[3 + 2 * base] as i32, out[4 + 2 * base])))
    }
}

impl Cause {
    /// The cause that a refusal's words tell; the twins are the first entries of the lent list, as many as are returned.
    pub(crate) fn of(out: &Out, twins: &[u16]) -> Cause {
        let [a, b, c, d] = [out[3], out[4], out[5], out[6]];
        let dimensions = Dimensions::of(out);
        let grade = out[27];
        let fitting = || twins.iter().copied().take(a as usize).collect();
        match out[1] {
            1 => Cause::ImageLength { length: a },
            2 => Cause::WrongBlock { block: a },
            3 => Cause::Schema { schema: a },
            4 => Cause::WrongByte { byte: a },
            5 => Cause::Short { length: a },
            10 => Cause::EmptyId { kind: a },
            11 => Cause::DuplicateId { kind: a },
            12 => Cause::UnknownId { record: a },
            13 => Cause::DifferenceDimensions { kind: a, difference: b },
            14 => Cause::DifferencePoint { kind: a, difference: b },
            15 => Cause::Dimensionless { kind: a },
            16 => Cause::Time { kind: a },
            17 => Cause::RateWithoutTime { rate: a, target: b, point: c },
            18 => Cause::RateWithPoint { rate: a, target: b, point: c },
            19 => Cause::Unresolved { kind: a },
            20 => Cause::RateMisses { dimensions, grade },
            21 => Cause::SecondRate { rate: a },
            22 => Cause::CommutativeDiv { row: a },
            23 => Cause::PointInProduct { left: a, op: b, right: c, point: d },
            24 => Cause::NoGrade { left: a, right: b, left_grade: c, right_grade: d },
            25 => Cause::RowMisses { dimensions, grade },
            26 => Cause::RowDerived { kind: a },
            27 => Cause::SecondRow { left: a, right: b },
            28 => Cause::PowerLimits { base: a },
            40 => Cause::NoTable,
            41 => Cause::NoKind { kind: a },
            42 => Cause::KindsDiffer { expected: a, actual: b },
            43 => Cause::Undefined { op: a, left: b, right: c },
            44 => Cause::Twins { twins: fitting() },
            45 => Cause::NoProductKind { dimensions, grade },
            46 => Cause::NonScalarPower { grade: a },
            47 => Cause::NoPowerKind { dimensions, grade },
            48 => Cause::PowerTwins { twins: fitting() },
            49 => Cause::NumberWithKind { op: a, kind: b },
            50 => Cause::Malformed { token: a },
            _ => Cause::Other,
        }
    }
}

impl fmt::Display for Refusal {
    fn fmt(&self, f: &mut fmt::Formatter) -> fmt::Result {
        write!(f, "refused {} {}: {}", self.number, self.place, self.cause)
    }
}

impl std::error::Error for Refusal {}

/// The cause, then what is returned.
impl fmt::Display for Cause {
    fn fmt(&self, f: &mut fmt::Formatter) -> fmt::Result {
        match self {
            Cause::ImageLength { length } => {
                write!(f, "image length not 1 to 121 blocks: length {length}")
            }
            Cause::WrongBlock { block } => write!(f, "block place or sum wrong: block {block}"),
            Cause::Schema { schema } => write!(f, "schema not 4: schema {schema}"),
            Cause::WrongByte { byte } => {
                write!(f, "field, count or length against the layout: byte {byte}")
            }
            Cause::Short { length } => {
                write!(f, "table under 9,296 32-bit words, or twin list under 240 16-bit: length lent {length}")
            }
            Cause::EmptyId { kind } => write!(f, "kind id empty: kind {kind}"),
            Cause::DuplicateId { kind } => write!(f, "kind id repeated: kind {kind}"),
            Cause::UnknownId { record } => write!(f, "id unknown: record {record}"),
            Cause::DifferenceDimensions { kind, difference } => {
                write!(f, "difference of other dimensions: kinds {kind}, {difference}")
            }
            Cause::DifferencePoint { kind, difference } => {
                write!(f, "difference itself a point: kinds {kind}, {difference}")
            }
            Cause::Dimensionless { kind } => {
                write!(f, "dimensionless not linear and dimension one: kind {kind}")
            }
            Cause::Time { kind } => write!(f, "time not a scalar point: kind {kind}"),
            Cause::RateWithoutTime { rate, target, point } => {
                write!(f, "rate without time: rate {rate}, target {target}, point {}", Kind(*point))
            }
            Cause::RateWithPoint { rate, target, point } => {
                write!(f, "rate with a point: rate {rate}, target {target}, point {}", Kind(*point))
            }
            Cause::Unresolved { kind } => write!(f, "dimensions unresolved: kind {kind}"),
            Cause::RateMisses { dimensions, grade } => {
                write!(f, "rate × duration misses target, or grades differ: dimensions {dimensions}, grade {grade}")
            }
            Cause::SecondRate { rate } => write!(f, "target has a rate: that rate {rate}"),
            Cause::CommutativeDiv { row } => write!(f, "commutative Div: row {row}"),
            Cause::PointInProduct { left, op, right, point } => {
                write!(f, "point in a product: left {left}, op {op}, right {right}, point {point}")
            }
            Cause::NoGrade { left, right, left_grade, right_grade } => {
                write!(f, "no single grade: kinds {left}, {right}, grades {left_grade}, {right_grade}")
            }
            Cause::RowMisses { dimensions, grade } => {
                write!(f, "row result misses: dimensions {dimensions}, grade {grade}")
            }
            Cause::RowDerived { kind } => write!(f, "row already derived: derived kind {kind}"),
            Cause::SecondRow { left, right } => {
                write!(f, "second row for a pair: pair {left}, {right}")
            }
            Cause::PowerLimits { base } => {
                write!(f, "power exponent over 32-bit limits: base kind {base}")
            }
            Cause::NoTable => write!(f, "words are no table"),
            Cause::NoKind { kind } => write!(f, "kind index past the end: index {kind}"),
            Cause::KindsDiffer { expected, actual } => {
                write!(f, "kinds differ: expected {expected}, actual {actual}")
            }
            Cause::Undefined { op, left, right } => {
                write!(f, "operation undefined: operation {op}, kinds {}, {}", Kind(*left), Kind(*right))
            }
            Cause::Twins { twins } => write!(f, "several kinds, no row: {}", Listed(twins)),
            Cause::NoProductKind { dimensions, grade } => {
                write!(f, "no product kind: dimensions {dimensions}, grade {grade}")
            }
            Cause::NonScalarPower { grade } => write!(f, "power of a non-scalar: grade {grade}"),
            Cause::NoPowerKind { dimensions, grade } => {
                write!(f, "no power kind: dimensions {dimensions}, grade {grade}")
            }
            Cause::PowerTwins { twins } => {
                write!(f, "several kinds, no row, for a power: {}", Listed(twins))
            }
            Cause::NumberWithKind { op, kind } => {
                write!(f, "number with a kind: operation {op}, kind {kind}")
            }
            Cause::Malformed { token } => write!(f, "formula malformed: token {token}"),
            Cause::Other => write!(f, "a cause without words here"),
        }
    }
}

/// A kind's index, or that it isn't there.
struct Kind(u32);

impl fmt::Display for Kind {
    fn fmt(&self, f: &mut fmt::Formatter) -> fmt::Result {
        match self.0 {
            65535 => write!(f, "none"),
            kind => write!(f, "{kind}"),
        }
    }
}

/// The kinds that fit.
struct Listed<'a>(&'a [u16]);

impl fmt::Display for Listed<'_> {
    fn fmt(&self, f: &mut fmt::Formatter) -> fmt::Result {
        let kinds: Vec<String> = self.0.iter().map(|kind| kind.to_string()).collect();
        write!(f, "count {}, twins {}", kinds.len(), kinds.join(", "))
    }
}

/// As in a catalog's text: `b0^3 b1^-1`, `b0^(1/2)`, and `1` for dimension one.
impl fmt::Display for Dimensions {
    fn fmt(&self, f: &mut fmt::Formatter) -> fmt::Result {
        let bases: Vec<String> = (self.0.iter().enumerate())
            .filter(|(_, (num, _))| *num != 0)
            .map(|(base, exponent)| match exponent {
                (1, 1) => format!("b{base}"),
                (num, 1) => format!("b{base}^{num}"),
                (num, den) => format!("b{base}^({num}/{den})"),
            })
            .collect();
        match bases.is_empty() {
            true => write!(f, "1"),
            false => write!(f, "{}", bases.join(" ")),
        }
    }
}

#[cfg(test)]
mod tests {
    use std::collections::BTreeSet;

    use super::*;

    // Every number of the rules' table has a cause of its own, told in words of its own.
    #[test]
    fn every_number_has_words() {
        let numbers = (1..=5).chain(10..=28).chain(40..=50);
        let mut told = BTreeSet::new();
        for number in numbers {
            let mut out = [0; crate::OUT_WORDS];
            out[0] = 2;
            out[1] = number;
            let cause = Cause::of(&out, &[]);
            assert_ne!(cause, Cause::Other);
            assert!(told.insert(cause.to_string()), "{cause}");
        }
    }
}
