//! A formula's tokens.

/// An operation on two kinds.
#[derive(Clone, Copy, Debug, PartialEq, Eq)]
pub enum Op {
    Add,
    Sub,
    Mul,
    Div,
    Dot,
    Wedge,
}

impl Op {
    /// The code of its token.
    pub fn code(self) -> u8 {
        match self {
            Op::Add => 2,
            Op::Sub => 3,
            Op::Mul => 4,
            Op::Div => 5,
            Op::Dot => 6,
            Op::Wedge => 7,
        }
    }
}

/// An exponent: a numerator and a denominator, which need not be in lowest terms, or one that is known inexactly.
#[derive(Clone, Copy, Debug, PartialEq, Eq)]
pub enum Exponent {
    Exact(i32, u32),
    Inexact,
}

/// One token; a formula is 1 to 128 of them in postfix order.
#[derive(Clone, Copy, Debug, PartialEq, Eq)]
pub enum Token {
    Number,
    Kind(u16),
    Combine(Op),
    Power(Exponent),
    Absolute,
    Compare,
}

impl Token {
    /// Its 12 bytes: code, zero, kind index (16 bits), exponent numerator and denominator (32 bits), little-endian.
    pub fn bytes(self) -> [u8; 12] {
        let (code, kind, num, den) = match self {
            Token::Number => (0, 0, 0, 0),
            Token::Kind(kind) => (1, kind, 0, 0),
            Token::Combine(op) => (op.code(), 0, 0, 0),
            Token::Power(Exponent::Exact(num, den)) => (8, 0, num, den),
            Token::Power(Exponent::Inexact) => (9, 0, 0, 0),
            Token::Absolute => (10, 0, 0, 0),
            Token::Compare => (11, 0, 0, 0),
        };
        let mut bytes = [0; 12];
        bytes[0] = code;
        bytes[2..4].copy_from_slice(&kind.to_le_bytes());
        bytes[4..8].copy_from_slice(&num.to_le_bytes());
        bytes[8..12].copy_from_slice(&den.to_le_bytes());
        bytes
    }
}
