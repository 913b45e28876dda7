//! A formula run token by token with the Rust's terms. What is malformed, or
//! names a kind past the end, is not asked.
use crate::answer::{not_asked, of_term, op_of_code, Answer};
use crate::limits::exponent;
use bridgman_core::{Exponent, Registry, Term};

const TOKEN: usize = 12;
const MOST_TERMS: usize = 32;

struct Token {
    code: i64,
    kind: usize,
    numerator: i64,
    denominator: i64,
}

fn token(bytes: &[u8]) -> Option<Token> {
    let token = Token {
        code: i64::from(bytes[0]),
        kind: usize::from(u16::from_le_bytes([bytes[2], bytes[3]])),
        numerator: i64::from(i32::from_le_bytes(bytes[4..8].try_into().ok()?)),
        denominator: i64::from(u32::from_le_bytes(bytes[8..12].try_into().ok()?)),
    };
    let plain = bytes[1] == 0
        && (token.code == 1 || token.kind == 0)
        && (token.code == 8 || (token.numerator == 0 && token.denominator == 0));
    let known = token.code <= 11;
    let good_power = token.code != 8 || exponent(token.numerator, token.denominator).is_some();
    (plain && known && good_power).then_some(token)
}

/// How many terms a token takes; each leaves one.
fn taken(code: i64) -> usize {
    match code {
        0 | 1 => 0,
        8..=10 => 1,
        _ => 2,
    }
}

/// Whether every token finds its terms, no more than 32 are held, and one is
/// left.
fn is_balanced(tokens: &[Token]) -> bool {
    let mut held = 0;
    for token in tokens {
        let taken = taken(token.code);
        if held < taken || held - taken + 1 > MOST_TERMS {
            return false;
        }
        held = held - taken + 1;
    }
    held == 1
}

fn tokens(bytes: &[u8]) -> Option<Vec<Token>> {
    if bytes.is_empty() || bytes.len() % TOKEN != 0 || bytes.len() > 128 * TOKEN {
        return None;
    }
    let tokens: Vec<Token> = bytes.chunks(TOKEN).map(token).collect::<Option<_>>()?;
    is_balanced(&tokens).then_some(tokens)
}

pub fn run(registry: &Registry, bytes: &[u8]) -> Answer {
    let Some(tokens) = tokens(bytes) else {
        return not_asked("the formula is malformed");
    };
    let mut stack: Vec<Term<'_>> = Vec::new();
    for (place, token) in tokens.iter().enumerate() {
        let result = match token.code {
            0 => Ok(Term::Number),
            1 => match registry.kinds().nth(token.kind) {
                Some(kind) => Ok(Term::Kind(kind)),
                None => return not_asked("a kind index is past the end"),
            },
            8 | 9 => popped(&mut stack).power(&power(token)),
            10 => popped(&mut stack).absolute(),
            code => {
                let right = popped(&mut stack);
                let left = popped(&mut stack);
                match op_of_code(code) {
                    Some(op) => left.combine(op, right),
                    None => left.same(right),
                }
            }
        };
        match result {
            Ok(term) => stack.push(term),
            Err(error) => return of_term(Err(error), token.code, place),
        }
    }
    of_term(Ok(popped(&mut stack)), 0, 0)
}

fn power(token: &Token) -> Exponent {
    match exponent(token.numerator, token.denominator) {
        Some(exact) if token.code == 8 => Exponent::Exact(exact),
        _ => Exponent::Inexact,
    }
}

fn popped<'r>(stack: &mut Vec<Term<'r>>) -> Term<'r> {
    stack.pop().expect("a balanced formula has its terms")
}
