//! Reads requests from standard input, one a line, and answers each with one
//! line on standard output. oracle/README.md has the syntax.
use bridgman_core::pi::{count_pi_groups_exact, pi_groups_exact};
use bridgman_core::{Dimensions, Exponent, Kind, QuantityError, Registry, Term};
use oracle::answer::{code_of, not_asked, of_kind, of_term, op_of_code, Answer, Refusal};
use oracle::{answer, compiled, formula, image, limits};
use std::io::{BufRead, Write};

fn main() -> std::io::Result<()> {
    let mut output = std::io::BufWriter::new(std::io::stdout().lock());
    let mut current = None;
    for line in std::io::stdin().lock().lines() {
        let line = line?;
        let words: Vec<&str> = line.split_whitespace().collect();
        match reply(&words, &mut current) {
            Some(answer) => writeln!(output, "{answer}")?,
            None => writeln!(output, "bad-request")?,
        }
        // Whoever asks line by line waits for each answer.
        output.flush()?;
    }
    Ok(())
}

/// Nothing where the line isn't a request.
fn reply(words: &[&str], current: &mut Option<Registry>) -> Option<Answer> {
    match words {
        ["image", hex] => {
            let (answer, registry) = compile(&bytes(hex)?);
            *current = registry;
            Some(answer)
        }
        ["dimension", request @ ..] => dimension(request),
        request => match current {
            Some(registry) => over(registry, request),
            None => Some(not_asked("no catalog is compiled")),
        },
    }
}

fn bytes(hex: &str) -> Option<Vec<u8>> {
    if hex.len() % 2 != 0 || !hex.bytes().all(|digit| digit.is_ascii_hexdigit()) {
        return None;
    }
    (0..hex.len() / 2)
        .map(|i| u8::from_str_radix(&hex[2 * i..2 * i + 2], 16).ok())
        .collect()
}

fn compile(image: &[u8]) -> (Answer, Option<Registry>) {
    match image::read(image) {
        Ok(catalog) => compiled::compile(&catalog),
        Err(fault) => (not_asked(format!("the image meets {fault}")), None),
    }
}

fn over(registry: &Registry, request: &[&str]) -> Option<Answer> {
    Some(match request {
        ["combine", code, left, right] => {
            let Some(op) = op_of_code(code.parse().ok()?) else {
                return Some(not_asked("the operation has no code here"));
            };
            match (kind(registry, left)?, kind(registry, right)?) {
                (Some(left), Some(right)) => of_kind(left.combine(op, right), answer::op_code(op)),
                _ => past_the_end(),
            }
        }
        ["power", base, exponent @ ..] => match (kind(registry, base)?, power(exponent)?) {
            (_, None) => not_asked("the exponent lies outside the 32-bit limits"),
            (None, _) => past_the_end(),
            (Some(base), Some(exponent)) => of_kind(base.power(&exponent), code_of(&exponent)),
        },
        ["term", request @ ..] => term_request(registry, request)?,
        ["formula", tokens] => formula::run(registry, &bytes(tokens)?),
        ["formula"] => formula::run(registry, &[]),
        ["signature", kind_index] => match kind(registry, kind_index)? {
            Some(kind) => signature(kind),
            None => past_the_end(),
        },
        ["groups", kinds @ ..] => groups(registry, kinds)?,
        _ => return None,
    })
}

fn past_the_end() -> Answer {
    not_asked("a kind index is past the end")
}

/// Outside: the text is no number. Inside: the registry has no such kind.
fn kind<'r>(registry: &'r Registry, text: &str) -> Option<Option<Kind<'r>>> {
    Some(registry.kinds().nth(text.parse().ok()?))
}

/// Outside: the words are no exponent. Inside: it is beyond the limits.
fn power(words: &[&str]) -> Option<Option<Exponent>> {
    match words {
        ["inexact"] => Some(Some(Exponent::Inexact)),
        [numerator, denominator] => Some(
            limits::exponent(numerator.parse().ok()?, denominator.parse().ok()?)
                .map(Exponent::Exact),
        ),
        _ => None,
    }
}

/// Two kinds of term: the word `number`, or a kind's index.
fn term<'r>(registry: &'r Registry, text: &str) -> Option<Option<Term<'r>>> {
    if text == "number" {
        return Some(Some(Term::Number));
    }
    Some(kind(registry, text)?.map(Term::Kind))
}

fn term_request(registry: &Registry, request: &[&str]) -> Option<Answer> {
    Some(match request {
        ["combine", code, left, right] => {
            let Some(op) = op_of_code(code.parse().ok()?) else {
                return Some(not_asked("the operation has no code here"));
            };
            match (term(registry, left)?, term(registry, right)?) {
                (Some(left), Some(right)) => {
                    of_term(left.combine(op, right), answer::op_code(op), 0)
                }
                _ => past_the_end(),
            }
        }
        ["power", base, exponent @ ..] => match (term(registry, base)?, power(exponent)?) {
            (_, None) => not_asked("the exponent lies outside the 32-bit limits"),
            (None, _) => past_the_end(),
            (Some(base), Some(exponent)) => of_term(base.power(&exponent), code_of(&exponent), 0),
        },
        ["absolute", base] => match term(registry, base)? {
            Some(base) => of_term(base.absolute(), 10, 0),
            None => past_the_end(),
        },
        ["same", left, right] => match (term(registry, left)?, term(registry, right)?) {
            (Some(left), Some(right)) => of_term(left.same(right), 11, 0),
            _ => past_the_end(),
        },
        _ => return None,
    })
}

fn unresolved(kind: Kind<'_>) -> Answer {
    Answer::Refused(Refusal {
        number: 19,
        place: Some(0),
        values: vec![answer::index(kind) as i64],
        twins: Vec::new(),
    })
}

fn signature(kind: Kind<'_>) -> Answer {
    match kind.dimensions() {
        Ok(dimensions) => Answer::Text(format!("signature {}", dimensions.signature())),
        Err(_) => unresolved(kind),
    }
}

fn groups(registry: &Registry, words: &[&str]) -> Option<Answer> {
    if words.is_empty() || words.len() > 24 {
        return Some(not_asked("groups are of 1 to 24 kinds"));
    }
    let mut kinds = Vec::with_capacity(words.len());
    for word in words {
        match kind(registry, word)? {
            Some(kind) => kinds.push(kind),
            None => return Some(past_the_end()),
        }
    }
    let given: Result<Vec<&Dimensions>, QuantityError<'_>> =
        kinds.iter().map(|kind| kind.dimensions()).collect();
    let Ok(given) = given else {
        let first = kinds.into_iter().find(|kind| kind.dimensions().is_err())?;
        return Some(unresolved(first));
    };
    Some(Answer::Text(group_text(&given)))
}

/// A column is named by its place, so that a repeated kind is counted again.
fn group_text(given: &[&Dimensions]) -> String {
    let columns: Vec<(String, Dimensions)> = given
        .iter()
        .enumerate()
        .map(|(place, &dimensions)| (place.to_string(), dimensions.clone()))
        .collect();
    let mut text = format!("groups {}", count_pi_groups_exact(&columns));
    for group in pi_groups_exact(&columns) {
        text.push_str(" group");
        for (name, _) in &columns {
            let exponent = group.iter().find(|(column, _)| column == name);
            text.push_str(&exponent.map_or(" 0".into(), |(_, value)| format!(" {value}")));
        }
    }
    text
}

/// Exact arithmetic of dimensions, with no catalog.
fn dimension(request: &[&str]) -> Option<Answer> {
    let &[operation, left, right] = request else {
        return None;
    };
    if !["product", "quotient", "power"].contains(&operation) {
        return None;
    }
    Some(match calculated(operation, left, right) {
        None => not_asked("no such dimensions or exponent within the 32-bit limits"),
        Some(result) => match limits::flattened(&result) {
            Some(numbers) => Answer::Text(format!("dimensions{}", answer::listed(&numbers))),
            None => not_asked("the result lies outside the 32-bit limits"),
        },
    })
}

fn calculated(operation: &str, left: &str, right: &str) -> Option<Dimensions> {
    let base = limits::parsed(left)?;
    Some(match operation {
        "product" => &base * &limits::parsed(right)?,
        "quotient" => &base / &limits::parsed(right)?,
        _ => base.pow(&limits::parsed_exponent(right)?),
    })
}
