//! The teaching catalog's worked cases:
//!
//!     cargo run --example teaching IMAGE
use std::process::ExitCode;
use std::{env, fs};

use kind_check::{report, Catalog, Exponent, Op, Refusal, Term, Token};

fn show(what: &str, answer: Result<u16, Refusal>) {
    match answer {
        Ok(kind) => println!("{what}: kind {kind}"),
        Err(refusal) => println!("{what}: {refusal}"),
    }
}

fn show_formula(what: &str, answer: Result<Term, Refusal>) {
    match answer {
        Ok(Term::Number) => println!("{what}: number"),
        Ok(Term::Kind(kind)) => println!("{what}: kind {kind}"),
        Err(refusal) => println!("{what}: {refusal}"),
    }
}

fn show_report(what: &str, image: &[u8], term: Term) {
    let printed = report(image, b"plain number", term);
    println!("{what}: \"{}\"", String::from_utf8_lossy(printed));
}

fn main() -> ExitCode {
    let Some(name) = env::args().nth(1) else {
        eprintln!("usage: teaching IMAGE");
        return ExitCode::from(2);
    };
    let image = match fs::read(&name) {
        Ok(image) => image,
        Err(error) => {
            eprintln!("{name}: {error}");
            return ExitCode::from(2);
        }
    };
    let mut catalog = match Catalog::compile(&image) {
        Ok(catalog) => catalog,
        Err(refusal) => {
            println!("{refusal}");
            return ExitCode::FAILURE;
        }
    };
    println!("{} kinds", catalog.kinds());

    show("2 × 4", catalog.combine(2, Op::Mul, 4));
    show("1 / 4", catalog.combine(1, Op::Div, 4));
    show("6 × 7", catalog.combine(6, Op::Mul, 7));
    show("3 − 3", catalog.combine(3, Op::Sub, 3));
    show("3 + 3", catalog.combine(3, Op::Add, 3));
    show("3 × 4", catalog.combine(3, Op::Mul, 4));
    show("8 Dot 8", catalog.combine(8, Op::Dot, 8));
    show("7 Dot 8", catalog.combine(7, Op::Dot, 8));
    show("8 Wedge 8", catalog.combine(8, Op::Wedge, 8));
    show("1 + 5", catalog.combine(1, Op::Add, 5));
    show("1 × 9", catalog.combine(1, Op::Mul, 9));
    show("6 to 1/2", catalog.power(6, Exponent::Exact(1, 2)));
    show("2 to 1/2", catalog.power(2, Exponent::Exact(1, 2)));
    show("7 to 3", catalog.power(7, Exponent::Exact(3, 1)));
    show("8 to 2", catalog.power(8, Exponent::Exact(2, 1)));
    show("6 to 1/0", catalog.power(6, Exponent::Exact(1, 0)));
    show("6 to 2,147,483,647", catalog.power(6, Exponent::Exact(i32::MAX, 1)));
    show("6 inexactly", catalog.power(6, Exponent::Inexact));

    let product = [Token::Kind(6), Token::Kind(7), Token::Combine(Op::Mul)];
    show_formula("area bore *", catalog.formula(&product));
    let number = [Token::Number, Token::Number, Token::Compare];
    show_formula("number number compare", catalog.formula(&number));
    let sum = [Token::Number, Token::Kind(1), Token::Combine(Op::Add)];
    show_formula("number volume +", catalog.formula(&sum));
    show_formula("an open formula", catalog.formula(&product[..2]));
    show_formula("no tokens", catalog.formula(&[]));

    let mut damaged = image.clone();
    damaged[600] ^= 1;

    // what a report prints, and where there is nothing to print
    show_report("the report of kind 2", &image, Term::Kind(2));
    show_report("of a number", &image, Term::Number);
    show_report("of kind 9", &image, Term::Kind(9));
    show_report("of kind 2 over a damaged image", &damaged, Term::Kind(2));

    // what a damaged image is refused for
    match Catalog::compile(&damaged) {
        Ok(_) => println!("a damaged image compiles"),
        Err(refusal) => println!("a damaged image: {refusal}"),
    }
    match Catalog::compile(&image[1..]) {
        Ok(_) => println!("a cut image compiles"),
        Err(refusal) => println!("a cut image: {refusal}"),
    }
    ExitCode::SUCCESS
}
