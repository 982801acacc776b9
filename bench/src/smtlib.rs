//! A sheet's question "is there a setting of the open variables that makes the last frame true" in SMT-LIB 2, for z3 and cvc5;
//! with open gauges "is there for every setting of these one of the other open variables", with quantifiers for both. Each frame is written once, as a `let` in the scope where it belongs: sharing is kept.

use crate::evaluator::sheet::{Kind, Range, Sheet};
use crate::scope::{Scopes, VARIABLES};
use std::fmt::Write;

pub fn smtlib(sheet: &Sheet) -> String {
    let scopes = Scopes::of(sheet);
    let gauges = sheet.gauges & sheet.open;
    let quantifiers = gauges != 0 || scopes.binder.iter().any(|binder| binder.is_some());
    // In this logic cvc5 instantiates quantifiers guided by counterexamples; in UF it gives up on most sheets.
    let logic = if quantifiers { "LIA" } else { "QF_UF" };
    let mut text = format!("(set-logic {logic})\n");
    let last = sheet.frames.len() - 1;
    let mut formula = scope(sheet, &scopes, None, last);
    if gauges == 0 {
        variables(sheet.open).for_each(|variable| writeln!(text, "(declare-const x{variable} Bool)").unwrap());
    } else {
        formula = bound("forall", gauges, &bound("exists", sheet.open & !gauges, &formula));
    }
    format!("{text}(assert {formula})\n(check-sat)\n")
}

/// The variables of a mask.
fn variables(mask: u64) -> impl Iterator<Item = usize> {
    (0..VARIABLES).filter(move |variable| mask >> variable & 1 == 1)
}

/// The formula under a quantifier of the mask's variables, if there are any.
fn bound(word: &str, mask: u64, formula: &str) -> String {
    let variables: Vec<String> = variables(mask).map(|variable| format!("(x{variable} Bool)")).collect();
    if variables.is_empty() {
        return formula.to_string();
    }
    format!("({word} ({}) {formula})", variables.join(" "))
}

/// The frames that belong to the scope, in their order, around the name of the scope's own frame.
fn scope(sheet: &Sheet, scopes: &Scopes, home: Option<usize>, body: usize) -> String {
    let (mut text, mut closing) = (String::new(), String::new());
    for number in (0..=body).filter(|&number| scopes.reached[number] && scopes.home[number] == home) {
        write!(text, "\n(let ((f{number} {}))", term(sheet, scopes, number)).unwrap();
        closing.push(')');
    }
    format!("{text} f{body}{closing}")
}

fn term(sheet: &Sheet, scopes: &Scopes, number: usize) -> String {
    match sheet.frames[number] {
        Kind::Never => "false".to_string(),
        Kind::Input { variable } => format!("x{variable}"),
        Kind::Not { frame } => format!("(not f{frame})"),
        Kind::And { left, right } => format!("(and f{left} f{right})"),
        Kind::Or { left, right } => format!("(or f{left} f{right})"),
        Kind::Exists { frame, binds } => quantified("exists", sheet, scopes, number, frame, binds),
        Kind::Forall { frame, binds } => quantified("forall", sheet, scopes, number, frame, binds),
    }
}

fn quantified(word: &str, sheet: &Sheet, scopes: &Scopes, number: usize, body: usize, binds: Range) -> String {
    bound(word, binds.mask(), &scope(sheet, scopes, Some(number), body))
}
