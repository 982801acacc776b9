//! Questions in QDIMACS through their reader.

use super::joined;
use crate::compare;
use crate::evaluator::form::Form;
use crate::evaluator::question::{self, Cause};
use crate::generate::question_faults as faults;
use crate::generate::{question_texts, questions};
use crate::run::{Options, Run};

/// Questions of all kinds; one text in eight is damaged.
pub fn sound(run: &mut Run) {
    let rng = &mut run.rng;
    let size = rng.pick(&[questions::SMALL, questions::SMALL, questions::MIDDLE, questions::MIDDLE, questions::LARGE]);
    let mut question = match rng.below(100) {
        0..=45 => questions::question(rng, size),
        46..=57 => questions::around_32_variables(rng),
        58..=79 => {
            let sound = questions::question(rng, questions::MIDDLE);
            let frames = rng.pick(&[199, 200, 200, 201, 201, 202, 203]);
            questions::with_frames(rng, sound, frames)
        }
        80..=91 => questions::always_true(rng, size),
        _ => questions::always_false(rng, size),
    };
    // Now and then with a second matter, so that their order shows.
    match rng.below(30) {
        0 => question = questions::with_frames(rng, question, 202),
        1 => question.variables = question.variables.max(33),
        _ => {}
    }
    let mut text = question_texts::in_some_style(rng, &question);
    compare::question_reading(run, &text, Some(&question));
    compare::question_matrix(run, &text, &question);
    if run.rng.below(8) == 0 {
        text = faults::damaged(&mut run.rng, &text);
    }
    run.tally.met.note_question(&text);
    let pieces = if run.number.is_multiple_of(20) { 3 } else { 1 };
    compare::question(run, &text, pieces);
}

/// Questions with one break of the standard, but for which they would not be refused by 18: one that is overlooked shows.
pub fn broken(run: &mut Run) {
    let rng = &mut run.rng;
    let question = loop {
        let question = match rng.below(5) {
            0 => questions::around_32_variables(rng),
            1 | 2 => questions::question(rng, questions::SMALL),
            _ => questions::question(rng, questions::MIDDLE),
        };
        let unbroken = question::sheet(&question_texts::plain(&question));
        if !matches!(unbroken, Err(Cause::AlwaysTrue | Cause::AlwaysFalse)) {
            break question;
        }
    };
    let text = faults::broken(rng, &question);
    compare::question_reading(run, &text, None);
    run.tally.met.note_question(&text);
    compare::question(run, &text, 1);
}

const READER_BYTES: usize = 64 * 1024;
const SHORT: &[u8] = b"p cnf 1 1\n1 0\n";

/// Texts as long as the program takes, or with much of something, and what is to be said of them.
const LIMITS: &[(fn() -> Vec<u8>, Option<Cause>)] = &[
    (|| joined(filled(b"c", b'c', READER_BYTES - SHORT.len()), SHORT), None),
    (|| joined(b"c\n".repeat((READER_BYTES - SHORT.len()) / 2), SHORT), None),
    (|| filled(b"p cnf 1 1\n1 0", b' ', READER_BYTES), None),
    (|| filled(b"p cnf 1 1\n1 0", b'\t', READER_BYTES - 1), None),
    (|| joined(joined(b"p".to_vec(), &[b' '; 60_000]), b"cnf 1 1\n1 0\n"), None),
    (|| joined(joined(b"p cnf 1 1\n".to_vec(), &[b'\t'; 60_000]), b"1 0\n"), None),
    (|| filled(b"c", b'c', 65_000)[..64_999].to_vec(), Some(Cause::Text)),
    (|| filled(b"p cnf 1 1", b' ', 65_000), Some(Cause::Text)),
    (|| vec![b'\n'; 65_000], Some(Cause::Text)),
    (|| vec![0; 65_000], Some(Cause::Text)),
    (|| vec![b'1'; 65_000], Some(Cause::Text)),
    (|| joined(b"p cnf ".to_vec(), &[b'9'; 60_000]), Some(Cause::Text)),
    (|| numbered("p cnf {} 1\n1 0\n", 60_000), Some(Cause::Text)),
    (|| numbered("p cnf 1 {}\n1 0\n", 60_000), Some(Cause::Text)),
    (|| numbered("p cnf 1 1\n{} 0\n", 60_000), Some(Cause::Text)),
    (|| numbered("p cnf 1 1\n1 0{}\n", 60_000), Some(Cause::Text)),
    // Clauses and literals of one variable.
    (|| joined(b"p cnf 1 200\n".to_vec(), &b"1 0\n".repeat(200)), None),
    (|| joined(b"p cnf 1 201\n".to_vec(), &b"1 0\n".repeat(201)), Some(Cause::Frames)),
    (|| joined(b"p cnf 1 256\n".to_vec(), &b"1 0\n".repeat(256)), Some(Cause::Frames)),
    (|| joined(b"p cnf 1 257\n".to_vec(), &b"1 0\n".repeat(257)), Some(Cause::Frames)),
    (|| joined(b"p cnf 1 16000\n".to_vec(), &b"1 0\n".repeat(16_000)), Some(Cause::Frames)),
    (|| joined(b"p cnf 1 16000\n".to_vec(), &b"1 0\n".repeat(15_999)), Some(Cause::Text)),
    (|| joined(b"p cnf 1 16000\n".to_vec(), &b"1 0\n".repeat(16_001)), Some(Cause::Text)),
    (|| joined(joined(b"p cnf 1 1\n".to_vec(), &b"1 ".repeat(256)), b"0\n"), Some(Cause::Frames)),
    (|| joined(joined(b"p cnf 1 1\n".to_vec(), &b"-1 ".repeat(20_000)), b"0\n"), Some(Cause::Frames)),
    // Every atom quantified, all of them in one clause, and the last one twice or in no clause.
    (|| of_one_set(32, 0, 0), None),
    (|| of_one_set(33, 0, 0), Some(Cause::Variables)),
    (|| of_one_set(33, 1, 0), Some(Cause::Text)),
    (|| of_one_set(33, 0, 1), Some(Cause::Text)),
    (|| of_one_set(257, 1, 0), Some(Cause::Text)),
    (|| of_one_set(257, 0, 1), Some(Cause::Text)),
    (|| of_one_set(5000, 0, 0), Some(Cause::Variables)),
    (|| of_one_set(5000, 1, 0), Some(Cause::Text)),
    (|| of_one_set(5000, 0, 1), Some(Cause::Text)),
];

/// The text with so many bytes, the rest of them this one and a line's end.
fn filled(text: &[u8], byte: u8, bytes: usize) -> Vec<u8> {
    let mut text = text.to_vec();
    text.resize(bytes - 1, byte);
    joined(text, b"\n")
}

/// The text with a number of so many digits, 0 and 1 in its lowest.
fn numbered(text: &str, digits: usize) -> Vec<u8> {
    text.replace("{}", &format!("1{}1", "0".repeat(digits - 2))).into_bytes()
}

/// One set and one clause of so many variables; the last so many times more in the set, and so many less in the clause.
fn of_one_set(variables: usize, more: usize, less: usize) -> Vec<u8> {
    let numbers = |last: usize| (1..=last).map(|number| format!("{number} ")).collect::<String>();
    let (again, atoms, clause) = (format!("{variables} ").repeat(more), numbers(variables), numbers(variables - less));
    format!("p cnf {variables} 1\ne {atoms}{again}0\n{clause}0\n").into_bytes()
}

pub fn limit_runs(_: &Options, _: Form) -> u64 {
    LIMITS.len() as u64
}

pub fn limits(run: &mut Run) {
    let (text, cause) = LIMITS[run.number as usize];
    let text = text();
    let found = question::sheet(&text).err();
    run.check(found == cause, || format!("the evaluator finds {found:?} and not {cause:?}"));
    compare::question(run, &text, 1);
}
