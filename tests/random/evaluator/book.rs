//! The plain book: a list of entries, oldest first, each with the desk that made it (documents/02-change-requests.md),
//! and the answer to one script line.

use super::form::Form;
use super::truth::Truth;

/// Desks are 0 to 7.
const LAST_DESK: u8 = 7;

#[derive(Clone, Copy)]
pub struct Entry {
    pub variable: u8,
    pub value: u8,
    pub desk: u8,
}

/// The answer's bytes; the book is changed by ENTER and TAKE BACK alone, and by no refused line.
pub fn line(form: Form, truth: &Truth, book: &mut Vec<Entry>, line: [u8; 4]) -> Vec<u8> {
    let (refusal, v, word) = match cause(truth, book, line) {
        Some(number) => (number, 0, 0),
        None => {
            let (v, word) = accepted(truth, book, line);
            (0, v, word)
        }
    };
    let word = word.to_be_bytes();
    [&[refusal, v], &word[word.len() - (form.answer() - 2)..]].concat()
}

/// The first cause of a refusal: 12 before the others, those by number except that 24 stands between 14 and 15.
fn cause(truth: &Truth, book: &[Entry], [k, a, b, c]: [u8; 4]) -> Option<u8> {
    let spare = match k {
        0x10 => 0,
        0x12 => b | c,
        0x11 | 0x13 | 0x14 => a | b | c,
        _ => return Some(12),
    };
    if spare != 0 {
        return Some(12);
    }
    let open = |variable: u8| variable < 64 && truth.open >> variable & 1 == 1;
    match k {
        0x10 if !open(a) => Some(13),
        0x10 if b > 1 => Some(14),
        0x10 if c > LAST_DESK => Some(24),
        0x10 if book.iter().any(|entry| entry.variable == a) => Some(15),
        0x11 if book.is_empty() => Some(16),
        0x12 if usize::from(a) >= book.len() => Some(17),
        _ => None,
    }
}

/// V and the word of a line that meets no cause.
fn accepted(truth: &Truth, book: &mut Vec<Entry>, [k, a, b, c]: [u8; 4]) -> (u8, u64) {
    let (entered, values) = entries(book);
    match k {
        0x10 => {
            book.push(Entry { variable: a, value: b, desk: c });
            (book.len() as u8, 0)
        }
        0x11 => told(book.pop().unwrap()),
        0x12 => told(book[usize::from(a)]),
        0x13 => answered(truth.ask(entered, values)),
        _ => answered(truth.why(entered, values)),
    }
}

fn answered((verdict, word): (bool, u64)) -> (u8, u64) {
    (verdict.into(), word)
}

/// V and the word that tell an entry: its variable, and 256 times its desk plus its value.
fn told(entry: Entry) -> (u8, u64) {
    (entry.variable, 256 * u64::from(entry.desk) + u64::from(entry.value))
}

/// The mask of the entered variables, and their values. What is asked does not depend on desks.
fn entries(book: &[Entry]) -> (u64, u64) {
    book.iter().fold((0, 0), |(entered, values), entry| {
        (entered | 1 << entry.variable, values | u64::from(entry.value) << entry.variable)
    })
}
