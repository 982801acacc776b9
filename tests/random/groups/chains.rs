//! Sheets with up to all variables.

use crate::compare;
use crate::evaluator::book::Entry;
use crate::evaluator::{self, Call};
use crate::generate::chains::{self, Chain};
use crate::rng::Rng;
use crate::run::Run;

/// A chain, by itself or inside quantifiers.
pub fn chain(run: &mut Run) {
    let sheet = if run.number.is_multiple_of(2) { chains::chain } else { chains::nest };
    let (sheet, chain) = sheet(&mut run.rng, run.form);
    asked(run, &sheet, &chain);
}

/// A script of entries and questions with the answers to it. Of few variables, the evaluator's are the same.
fn asked(run: &mut Run, sheet: &[u8], chain: &Chain) {
    let form = run.form;
    let (mut script, mut answers) = (Vec::new(), Vec::new());
    let mut entries = Vec::new();
    for _ in 0..run.rng.between(1, 150) {
        let (line, v, word) = line(&mut run.rng, chain, &mut entries);
        script.extend(line);
        answers.extend([0, v]);
        answers.extend(&word.to_be_bytes()[8 - (form.answer() - 2)..]);
    }
    let call = Call { form, sheet, script: &script };
    if sheet.len() <= 24 * form.frame() {
        let evaluated = evaluator::run(call, usize::MAX);
        run.check(evaluated.as_ref() == Ok(&answers), || format!("the evaluator finds {evaluated:?}, not {answers:?}"));
    }
    let room = run.rng.bytes(call.needed() + 3);
    compare::call_expecting(run, call, &room, &Ok(answers));
}

/// A line that is not refused, V and the word.
fn line(rng: &mut Rng, chain: &Chain, entries: &mut Vec<Entry>) -> ([u8; 4], u8, u64) {
    let of_entries =
        |bit: fn(&Entry) -> u8| entries.iter().fold(0, |mask, entry| mask | u64::from(bit(entry)) << entry.variable);
    let (entered, values) = (of_entries(|_| 1), of_entries(|entry| entry.value));
    let left: Vec<u8> = (0..64).filter(|&variable| (chain.open & !entered) >> variable & 1 == 1).collect();
    match rng.below(20) {
        0..=11 if !left.is_empty() => {
            let entry = entry(rng, chain, &left);
            entries.push(entry);
            ([0x10, entry.variable, entry.value, entry.desk], entries.len() as u8, 0)
        }
        12 if !entries.is_empty() => told(0x11, 0, entries.pop().unwrap()),
        13..=14 if !entries.is_empty() => {
            let place = rng.below(entries.len());
            told(0x12, place as u8, entries[place])
        }
        15..=17 => {
            let (verdict, word) = chain.ask(entered, values);
            ([0x13, 0, 0, 0], verdict.into(), word)
        }
        _ => {
            let (verdict, mask) = chain.why(entered, values);
            ([0x14, 0, 0, 0], verdict.into(), mask)
        }
    }
}

/// An entry of one of the variables; seldom one that settles the chain.
fn entry(rng: &mut Rng, chain: &Chain, left: &[u8]) -> Entry {
    let variable = rng.pick(left);
    let positive = chain.positive >> variable & 1 == 1;
    let literal = chain.or == rng.percent(3);
    Entry { variable, value: (positive == literal).into(), desk: rng.below(8) as u8 }
}

/// A line that tells an entry, V and the word.
fn told(kind: u8, place: u8, entry: Entry) -> ([u8; 4], u8, u64) {
    ([kind, place, 0, 0], entry.variable, 256 * u64::from(entry.desk) + u64::from(entry.value))
}
