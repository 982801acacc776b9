//! Random questions in QDIMACS: sound ones, ones around the limits, and ones whose matrix is always true or always false.

use crate::evaluator::question::{Question, Set};
use crate::rng::Rng;

/// The most variables in the clauses, clauses, and literals of a clause.
#[derive(Clone, Copy)]
pub struct Size {
    pub variables: usize,
    pub clauses: usize,
    pub literals: usize,
}

pub const SMALL: Size = Size { variables: 4, clauses: 4, literals: 3 };
pub const MIDDLE: Size = Size { variables: 9, clauses: 9, literals: 4 };
pub const LARGE: Size = Size { variables: 32, clauses: 40, literals: 4 };

/// A sheet's most variables.
const MOST: usize = 32;

/// A question of at most 32 variables. Its matrix may be always true or always false, and its sheet too large.
pub fn question(rng: &mut Rng, size: Size) -> Question {
    let (variables, clauses) = clauses(rng, size);
    quantified(rng, variables, clauses)
}

/// A problem line's number of variables, and clauses of some of these.
fn clauses(rng: &mut Rng, size: Size) -> (i32, Vec<Vec<i32>>) {
    let used = rng.between(1, size.variables);
    let any = rng.between(used, MOST);
    let highest = rng.pick(&[used, (used + 3).min(MOST), any, MOST]);
    let numbers = numbers(rng, used, highest);
    let width = rng.between(1, size.literals).max(rng.between(1, size.literals));
    let count = rng.between(1, size.clauses);
    let clauses: Vec<Vec<i32>> = (0..count).map(|_| clause(rng, &numbers, width)).collect();
    (highest as i32, clauses)
}

/// So many of the numbers up to the highest: next to each other or anywhere.
fn numbers(rng: &mut Rng, count: usize, highest: usize) -> Vec<i32> {
    let mut numbers: Vec<i32> = (1..=highest as i32).collect();
    if rng.percent(50) {
        rng.shuffle(&mut numbers);
    } else {
        numbers.rotate_left(rng.below(highest - count + 1));
    }
    numbers.truncate(count);
    numbers
}

/// At most so many literals, and at times one of them again or its opposite.
fn clause(rng: &mut Rng, numbers: &[i32], width: usize) -> Vec<i32> {
    let count = rng.between(width.div_ceil(2), width);
    let mut clause: Vec<i32> = (0..count).map(|_| rng.pick(numbers) * rng.pick(&[1, -1])).collect();
    if rng.percent(15) {
        let again = rng.pick(&clause) * rng.pick(&[1, 1, -1]);
        clause.insert(rng.below(clause.len() + 1), again);
    }
    clause
}

/// The clauses behind sets of some or all of their variables.
fn quantified(rng: &mut Rng, variables: i32, clauses: Vec<Vec<i32>>) -> Question {
    let mut question = Question { variables, sets: Vec::new(), clauses };
    let mut atoms: Vec<i32> = question.occurring().into_iter().map(|variable| variable as i32).collect();
    // In ascending order the sets get long runs of consecutive numbers.
    if rng.percent(60) {
        rng.shuffle(&mut atoms);
    }
    let some = rng.between(1, atoms.len());
    for _ in 0..rng.pick(&[0, 0, 1, some, atoms.len()]) {
        atoms.remove(rng.below(atoms.len()));
    }
    let mut forall = false;
    while !atoms.is_empty() {
        let most = atoms.len();
        let count = if rng.percent(20) { most } else { rng.between(1, most.div_ceil(2)) };
        let mut set = atoms.split_off(most - count);
        rng.shuffle(&mut set);
        question.sets.insert(0, Set { forall, atoms: set });
        forall = !forall;
    }
    question
}

/// Numbers of variables around 32, around 64 and the other sizes of words, and around the largest.
const HIGHEST: &[i32] = &[31, 32, 33, 33, 34, 63, 64, 65, 96, 255, 256, 257, 65_535, 65_537, i32::MAX - 1, i32::MAX];

/// A question with a problem line of 31 variables or more. Its clauses have the first of them or the last.
pub fn around_32_variables(rng: &mut Rng) -> Question {
    let mut question = question(rng, MIDDLE);
    let occurring = question.occurring();
    let (lowest, highest) = (*occurring.first().unwrap() as i32, *occurring.last().unwrap() as i32);
    question.variables = rng.pick(HIGHEST).max(highest - lowest + 1);
    let shift = if rng.percent(50) { question.variables - highest } else { 1 - lowest };
    let shifted = |number: &mut i32| *number += shift * number.signum();
    question.sets.iter_mut().flat_map(|set| &mut set.atoms).for_each(shifted);
    question.clauses.iter_mut().flatten().for_each(shifted);
    question
}

/// The same question, but with clauses and literals said again until its sheet has so many frames.
pub fn with_frames(rng: &mut Rng, mut question: Question, frames: usize) -> Question {
    loop {
        let missing = frames.saturating_sub(question.frames().len());
        if missing == 0 {
            return question;
        }
        let place = rng.below(question.clauses.len());
        let clause = &mut question.clauses[place];
        if clause.len() <= missing && rng.percent(30) {
            let again = clause.clone();
            question.clauses.insert(rng.below(question.clauses.len() + 1), again);
        } else {
            let again = rng.pick(clause);
            clause.insert(rng.below(clause.len() + 1), again);
        }
    }
}

/// Every clause has a literal beside its opposite.
pub fn always_true(rng: &mut Rng, size: Size) -> Question {
    let mut question = question(rng, size);
    for clause in &mut question.clauses {
        let opposite = -rng.pick(clause);
        clause.insert(rng.below(clause.len() + 1), opposite);
    }
    question
}

/// No setting makes all clauses true: they contain every mix of signs of some variables, a circle of implications from a
/// literal through its opposite, or more pigeons than holes.
pub fn always_false(rng: &mut Rng, size: Size) -> Question {
    let (variables, mut clauses) = clauses(rng, size);
    let highest = variables as usize;
    let count = rng.between(1, highest.min(5));
    let numbers = numbers(rng, count, highest);
    let false_ones = match rng.below(5) {
        0 | 1 => every_sign(&numbers[..count.min(3)]),
        2 | 3 => circle(rng, &numbers),
        _ => return pigeons(rng),
    };
    for clause in false_ones {
        clauses.insert(rng.below(clauses.len() + 1), clause);
    }
    quantified(rng, variables, clauses)
}

fn every_sign(numbers: &[i32]) -> Vec<Vec<i32>> {
    let signed = |signs: usize| {
        let literals = numbers.iter().enumerate();
        literals.map(|(place, number)| if signs >> place & 1 == 1 { -number } else { *number }).collect()
    };
    (0..1 << numbers.len()).map(signed).collect()
}

/// Each literal implies the next, the last one the first; one of them is the first one's opposite.
fn circle(rng: &mut Rng, numbers: &[i32]) -> Vec<Vec<i32>> {
    let mut literals: Vec<i32> = numbers.iter().map(|number| number * rng.pick(&[1, -1])).collect();
    let opposite = -literals[0];
    literals.insert(rng.between(1, literals.len()), opposite);
    let next = literals.iter().cycle().skip(1);
    literals.iter().zip(next).map(|(&from, &to)| vec![-from, to]).collect()
}

/// Three pigeons and two holes, up to five and four.
fn pigeons(rng: &mut Rng) -> Question {
    let holes = rng.between(2, 4) as i32;
    let sits = |pigeon: i32, hole: i32| pigeon * holes + hole + 1;
    let mut clauses: Vec<Vec<i32>> = Vec::new();
    for pigeon in 0..=holes {
        clauses.push((0..holes).map(|hole| sits(pigeon, hole)).collect());
        for (other, hole) in (0..pigeon).flat_map(|other| (0..holes).map(move |hole| (other, hole))) {
            clauses.push(vec![-sits(pigeon, hole), -sits(other, hole)]);
        }
    }
    quantified(rng, (holes + 1) * holes, clauses)
}
