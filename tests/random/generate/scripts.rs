//! Random scripts for a sheet with given open variables.

use crate::evaluator::form::{Form, LINE};
use crate::rng::Rng;

/// Mostly sound lines, so that entries stand when ASK and WHY come; `questions` is the percentage of these two.
pub fn script(rng: &mut Rng, form: Form, open: u64, lines: usize, questions: usize) -> Vec<u8> {
    let open: Vec<u8> = (0..form.variables()).filter(|&variable| open >> variable & 1 == 1).collect();
    let mut standing = Vec::new();
    (0..lines).flat_map(|_| line(rng, form, &open, &mut standing, questions)).collect()
}

fn line(rng: &mut Rng, form: Form, open: &[u8], standing: &mut Vec<u8>, questions: usize) -> [u8; 4] {
    if rng.percent(questions) {
        return [rng.pick(&[0x13, 0x13, 0x14]), 0, 0, 0];
    }
    let left: Vec<u8> = open.iter().copied().filter(|variable| !standing.contains(variable)).collect();
    match rng.below(20) {
        0..=10 if !left.is_empty() => {
            let variable = rng.pick(&left);
            standing.push(variable);
            [0x10, variable, rng.below(2) as u8, desk(rng)]
        }
        0..=14 if !standing.is_empty() => {
            standing.pop();
            [0x11, 0, 0, 0]
        }
        15..=16 => [0x12, rng.below(standing.len() + 2) as u8, 0, 0],
        17 => [0x13, 0, 0, 0],
        _ => doubtful(rng, form, open, standing),
    }
}

/// A line that is likely, but not sure, to be refused. It never changes the entries. An ENTER line has one or more of
/// its faults, so that their order shows.
fn doubtful(rng: &mut Rng, form: Form, open: &[u8], standing: &[u8]) -> [u8; 4] {
    let variables = form.variables();
    let edges = [0, 1, 2, 31, variables - 1, variables, variables + 1, 40, 128, 255];
    let (edge, other) = (rng.pick(&edges), rng.pick(&edges));
    let fault = rng.between(1, 255) as u8;
    match rng.below(12) {
        0 => [rng.pick(&[0x00, 0x01, 0x06, 0x07, 0x0F, 0x15, 0x20, 0x90, 0xFF]), edge, other, some_desk(rng)],
        1 => [0x10, edge, other, no_desk(rng)],
        2 => [rng.pick(&[0x11, 0x13, 0x14]), fault, edge, other],
        3 => [rng.pick(&[0x11, 0x12, 0x13, 0x14]), 0, fault, edge],
        4 => [rng.pick(&[0x11, 0x12, 0x13, 0x14]), 0, 0, fault],
        5 => [0x10, rng.pick(&[variables, variables + 8, 96, 128, 255]), edge, some_desk(rng)],
        6 if !open.is_empty() => [0x10, rng.pick(open), rng.between(2, 255) as u8, some_desk(rng)],
        7 if !standing.is_empty() => [0x10, rng.pick(standing), rng.below(3) as u8, some_desk(rng)],
        8 if open.len() < usize::from(variables) => [0x10, closed(rng, form, open), rng.below(3) as u8, some_desk(rng)],
        9 if standing.is_empty() => [0x11, 0, 0, 0],
        10 if !open.is_empty() => [0x10, rng.pick(open), rng.below(3) as u8, no_desk(rng)],
        _ => [0x12, edge, 0, 0],
    }
}

/// One of the desks 0 to 7, 0 more often.
fn desk(rng: &mut Rng) -> u8 {
    if rng.percent(25) {
        0
    } else {
        rng.below(8) as u8
    }
}

/// A number above 7, which is no desk's.
fn no_desk(rng: &mut Rng) -> u8 {
    let any = rng.between(8, 255) as u8;
    rng.pick(&[8, 8, 9, 15, 16, 128, 255, 255, any, any])
}

/// One of 0 to 7 or a number above.
fn some_desk(rng: &mut Rng) -> u8 {
    if rng.percent(50) {
        desk(rng)
    } else {
        no_desk(rng)
    }
}

/// The script with desks drawn anew for its ENTER lines, all 0 to 7.
pub fn with_other_desks(rng: &mut Rng, script: &[u8]) -> Vec<u8> {
    let mut script = script.to_vec();
    for line in script.chunks_exact_mut(LINE) {
        if line[0] == 0x10 {
            line[3] = desk(rng);
        }
    }
    script
}

/// A variable that is not open; there is one.
fn closed(rng: &mut Rng, form: Form, open: &[u8]) -> u8 {
    let closed: Vec<u8> = (0..form.variables()).filter(|variable| !open.contains(variable)).collect();
    rng.pick(&closed)
}
