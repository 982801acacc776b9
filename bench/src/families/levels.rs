//! Quantifiers in front of random clauses: alternation, two blocks, three blocks.

use super::cnf;
use crate::builder::{Builder, Frame};
use crate::rng::Rng;

/// One quantifier for each variable, from the last one inwards: forall for the even variables.
fn alternating(b: &mut Builder, variables: usize, matrix: Frame) -> Frame {
    (0..variables).rev().fold(matrix, |frame, variable| b.quantified(variable % 2 == 0, variable..variable + 1, frame))
}

/// Clauses of one forall variable and two exists variables, at least one of these after it.
pub fn alternation(mut b: Builder, rng: &mut Rng, variables: usize, clauses: usize) -> Vec<u8> {
    let mut all = Vec::new();
    for _ in 0..clauses {
        let asked = 2 * rng.below(variables / 2);
        let after = asked + 1 + 2 * rng.below((variables - asked) / 2);
        let other = 2 * rng.below(variables / 2) + 1;
        let clause = super::literals(&mut b, rng, &[asked, after, other]);
        all.push(b.any(&clause));
    }
    let matrix = b.all(&all);
    let last = alternating(&mut b, variables, matrix);
    b.finish(last)
}

/// One quantifier per variable in alternation, 16 levels, before random clauses.
pub fn alternation_16(rng: &mut Rng, index: usize) -> Vec<u8> {
    alternation(Builder::default(), rng, 16, 10 + 2 * index)
}

/// The same with 32 levels.
pub fn alternation_32(rng: &mut Rng, index: usize) -> Vec<u8> {
    alternation(Builder::default(), rng, 32, 19 + 3 * index)
}

/// Each exists variable must equal a gate of two variables before it, so there is one reply to every question; in odd sheets
/// the last one must be true as well.
pub fn replies(mut b: Builder, rng: &mut Rng, variables: usize, index: usize) -> Vec<u8> {
    let mut rules = Vec::new();
    for reply in (1..variables).step_by(2) {
        let question = b.input(reply - 1);
        let earlier = b.input(rng.below(reply));
        let (question, earlier) = (b.signed(question, rng.percent(50)), b.signed(earlier, rng.percent(50)));
        let gate = if rng.percent(50) { b.and(question, earlier) } else { b.or(question, earlier) };
        let input = b.input(reply);
        rules.push(b.equal(input, gate));
    }
    if index % 2 == 1 {
        rules.push(b.input(variables - 1));
    }
    let matrix = b.all(&rules);
    let last = alternating(&mut b, variables, matrix);
    b.finish(last)
}

/// A game with one right reply to every question, 16 levels.
pub fn replies_16(rng: &mut Rng, index: usize) -> Vec<u8> {
    replies(Builder::default(), rng, 16, index)
}

/// The same with 32 levels.
pub fn replies_32(rng: &mut Rng, index: usize) -> Vec<u8> {
    replies(Builder::default(), rng, 32, index)
}

/// 2QBF: for all of 14 variables there are 14 others, random 3-CNF near the threshold (one of the first, two of the others).
pub fn forall_exists(rng: &mut Rng, index: usize) -> Vec<u8> {
    two_blocks(Builder::default(), rng, 14, 22 + 3 * index)
}

/// For all of the first block there is the second, both of so many variables.
pub fn two_blocks(mut b: Builder, rng: &mut Rng, block: usize, clauses: usize) -> Vec<u8> {
    let matrix = cnf(&mut b, rng, clauses, &[(0..block, 1), (block..2 * block, 2)]);
    let reply = b.exists(block..2 * block, matrix);
    let last = b.forall(0..block, reply);
    b.finish(last)
}

/// 2QBF the other way round: are there 14 open variables such that for all of 14 others a random 3-CNF is false?
pub fn exists_forall(rng: &mut Rng, index: usize) -> Vec<u8> {
    let mut b = Builder::default();
    let matrix = cnf(&mut b, rng, 22 + 3 * index, &[(0..14, 1), (14..28, 2)]);
    let not = b.not(matrix);
    let last = b.forall(14..28, not);
    b.finish(last)
}

/// Three blocks: exists 10 (open), forall 10, exists 10, random clauses of one of each.
pub fn three_blocks(rng: &mut Rng, index: usize) -> Vec<u8> {
    open_forall_exists(Builder::default(), rng, 10, 19 + 5 * index)
}

/// Exists (open), forall, exists, each of so many variables.
pub fn open_forall_exists(mut b: Builder, rng: &mut Rng, block: usize, clauses: usize) -> Vec<u8> {
    let [first, second, third] = [0, 1, 2].map(|place| place * block..(place + 1) * block);
    let matrix = cnf(&mut b, rng, clauses, &[(first, 1), (second.clone(), 1), (third.clone(), 1)]);
    let reply = b.exists(third, matrix);
    let last = b.forall(second, reply);
    b.finish(last)
}

/// Three blocks, forall first: forall 10, exists 10, forall 10, random terms of one of each of which one must hold.
pub fn three_blocks_dual(rng: &mut Rng, index: usize) -> Vec<u8> {
    let mut b = Builder::default();
    let matrix = cnf(&mut b, rng, 19 + 5 * index, &[(0..10, 1), (10..20, 1), (20..30, 1)]);
    let not = b.not(matrix);
    let inner = b.forall(20..30, not);
    let reply = b.exists(10..20, inner);
    let last = b.forall(0..10, reply);
    b.finish(last)
}
