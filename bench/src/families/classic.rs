//! Cases that solvers are known to find hard, and cases that trip a careless one.

use super::{cnf, some};
use crate::builder::{Builder, Frame};
use crate::rng::Rng;

/// Pigeons into one hole fewer, from 3 to 6 pigeons: no setting of the open variables. In odd sheets one pigeon may stay out.
pub fn pigeonhole(_: &mut Rng, index: usize) -> Vec<u8> {
    let holes = [2, 3, 3, 4, 5, 5][index];
    let mut b = Builder::default();
    let inside = b.inputs(0..(holes + 1) * holes);
    let mut rules = Vec::new();
    for pigeon in inside.chunks(holes).skip(index % 2) {
        rules.push(b.any(pigeon));
    }
    for hole in 0..holes {
        let here: Vec<Frame> = inside.iter().copied().skip(hole).step_by(holes).collect();
        rules.push(b.at_most_one(&here));
    }
    let all = b.all(&rules);
    b.finish(all)
}

/// However pigeons choose among four holes (two bits each), two of them meet: five pigeons, or four in odd sheets, which is
/// not enough; the bits of the first are open.
pub fn pigeonhole_forall(rng: &mut Rng, index: usize) -> Vec<u8> {
    let pigeons = 5 - index % 2;
    let mut b = Builder::default();
    let mut choices: Vec<[Frame; 2]> = (0..pigeons).map(|pigeon| [0, 1].map(|bit| b.input(2 * pigeon + bit))).collect();
    rng.shuffle(&mut choices);
    let mut meetings = Vec::new();
    for (place, first) in choices.iter().enumerate() {
        for second in &choices[place + 1..] {
            meetings.push(b.same(first, second));
        }
    }
    let some = b.any(&meetings);
    let last = b.forall(2..2 * pigeons, some);
    b.finish(last)
}

/// Random 3-CNF near the threshold over 13 open variables: no quantifier.
pub fn three_cnf(rng: &mut Rng, _: usize) -> Vec<u8> {
    let mut b = Builder::default();
    let all = cnf(&mut b, rng, 57, &[(0..13, 3)]);
    b.finish(all)
}

/// As many random parities of three as there are open variables, about: no quantifier, hard without elimination.
pub fn xor_system(rng: &mut Rng, index: usize) -> Vec<u8> {
    let mut b = Builder::default();
    let x = b.inputs(0..18);
    let mut rules = Vec::new();
    while b.size() < b.most_frames() - 35 {
        let three: Vec<Frame> = some(rng, 0..18, 3).into_iter().map(|variable| x[variable]).collect();
        let parity = b.parity(&three);
        rules.push(b.signed(parity, rng.percent(50)));
    }
    rules.truncate(rules.len() - index % 2);
    let all = b.all(&rules);
    b.finish(all)
}

/// One setting of 32 open variables only, and one of the last by number: each variable, most of them set, asks for the next one
/// up, and the lowest is asked for.
pub fn needle(rng: &mut Rng, _: usize) -> Vec<u8> {
    let mut b = Builder::default();
    let x = b.inputs(0..32);
    let wanted: Vec<Frame> = x.iter().map(|&x| b.signed(x, rng.percent(80))).collect();
    let mut rules = vec![wanted[0]];
    rules.extend(wanted.windows(2).map(|pair| b.implies(pair[0], pair[1])));
    let all = b.all(&rules);
    b.finish(all)
}

/// A full search: 16 open variables and 170 frames, three parity chains in different orders that cannot all be what is asked.
pub fn full_search(rng: &mut Rng, _: usize) -> Vec<u8> {
    let mut b = Builder::default();
    let mut x = b.inputs(0..16);
    let first = b.parity(&x);
    rng.shuffle(&mut x);
    let second = b.parity(&x);
    rng.shuffle(&mut x);
    let third = b.parity(&x[..8]);
    let not_second = b.not(second);
    let both = b.and(first, not_second);
    let either = b.or(third, both);
    let last = b.and(both, either);
    b.finish(last)
}

/// 199 gates, each naming the frame before it twice: the unfolded formula has two to the 199th parts. AND; OR; NOT between;
/// both gates; under EXISTS; under FORALL.
pub fn doubling(_: &mut Rng, index: usize) -> Vec<u8> {
    let mut b = Builder::default();
    let mut frame = b.input(7);
    while b.size() < b.most_frames() - 1 {
        frame = match (index, b.size() % 2) {
            (2, 0) => b.not(frame),
            (1, _) | (3, 0) => b.or(frame, frame),
            _ => b.and(frame, frame),
        };
    }
    let last = match index {
        4 => b.exists(7..8, frame),
        5 => b.forall(7..8, frame),
        _ => b.and(frame, frame),
    };
    b.finish(last)
}

/// Idle variables: quantifiers bind up to 30 variables of which two or three occur.
pub fn idle(rng: &mut Rng, index: usize) -> Vec<u8> {
    let mut b = Builder::default();
    let open = b.inputs(0..2);
    let split = rng.between(6, 28);
    let outer = some(rng, 2..split, 2).into_iter().map(|variable| b.input(variable)).collect::<Vec<_>>();
    let inner = some(rng, split..32, 2).into_iter().map(|variable| b.input(variable)).collect::<Vec<_>>();
    let frames = [&open[..], &outer, &inner].concat();
    let body = b.parity(&frames);
    let inside = b.quantified(index % 2 == 0, split..32, body);
    let body = if index < 3 { b.or(inside, open[0]) } else { b.and(inside, open[0]) };
    let last = b.quantified(index % 3 == 0, 2..split, body);
    b.finish(last)
}

/// Quantified frames inside each other, each named in both polarities: the prenex form doubles at every level, 3 to 8 levels.
pub fn both_polarities(rng: &mut Rng, index: usize) -> Vec<u8> {
    let levels = 3 + index;
    let mut b = Builder::default();
    let open = b.inputs(0..4);
    let mut frame = open[0];
    for level in 0..levels {
        let first = 4 + 3 * level;
        let own = b.inputs(first..first + 3);
        // The variables of the next level out are open here.
        let outer = b.input(if level + 1 < levels { first + 3 + rng.below(3) } else { rng.below(4) });
        let parity = b.differ(frame, own[0]);
        let choice = b.or(own[1], own[2]);
        let (not_choice, met) = (b.not(choice), b.and(choice, parity));
        let other = b.differ(outer, own[1]);
        let unmet = b.and(not_choice, other);
        let body = b.or(met, unmet);
        frame = b.quantified(level % 2 == 0, first..first + 3, body);
    }
    let last = b.signed(frame, index % 3 == 0);
    b.finish(last)
}
