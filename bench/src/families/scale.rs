//! Sheets of growing size, for `bench/scale`: by variables and by frames.

use super::random::{circuits, Each};
use super::{cnf, SEED};
use crate::builder::Builder;
use crate::evaluator::form::Form::{self, Narrow, Wide};
use crate::rng::Rng;

pub struct Sweep {
    /// That of wide sheets begins with `wide`, as a family's.
    pub name: &'static str,
    pub form: Form,
    /// What grows.
    pub axis: &'static str,
    pub sizes: &'static [usize],
    sheet: fn(&mut Rng, usize) -> Vec<u8>,
}

impl Sweep {
    pub fn sheet(&self, size: usize, index: usize) -> Vec<u8> {
        (self.sheet)(&mut Rng::new(SEED, size as u64, index as u64), size)
    }
}

const FRAMES: &[usize] = &[100, 120, 140, 160, 180, 200];

pub const SWEEPS: &[Sweep] = &[
    Sweep {
        name: "two-blocks",
        form: Narrow,
        axis: "variables",
        sizes: &[8, 12, 16, 20, 24, 28, 32],
        sheet: |rng, size| two_blocks(Builder::default(), rng, size, 5 * size + 12),
    },
    Sweep {
        name: "two-blocks",
        form: Narrow,
        axis: "frames",
        sizes: FRAMES,
        sheet: |rng, size| two_blocks(Builder::default(), rng, 28, size),
    },
    Sweep {
        name: "replies",
        form: Narrow,
        axis: "variables",
        sizes: &[4, 8, 12, 16, 20, 24, 28, 32],
        sheet: |rng, size| replies(rng, size, 200),
    },
    Sweep { name: "replies", form: Narrow, axis: "frames", sizes: FRAMES, sheet: |rng, size| replies(rng, 28, size) },
    Sweep {
        name: "full-search",
        form: Narrow,
        axis: "variables",
        sizes: &[6, 8, 10, 12, 14, 16, 18, 20, 22],
        sheet: |rng, size| full_search(rng, size, 9 * size),
    },
    Sweep {
        name: "full-search",
        form: Narrow,
        axis: "frames",
        sizes: &[120, 140, 160, 180, 200],
        sheet: |rng, size| full_search(rng, 12, size),
    },
    Sweep {
        name: "wide-two-blocks",
        form: Wide,
        axis: "variables",
        sizes: &[16, 24, 32, 40, 48, 56, 64],
        sheet: |rng, size| two_blocks(Builder::wide(), rng, size, 5 * size + 12),
    },
    Sweep {
        name: "wide-circuits",
        form: Wide,
        axis: "frames",
        sizes: &[500, 1000, 1500, 2000, 2500, 3000],
        sheet: |rng, size| circuits(Builder::wide(), rng, 64, size / 154, Each { inputs: 24, frames: 150, window: 60 }),
    },
];

/// For all of the first half of the variables there is the second half: random clauses of one and two, as many as there is
/// room for; by variables about as many clauses as variables, which is near the threshold.
fn two_blocks(mut b: Builder, rng: &mut Rng, variables: usize, frames: usize) -> Vec<u8> {
    let half = variables / 2;
    let mut matrix = b.always();
    while b.size() + 8 <= frames {
        let clause = cnf(&mut b, rng, 1, &[(0..half, 1), (half..variables, 2)]);
        matrix = b.and(matrix, clause);
    }
    let reply = b.exists(half..variables, matrix);
    let last = b.forall(0..half, reply);
    b.finish(last)
}

/// One quantifier for each variable, in alternation; each exists variable, as long as there is room, must equal the OR of the
/// one before it and of an earlier one.
fn replies(rng: &mut Rng, variables: usize, frames: usize) -> Vec<u8> {
    let mut b = Builder::default();
    let x = b.inputs(0..variables);
    let mut all = b.always();
    for reply in (1..variables).step_by(2).filter(|reply| reply * 5 + 2 * variables < frames) {
        let gate = b.or(x[reply - 1], x[rng.below(reply)]);
        let equal = b.equal(x[reply], gate);
        all = b.and(all, equal);
    }
    let last = (0..variables).rev().fold(all, |frame, x| b.quantified(x % 2 == 0, x..x + 1, frame));
    b.finish(last)
}

/// Two parity chains over the same open variables in different orders that cannot differ, and part of a third one, as
/// much as there is room for.
fn full_search(rng: &mut Rng, variables: usize, frames: usize) -> Vec<u8> {
    let mut b = Builder::default();
    let mut x = b.inputs(0..variables);
    let first = b.parity(&x);
    rng.shuffle(&mut x);
    let second = b.parity(&x);
    rng.shuffle(&mut x);
    let room = frames.saturating_sub(b.size() + 4) / 4;
    let third = b.parity(&x[..room.clamp(1, variables)]);
    let not_second = b.not(second);
    let both = b.and(first, not_second);
    let either = b.or(third, both);
    let last = b.and(both, either);
    b.finish(last)
}
