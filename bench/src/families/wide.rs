//! Wide sheets: most have 64 variables or nearly so, and some near 3,000 frames. Where a narrow family stands for the same, it is the
//! same with other sizes.

use super::random::{Each, Sizes};
use super::{arithmetic, interlock, levels, random};
use crate::builder::{Builder, Frame};
use crate::rng::Rng;

/// Routes of which some exclude each other: 63 of them, from sheet to sheet more exclusions.
pub fn exclusions(rng: &mut Rng, index: usize) -> Vec<u8> {
    interlock::excluding(Builder::wide(), rng, 63, 110 + 20 * index)
}

/// An interlock of 16 levers of four positions each, from sheet to sheet more positions that ask for each other.
pub fn levers(rng: &mut Rng, index: usize) -> Vec<u8> {
    interlock::asking(Builder::wide(), rng, 16, 60 + 8 * index)
}

/// Which of 20 devices are to be installed (open), so that there is a fallback for every failure of one?
pub fn fallback(rng: &mut Rng, index: usize) -> Vec<u8> {
    interlock::installing(Builder::wide(), rng, 20, 6 + 6 * index)
}

/// One quantifier for each of 64 variables, in alternation, before random clauses.
pub fn alternation(rng: &mut Rng, index: usize) -> Vec<u8> {
    levels::alternation(Builder::wide(), rng, 64, 36 + 5 * index)
}

/// A game with one right reply to every question: 36 to 56 levels.
pub fn replies(rng: &mut Rng, index: usize) -> Vec<u8> {
    levels::replies(Builder::wide(), rng, 36 + 4 * index, index)
}

/// 2QBF: for all of 32 variables there are 32 others, random 3-CNF near the threshold.
pub fn two_blocks(rng: &mut Rng, index: usize) -> Vec<u8> {
    levels::two_blocks(Builder::wide(), rng, 32, 48 + 6 * index)
}

/// Three blocks of 20: exists (open), forall, exists, random clauses of one of each.
pub fn three_blocks(rng: &mut Rng, index: usize) -> Vec<u8> {
    levels::open_forall_exists(Builder::wide(), rng, 20, 38 + 9 * index)
}

/// Random shared formulas of twelve quantified parts, named in both polarities, up to 3,000 frames; from sheet to sheet deeper.
pub fn shared(rng: &mut Rng, index: usize) -> Vec<u8> {
    let window = [40, 20, 10, 6, 4, 2][index];
    let sizes = Sizes { open: 16, variables: 64, parts: 12, frames: 200, joined: 530, window };
    random::quantified_parts(Builder::wide(), rng, sizes)
}

/// Random circuits over 24 of 64 open variables each that must all be true: 4 to 19 of them, up to 3,000 frames; no quantifier.
pub fn circuit(rng: &mut Rng, index: usize) -> Vec<u8> {
    let each = Each { inputs: 24, frames: 150, window: 60 };
    random::circuits(Builder::wide(), rng, 64, 4 + 3 * index, each)
}

/// For all x below the largest (in odd sheets: for all x) there is y above x; 20 to 32 bits.
pub fn comparator(_: &mut Rng, index: usize) -> Vec<u8> {
    arithmetic::above(Builder::wide(), [20, 22, 25, 28, 30, 32][index], index % 2 == 0)
}

/// For all x, y, z: (x + y) + z = x + (y + z), 5 to 21 bits; in odd sheets one bit of the right side is taken from x instead.
pub fn associative(_: &mut Rng, index: usize) -> Vec<u8> {
    arithmetic::sums(Builder::wide(), [5, 6, 7, 12, 8, 21][index], index % 2 == 0)
}

/// A staircase of locks: chambers one above the other, a gate and a paddle between each two, below the lowest and above the highest.
/// Is there a plan, so many steps of a choice of a gate or paddle each (open), that brings a boat from below to above? Chambers are full
/// or empty; a full one stands level with an empty one above it. Three chambers, in odd sheets seven; at the start all but the lowest
/// are full, or gauges read which, and there must be a plan for each reading.
pub fn staircase(_: &mut Rng, index: usize) -> Vec<u8> {
    let (bits, read, steps) =
        [(3, false, 7), (4, false, 14), (3, true, 8), (4, false, 15), (3, true, 12), (4, false, 16)][index];
    let mut b = Builder::wide();
    let (never, always) = (b.never(), b.always());
    let chambers = (1 << (bits - 1)) - 1;
    let first = if read { chambers } else { 0 };
    let full = if read { b.gauges(0..chambers) } else { [&[never][..], &vec![always; chambers - 1]].concat() };
    let boat = [&[always][..], &vec![never; chambers + 1]].concat();
    let mut stairs = Stairs { full, boat };
    for start in (first..).step_by(bits).take(steps) {
        let choice = b.inputs(start..start + bits);
        stairs = stairs.after(&mut b, &choice);
    }
    let arrived = stairs.boat[chambers + 1];
    b.finish(arrived)
}

/// Which chambers are full, from the lowest up, and where the boat is: below, in one of them, or above.
struct Stairs {
    full: Vec<Frame>,
    boat: Vec<Frame>,
}

impl Stairs {
    /// After a step: the choice's first bit tells a gate from a paddle, the others its number.
    fn after(&self, b: &mut Builder, choice: &[Frame]) -> Stairs {
        let mut next = Stairs { full: self.full.clone(), boat: self.boat.clone() };
        let is_paddle = b.not(choice[0]);
        for (number, chosen) in chosen(b, &choice[1..]).into_iter().enumerate() {
            let (gate, paddle) = (b.and(chosen, choice[0]), b.and(chosen, is_paddle));
            self.run(b, &mut next, number, paddle);
            self.pass(b, &mut next, number, gate);
        }
        next
    }

    /// A paddle lets a full chamber, or the water above, run into the empty one under it, or into the water below.
    fn run(&self, b: &mut Builder, next: &mut Stairs, number: usize, paddle: Frame) {
        let able = self.stands(b, number, false);
        let runs = b.and(able, paddle);
        if let Some(under) = number.checked_sub(1) {
            next.full[under] = b.or(next.full[under], runs);
        }
        if let Some(over) = next.full.get_mut(number) {
            let still = b.not(runs);
            *over = b.and(*over, still);
        }
    }

    /// A gate lets the boat through, up, where the water is level.
    fn pass(&self, b: &mut Builder, next: &mut Stairs, number: usize, gate: Frame) {
        let level = self.stands(b, number, true);
        let passes = b.all(&[level, gate, self.boat[number]]);
        let stays = b.not(passes);
        next.boat[number] = b.and(next.boat[number], stays);
        next.boat[number + 1] = b.or(next.boat[number + 1], passes);
    }

    /// The chamber under a gate is full and the one over it empty: level; or the other way round. The waters below and above do as either.
    fn stands(&self, b: &mut Builder, number: usize, level: bool) -> Frame {
        let under = number.checked_sub(1).map(|chamber| b.signed(self.full[chamber], level));
        let over = self.full.get(number).map(|&full| b.signed(full, !level));
        let both: Vec<Frame> = under.into_iter().chain(over).collect();
        b.all(&both)
    }
}

/// For each number of the bits' length whether they tell it.
fn chosen(b: &mut Builder, bits: &[Frame]) -> Vec<Frame> {
    let Some((&first, rest)) = bits.split_first() else {
        return vec![b.always()];
    };
    let (clear, inner) = (b.not(first), chosen(b, rest));
    [clear, first]
        .into_iter()
        .flat_map(|bit| inner.iter().map(|&frame| b.and(bit, frame)).collect::<Vec<_>>())
        .collect()
}
