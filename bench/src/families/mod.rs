//! The families of sheets: each has a comment that says what it stands for. Sheets of a family differ by their numbers, drawn
//! from a fixed seed, and where it says so by their size.

mod arithmetic;
mod classic;
mod gauged;
mod interlock;
mod levels;
mod random;
pub mod scale;
mod wide;

use crate::builder::{Builder, Frame};
use crate::evaluator::form::Form;
use crate::rng::Rng;
use std::ops::Range;

pub const SHEETS: usize = 6;
const SEED: u64 = 31;

pub struct Family {
    /// That of a wide one begins with `wide`, by which `ours` tells its sheets.
    pub name: &'static str,
    pub form: Form,
    sheet: Drawn,
}

/// The sheet of an index.
type Drawn = fn(&mut Rng, usize) -> Vec<u8>;

const fn narrow(name: &'static str, sheet: Drawn) -> Family {
    Family { name, form: Form::Narrow, sheet }
}

const fn wide(name: &'static str, sheet: Drawn) -> Family {
    Family { name, form: Form::Wide, sheet }
}

impl Family {
    /// The sheet of this index, below `SHEETS`. Its numbers depend on the family's name and the index alone.
    pub fn sheet(&self, index: usize) -> Vec<u8> {
        let own = self.name.bytes().fold(0, |sum: u64, byte| sum.wrapping_mul(257).wrapping_add(byte.into()));
        (self.sheet)(&mut Rng::new(SEED, own, index as u64), index)
    }
}

pub const FAMILIES: &[Family] = &[
    narrow("gauges", interlock::gauges),
    narrow("exclusions", interlock::exclusions),
    narrow("levers", interlock::levers),
    narrow("fallback", interlock::fallback),
    narrow("fallback-twice", interlock::fallback_twice),
    narrow("working", interlock::working),
    narrow("gauged-gate", gauged::gate),
    narrow("gauged-fallback", gauged::fallback),
    narrow("shared-shallow", random::shallow),
    narrow("shared-middle", random::middle),
    narrow("shared-deep", random::deep),
    narrow("circuit", random::circuit),
    narrow("alternation-16", levels::alternation_16),
    narrow("alternation-32", levels::alternation_32),
    narrow("replies-16", levels::replies_16),
    narrow("replies-32", levels::replies_32),
    narrow("2qbf-forall-exists", levels::forall_exists),
    narrow("2qbf-exists-forall", levels::exists_forall),
    narrow("three-blocks", levels::three_blocks),
    narrow("three-blocks-dual", levels::three_blocks_dual),
    narrow("parity", arithmetic::parity),
    narrow("parity-orders", arithmetic::parity_orders),
    narrow("successor", arithmetic::successor),
    narrow("comparator", arithmetic::comparator),
    narrow("sum", arithmetic::sum),
    narrow("difference", arithmetic::difference),
    narrow("associative", arithmetic::associative),
    narrow("quorum", arithmetic::quorum),
    narrow("pigeonhole", classic::pigeonhole),
    narrow("pigeonhole-forall", classic::pigeonhole_forall),
    narrow("3-cnf", classic::three_cnf),
    narrow("xor-system", classic::xor_system),
    narrow("needle", classic::needle),
    narrow("full-search", classic::full_search),
    narrow("doubling", classic::doubling),
    narrow("idle", classic::idle),
    narrow("both-polarities", classic::both_polarities),
    wide("wide-exclusions", wide::exclusions),
    wide("wide-levers", wide::levers),
    wide("wide-staircase", wide::staircase),
    wide("wide-fallback", wide::fallback),
    wide("wide-alternation", wide::alternation),
    wide("wide-replies", wide::replies),
    wide("wide-2qbf", wide::two_blocks),
    wide("wide-three-blocks", wide::three_blocks),
    wide("wide-shared", wide::shared),
    wide("wide-circuit", wide::circuit),
    wide("wide-comparator", wide::comparator),
    wide("wide-associative", wide::associative),
];

/// So many different variables of the range.
fn some(rng: &mut Rng, range: Range<usize>, count: usize) -> Vec<usize> {
    let mut variables: Vec<usize> = range.collect();
    rng.shuffle(&mut variables);
    variables.truncate(count);
    variables
}

/// The variables, each with a random sign.
fn literals(b: &mut Builder, rng: &mut Rng, variables: &[usize]) -> Vec<Frame> {
    let literal = |&variable: &usize| {
        let input = b.input(variable);
        b.signed(input, rng.percent(50))
    };
    variables.iter().map(literal).collect()
}

/// A conjunction of random clauses: each takes so many variables of each range.
fn cnf(b: &mut Builder, rng: &mut Rng, count: usize, ranges: &[(Range<usize>, usize)]) -> Frame {
    let mut clauses = Vec::new();
    for _ in 0..count {
        let variables: Vec<usize> = ranges.iter().flat_map(|(range, count)| some(rng, range.clone(), *count)).collect();
        let literals = literals(b, rng, &variables);
        clauses.push(b.any(&literals));
    }
    b.all(&clauses)
}
