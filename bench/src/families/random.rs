//! Random formulas whose frames are named several times.

use crate::builder::{Builder, Frame};
use crate::rng::Rng;

/// A random circuit over the inputs, of at most so many frames beside them. Each gate takes a frame that nothing names yet, and
/// one of the latest `window` frames: a small window makes a deep circuit. Frames left over are joined.
pub fn network(b: &mut Builder, rng: &mut Rng, inputs: &[Frame], frames: usize, window: usize) -> Frame {
    let end = b.size() + frames;
    let mut pool = inputs.to_vec();
    let mut unnamed = inputs.to_vec();
    while b.size() + MOST_OF_GATE + unnamed.len() <= end {
        let left = unnamed.remove(0);
        let right = pool[pool.len() - 1 - rng.below(window.min(pool.len()))];
        let frame = gate(b, rng, left, right);
        unnamed.retain(|&frame| frame != right);
        unnamed.push(frame);
        pool.push(frame);
    }
    let (first, rest) = unnamed.split_first().unwrap();
    rest.iter().fold(*first, |frame, &other| if rng.percent(50) { b.and(frame, other) } else { b.or(frame, other) })
}

/// The frames of a gate: two NOTs, and four if the inputs shall differ.
const MOST_OF_GATE: usize = 6;

fn gate(b: &mut Builder, rng: &mut Rng, left: Frame, right: Frame) -> Frame {
    let (left, right) = (b.signed(left, rng.percent(60)), b.signed(right, rng.percent(60)));
    match rng.below(10) {
        0..=3 => b.and(left, right),
        4..=7 => b.or(left, right),
        _ => b.differ(left, right),
    }
}

/// The sizes of a shared formula.
pub struct Sizes {
    /// How many of the variables are open; the others are spread over the parts.
    pub open: usize,
    pub variables: usize,
    pub parts: usize,
    /// The most frames of a part, and of the circuit over all of them.
    pub frames: usize,
    pub joined: usize,
    pub window: usize,
}

/// Parts, each a circuit over half of the open variables and some of its own under a quantifier; then a circuit over the parts and
/// the open variables.
pub fn quantified_parts(mut b: Builder, rng: &mut Rng, sizes: Sizes) -> Vec<u8> {
    let Sizes { open: count, variables, parts: part_count, frames, joined, window } = sizes;
    let mut open = b.inputs(0..count);
    b.inputs(count..variables);
    let start = |part: usize| count + part * (variables - count) / part_count;
    let mut parts = Vec::new();
    for part in 0..part_count {
        let (first, end) = (start(part), start(part + 1));
        let own = b.inputs(first..end);
        rng.shuffle(&mut open);
        let mut inputs = [&open[..count / 2], &own].concat();
        rng.shuffle(&mut inputs);
        let body = network(&mut b, rng, &inputs, frames, window);
        parts.push(b.quantified(rng.percent(50), first..end, body));
    }
    let inputs = [&parts[..], &open].concat();
    let last = network(&mut b, rng, &inputs, joined, window);
    b.finish(last)
}

/// Five parts with four or five variables of their own.
fn shared(rng: &mut Rng, window: usize) -> Vec<u8> {
    let sizes = Sizes { open: 8, variables: 32, parts: 5, frames: 26, joined: 32, window };
    quantified_parts(Builder::default(), rng, sizes)
}

/// Random shared formulas with quantified parts, named in both polarities; shallow.
pub fn shallow(rng: &mut Rng, _: usize) -> Vec<u8> {
    shared(rng, 40)
}

/// The same at a middle depth.
pub fn middle(rng: &mut Rng, _: usize) -> Vec<u8> {
    shared(rng, 6)
}

/// The same, deep.
pub fn deep(rng: &mut Rng, _: usize) -> Vec<u8> {
    shared(rng, 2)
}

/// Eight random circuits over seven of 20 open variables each that must all be true: no quantifier.
pub fn circuit(rng: &mut Rng, _: usize) -> Vec<u8> {
    let each = Each { inputs: 7, frames: 21, window: 4 };
    circuits(Builder::default(), rng, 20, 8, each)
}

/// The sizes of a circuit.
pub struct Each {
    pub inputs: usize,
    /// The most frames.
    pub frames: usize,
    pub window: usize,
}

/// So many circuits over some of so many open variables each.
pub fn circuits(mut b: Builder, rng: &mut Rng, open: usize, count: usize, each: Each) -> Vec<u8> {
    let mut inputs = b.inputs(0..open);
    let mut outputs = Vec::new();
    for _ in 0..count {
        rng.shuffle(&mut inputs);
        outputs.push(network(&mut b, rng, &inputs[..each.inputs], each.frames, each.window));
    }
    let all = b.all(&outputs);
    b.finish(all)
}
