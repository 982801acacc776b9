//! Rules with gauges: whatever these read, what is ours must have an answer.

use super::interlock::served;
use super::some;
use crate::builder::{Builder, Frame};
use crate::rng::Rng;

/// A gate between two waters: their levels, five bits each, and four requests are read by gauges; gates, paddles, lamps and pumps
/// are ours. Whatever is read, can it be answered safely? From sheet to sheet more of ours exclude each other.
pub fn gate(rng: &mut Rng, index: usize) -> Vec<u8> {
    let mut b = Builder::default();
    let (upper, lower, requests) = (b.gauges(0..5), b.gauges(5..10), b.gauges(10..14));
    let ours = b.inputs(14..30);
    let (gates, paddles, lamps, pumps) = (&ours[0..2], &ours[2..6], &ours[6..8], &ours[8..16]);
    let (level, rising) = (b.same(&upper, &lower), b.below(&lower, &upper));
    let mut rules = vec![b.apart(gates[0], gates[1])];
    for side in 0..2 {
        let flow = b.signed(rising, side == 0);
        rules.push(b.implies(gates[side], level));
        let moved = b.any(&[gates[side], paddles[2 * side], paddles[2 * side + 1], lamps[side]]);
        rules.push(b.implies(requests[side], moved));
        let able = b.and(flow, pumps[side]);
        rules.push(b.implies(paddles[2 * side], able));
        rules.push(b.apart(lamps[side], gates[1 - side]));
        let served = b.any(&[paddles[2 * side + 1], pumps[2 + side], pumps[4 + side]]);
        rules.push(b.implies(requests[2 + side], served));
    }
    for _ in 0..9 + 2 * index {
        let pair = some(rng, 0..ours.len(), 2);
        rules.push(b.apart(ours[pair[0]], ours[pair[1]]));
    }
    for _ in 0..8 {
        let three: Vec<Frame> = some(rng, 0..ours.len(), 3).into_iter().map(|place| ours[place]).collect();
        rules.push(b.any(&three));
    }
    let all = b.all(&rules);
    b.finish(all)
}

/// Which of 14 devices have failed is told by gauges: is there a fallback (ours) for every failure of at most one device of each group?
/// The devices are one group, or two or three.
pub fn fallback(rng: &mut Rng, index: usize) -> Vec<u8> {
    const DEVICES: usize = 14;
    let mut b = Builder::default();
    let (failed, used, always) = (b.gauges(0..DEVICES), b.inputs(DEVICES..2 * DEVICES), b.always());
    let served = served(&mut b, rng, &used, &[always; DEVICES], &failed);
    let groups = failed.chunks(DEVICES.div_ceil(1 + index % 3));
    let few: Vec<Frame> = groups.map(|group| b.at_most_one(group)).collect();
    let few = b.all(&few);
    let last = b.implies(few, served);
    b.finish(last)
}
