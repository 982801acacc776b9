//! Rules as a lock's panel has them.

use super::{literals, some};
use crate::builder::{Builder, Frame};
use crate::rng::Rng;

/// A lock with two gauges at each of two levels, gates, paddles, motors, lamps and requests, and eight things that the
/// keeper wants at once. All variables are open.
pub fn gauges(rng: &mut Rng, _: usize) -> Vec<u8> {
    let mut b = Builder::default();
    let v = b.inputs(0..32);
    let (gauges, gates, paddles) = ([&v[0..4], &v[4..8], &v[8..12], &v[12..16]], &v[16..18], &v[18..22]);
    let (lamps, motors, requests) = (&v[22..26], &v[26..28], &v[28..32]);
    let mut rules = Vec::new();
    for gauge in gauges {
        rules.extend(gauge.windows(2).map(|marks| b.implies(marks[1], marks[0])));
    }
    let level = b.same(gauges[0], gauges[2]);
    for (side, pair) in [(0, &gauges[0..2]), (1, &gauges[2..4])] {
        let agree = b.same(pair[0], pair[1]);
        rules.push(b.or(agree, lamps[side]));
        let safe = b.and(level, motors[side]);
        rules.push(b.implies(gates[side], safe));
        let closed = b.any(&[gates[1 - side], paddles[2 - 2 * side], paddles[3 - 2 * side]]);
        rules.push(b.apart(motors[side], closed));
        let moved = b.any(&[gates[side], paddles[2 * side], lamps[2 + side]]);
        rules.push(b.implies(requests[side], moved));
        rules.push(b.apart(lamps[side], lamps[2 + side]));
        rules.push(b.implies(requests[2 + side], paddles[2 * side + 1]));
    }
    rules.push(b.apart(gates[0], gates[1]));
    let wanted = some(rng, 0..32, 8);
    rules.extend(literals(&mut b, rng, &wanted));
    let all = b.all(&rules);
    b.finish(all)
}

/// Routes of which some exclude each other, and groups of three of which one route at least must be set: 30 routes in even
/// sheets, 18 with more exclusions in odd ones.
pub fn exclusions(rng: &mut Rng, index: usize) -> Vec<u8> {
    let (count, pairs) = if index % 2 == 0 { (30, 42) } else { (18, 62) };
    excluding(Builder::default(), rng, count, pairs)
}

/// So many routes, and pairs of them that exclude each other.
pub fn excluding(mut b: Builder, rng: &mut Rng, count: usize, pairs: usize) -> Vec<u8> {
    let routes = b.inputs(0..count);
    let mut rules = Vec::new();
    for group in routes.chunks(3) {
        rules.push(b.any(group));
    }
    for _ in 0..pairs {
        let pair = some(rng, 0..count, 2);
        rules.push(b.apart(routes[pair[0]], routes[pair[1]]));
    }
    let all = b.all(&rules);
    b.finish(all)
}

/// Five levers of four positions each, exactly one position at a time; positions that ask for each other, from sheet to sheet
/// more.
pub fn levers(rng: &mut Rng, index: usize) -> Vec<u8> {
    asking(Builder::default(), rng, 5, 18 + 2 * index)
}

/// So many levers, and pairs of their positions of which the first asks for the second.
pub fn asking(mut b: Builder, rng: &mut Rng, levers: usize, pairs: usize) -> Vec<u8> {
    let positions = b.inputs(0..4 * levers);
    let mut rules: Vec<Frame> = positions.chunks(4).map(|lever| b.exactly_one(lever)).collect();
    for _ in 0..pairs {
        let pair = some(rng, 0..levers, 2);
        let [x, y] = [0, 1].map(|place| positions[pair[place] * 4 + rng.below(4)]);
        rules.push(b.implies(x, y));
    }
    let all = b.all(&rules);
    b.finish(all)
}

/// The stations can be served by the devices that are installed and have not failed: station k by any of three, and some
/// devices not together.
pub fn served(b: &mut Builder, rng: &mut Rng, use_: &[Frame], installed: &[Frame], failed: &[Frame]) -> Frame {
    let mut rules = Vec::new();
    for device in 0..use_.len() {
        let not_failed = b.not(failed[device]);
        let able = b.and(installed[device], not_failed);
        rules.push(b.implies(use_[device], able));
    }
    for _ in 0..use_.len() / 2 {
        let devices: Vec<Frame> = some(rng, 0..use_.len(), 3).into_iter().map(|device| use_[device]).collect();
        rules.push(b.any(&devices));
    }
    for _ in 0..use_.len() / 3 {
        let pair = some(rng, 0..use_.len(), 2);
        rules.push(b.apart(use_[pair[0]], use_[pair[1]]));
    }
    b.all(&rules)
}

/// For every failure of one device there is a fallback: which of ten devices are to be installed (open), if from some pairs
/// only one can be? From sheet to sheet there are more such pairs.
pub fn fallback(rng: &mut Rng, index: usize) -> Vec<u8> {
    installing(Builder::default(), rng, 10, 3 + 2 * index)
}

/// So many devices, and pairs of them of which one at most can be installed.
pub fn installing(mut b: Builder, rng: &mut Rng, devices: usize, pairs: usize) -> Vec<u8> {
    let [all, failing, using] = [0, 1, 2].map(|place| place * devices..(place + 1) * devices);
    let (installed, failed, used) = (b.inputs(all.clone()), b.inputs(failing.clone()), b.inputs(using.clone()));
    let served = served(&mut b, rng, &used, &installed, &failed);
    let fallback = b.exists(using, served);
    let single = b.at_most_one(&failed);
    let answered = b.implies(single, fallback);
    let mut rules = vec![b.forall(failing, answered)];
    for _ in 0..pairs {
        let pair = some(rng, all.clone(), 2);
        rules.push(b.apart(installed[pair[0]], installed[pair[1]]));
    }
    let all = b.all(&rules);
    b.finish(all)
}

/// A second failure after the first fallback, and a second fallback that keeps what the first one uses of the first device.
pub fn fallback_twice(rng: &mut Rng, _: usize) -> Vec<u8> {
    let mut b = Builder::default();
    let installed = b.inputs(0..6);
    let [first, used, second, again] = [6, 12, 18, 24].map(|start| b.inputs(start..start + 6));
    let serve_again: Vec<Frame> = first.iter().zip(&second).map(|(&x, &y)| b.or(x, y)).collect();
    let served_again = served(&mut b, rng, &again, &installed, &serve_again);
    let keep = b.implies(used[0], again[0]);
    let body = b.and(served_again, keep);
    let reply = b.exists(24..30, body);
    let single = b.at_most_one(&second);
    let body = b.implies(single, reply);
    let always = b.forall(18..24, body);
    let served = served(&mut b, rng, &used, &installed, &first);
    let body = b.and(served, always);
    let reply = b.exists(12..18, body);
    let single = b.at_most_one(&first);
    let body = b.implies(single, reply);
    let all = b.forall(6..12, body);
    b.finish(all)
}

/// Four rounds of working a lock: for every demand (two bits) there is an action (three bits) after which the demand
/// is served, the state is safe and the next round can be worked. From which states (open) can it be kept up?
pub fn working(rng: &mut Rng, _: usize) -> Vec<u8> {
    const ROUNDS: usize = 4;
    let mut b = Builder::default();
    let mut state = b.inputs(0..4);
    let mut rounds = Vec::new();
    for round in 0..ROUNDS {
        let (demand, action) = (4 + 5 * round, 6 + 5 * round);
        let before = state.clone();
        for (place, bit) in state.iter_mut().enumerate() {
            let control = b.input(action + place % 3);
            let other = if rng.percent(50) { b.input(demand + rng.below(2)) } else { before[(place + 1) % 4] };
            let change = if rng.percent(50) { b.and(control, other) } else { b.or(control, other) };
            *bit = b.differ(*bit, change);
        }
        let demanded = b.inputs(demand..demand + 2);
        let both = b.and(demanded[0], demanded[1]);
        let (served, apart) = (b.implies(both, state[rng.below(4)]), b.apart(state[0], state[1]));
        let safe = b.and(served, apart);
        rounds.push((demand, action, safe));
    }
    let mut worked = b.always();
    for (demand, action, safe) in rounds.into_iter().rev() {
        let body = b.and(safe, worked);
        let reply = b.exists(action..action + 3, body);
        worked = b.forall(demand..demand + 2, reply);
    }
    b.finish(worked)
}
