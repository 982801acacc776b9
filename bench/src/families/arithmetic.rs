//! Numbers as bits under quantifiers. Lowest bit first; the sheets of a family grow.

use crate::builder::{Builder, Frame};
use crate::rng::Rng;

/// Parity chain under quantifiers: for all x there is a bit equal to the parity of x and of an open variable. From 8 to 30
/// bits; every setting of x counts.
pub fn parity(_: &mut Rng, index: usize) -> Vec<u8> {
    let bits = [8, 12, 16, 20, 25, 30][index];
    let mut b = Builder::default();
    let x = b.inputs(0..bits + 1);
    let parity = b.parity(&x);
    let reply = b.input(bits + 1);
    let body = b.equal(reply, parity);
    let reply = b.exists(bits + 1..bits + 2, body);
    let last = b.forall(1..bits + 1, reply);
    b.finish(last)
}

/// Two parity chains over the same variables in different orders are equal for all of them; 6 to 20 variables. In odd sheets
/// one of them leaves out a variable.
pub fn parity_orders(rng: &mut Rng, index: usize) -> Vec<u8> {
    let bits = [6, 8, 10, 13, 16, 20][index];
    let mut b = Builder::default();
    let mut x = b.inputs(0..bits);
    let first = b.parity(&x);
    rng.shuffle(&mut x);
    let second = b.parity(&x[index % 2..]);
    let equal = b.equal(first, second);
    let last = b.forall(0..bits, equal);
    b.finish(last)
}

/// For all x there is y with y = x + 1, 4 to 15 bits; in odd sheets y must not overflow, which fails for the largest x.
pub fn successor(_: &mut Rng, index: usize) -> Vec<u8> {
    let bits = [4, 6, 8, 10, 13, 15][index];
    let mut b = Builder::default();
    let (x, y) = (b.inputs(0..bits), b.inputs(bits..2 * bits));
    let mut carry = b.always();
    let mut rules = Vec::new();
    for (&x, &y) in x.iter().zip(&y) {
        let sum = b.differ(x, carry);
        rules.push(b.equal(y, sum));
        carry = b.and(x, carry);
    }
    if index % 2 == 1 {
        rules.push(b.not(carry));
    }
    let body = b.all(&rules);
    let reply = b.exists(bits..2 * bits, body);
    let last = b.forall(0..bits, reply);
    b.finish(last)
}

/// For all x below the largest (in odd sheets: for all x) there is y above x; 4 to 16 bits.
pub fn comparator(_: &mut Rng, index: usize) -> Vec<u8> {
    above(Builder::default(), [4, 6, 8, 11, 13, 16][index], index % 2 == 0)
}

/// For all x of so many bits, the largest perhaps spared, there is y above x.
pub fn above(mut b: Builder, bits: usize, spared: bool) -> Vec<u8> {
    let (x, y) = (b.inputs(0..bits), b.inputs(bits..2 * bits));
    let above = b.below(&x, &y);
    let largest = b.all(&x);
    let body = if spared { b.or(above, largest) } else { above };
    let reply = b.exists(bits..2 * bits, body);
    let last = b.forall(0..bits, reply);
    b.finish(last)
}

/// For all x and y there is z with z = x + y; 3 to 10 bits.
pub fn sum(_: &mut Rng, index: usize) -> Vec<u8> {
    let bits = [3, 4, 5, 6, 8, 10][index];
    let mut b = Builder::default();
    let (x, y, z) = (b.inputs(0..bits), b.inputs(bits..2 * bits), b.inputs(2 * bits..3 * bits + 1));
    let sum = b.add(&x, &y);
    let same = b.same(&sum, &z);
    let reply = b.exists(2 * bits..3 * bits + 1, same);
    let last = b.forall(0..2 * bits, reply);
    b.finish(last)
}

/// For all x and z there is y with x + y = z, without overflow only if x is at most z; 3 to 10 bits. In odd sheets the
/// overflow is forbidden.
pub fn difference(_: &mut Rng, index: usize) -> Vec<u8> {
    let bits = [3, 4, 5, 6, 8, 10][index];
    let mut b = Builder::default();
    let (x, z, y) = (b.inputs(0..bits), b.inputs(bits..2 * bits), b.inputs(2 * bits..3 * bits));
    let sum = b.add(&x, &y);
    let mut body = b.same(&sum[..bits], &z);
    if index % 2 == 1 {
        let fits = b.not(sum[bits]);
        body = b.and(body, fits);
    }
    let reply = b.exists(2 * bits..3 * bits, body);
    let last = b.forall(0..2 * bits, reply);
    b.finish(last)
}

/// For all x, y, z: (x + y) + z = x + (y + z), 2 to 4 bits; in odd sheets one bit of the right side is taken from x instead.
pub fn associative(_: &mut Rng, index: usize) -> Vec<u8> {
    sums(Builder::default(), 2 + index / 2, index % 2 == 0)
}

/// The two sums of three numbers of so many bits, equal or with a bit taken from x.
pub fn sums(mut b: Builder, bits: usize, equal: bool) -> Vec<u8> {
    let [x, y, z] = [0, 1, 2].map(|place| b.inputs(place * bits..(place + 1) * bits));
    let left = b.add(&x, &y);
    let left = b.add(&left[..bits], &z);
    let right = b.add(&y, &z);
    let mut right = b.add(&x, &right[..bits]);
    if !equal {
        right[bits - 1] = x[bits - 1];
    }
    let same = b.same(&left[..bits], &right[..bits]);
    let last = b.forall(0..3 * bits, same);
    b.finish(last)
}

/// At least three of the frames.
fn at_least_three(b: &mut Builder, frames: &[Frame]) -> Frame {
    let never = b.never();
    let mut least = [never; 3];
    for &frame in frames {
        for count in (0..3).rev() {
            let more = if count == 0 { frame } else { b.and(least[count - 1], frame) };
            least[count] = b.or(least[count], more);
        }
    }
    least[2]
}

/// Whoever counts the votes in another order comes to the same quorum: for all of 8 to 16 voters; in odd sheets the
/// second count misses one.
pub fn quorum(rng: &mut Rng, index: usize) -> Vec<u8> {
    let voters = [8, 9, 11, 12, 15, 16][index];
    let mut b = Builder::default();
    let mut votes = b.inputs(0..voters);
    let first = at_least_three(&mut b, &votes);
    rng.shuffle(&mut votes);
    let second = at_least_three(&mut b, &votes[index % 2..]);
    let body = b.implies(first, second);
    let last = b.forall(0..voters, body);
    b.finish(last)
}
