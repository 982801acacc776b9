//! Faults in sheets and scripts.

use crate::evaluator::form::Form;
use crate::rng::Rng;

/// A value other than the byte's: a neighbour, a flipped bit, an edge of the rules, or any.
pub fn faulty(rng: &mut Rng, byte: u8) -> u8 {
    let edges = [0, 1, 2, 5, 6, 7, 8, 0x0F, 0x10, 0x14, 0x15, 31, 32, 33, 63, 64, 65, 199, 200, 255];
    let value = match rng.below(4) {
        0 => rng.pick(&[byte.wrapping_add(1), byte.wrapping_sub(1)]),
        1 => byte ^ 1 << rng.below(8),
        2 => rng.pick(&edges),
        _ => rng.byte(),
    };
    if value == byte {
        byte ^ 0x80
    } else {
        value
    }
}

/// The bytes with a few faults, bytes lost, or bytes too many.
pub fn damaged(rng: &mut Rng, bytes: &[u8]) -> Vec<u8> {
    let mut bytes = bytes.to_vec();
    for _ in 0..rng.between(1, 3) {
        match (rng.below(8), bytes.is_empty()) {
            (0, _) => {
                let more = rng.between(1, 5);
                bytes.extend(rng.bytes(more));
            }
            (1, false) => bytes.truncate(rng.below(bytes.len())),
            (_, false) => {
                let place = rng.below(bytes.len());
                bytes[place] = faulty(rng, bytes[place]);
            }
            _ => {}
        }
    }
    bytes
}

/// The sheet with one frame more that breaks a rule about frames, or may: a second binding, a bound variable left open,
/// a frame that names itself or a later one.
pub fn misruled(rng: &mut Rng, form: Form, sheet: &[u8]) -> Vec<u8> {
    let frames = frames(form, sheet);
    let last = (frames.len() - 1) as u16;
    let quantifiers = of_kinds(&frames, &[0x05, 0x06]);
    let frame = if quantifiers.is_empty() {
        [0x04, last, last + 1 + rng.below(2) as u16, 0]
    } else {
        let [k, a, b, c] = rng.pick(&quantifiers);
        match rng.below(4) {
            0 => [k, last, b, c],
            1 => [0x0B - k, a, b + c - 1, 1],
            2 => [0x03, last, a, 0],
            _ => [0x01, b, 0, 0],
        }
    };
    [sheet, &form.bytes(frame)].concat()
}

/// The sheet with one or two frames more, or an INPUT made a gauge, or a gauge an INPUT: a variable is then named by both
/// kinds, or a gauge is bound, or neither. The frame to be told is any, and may have several causes.
pub fn clashing(rng: &mut Rng, form: Form, sheet: &[u8]) -> Vec<u8> {
    let mut frames = frames(form, sheet);
    for _ in 0..rng.between(1, 2) {
        let inputs: Vec<usize> = (0..frames.len()).filter(|&place| matches!(frames[place][0], 0x01 | 0x07)).collect();
        if inputs.is_empty() {
            frames.push([0x07, rng.below(form.variables().into()) as u16, 0, 0]);
            continue;
        }
        let place = rng.pick(&inputs);
        match rng.below(5) {
            0 | 1 => frames[place][0] ^= 0x01 ^ 0x07,
            2 => frames.push([rng.pick(&[0x01, 0x07]), frames[place][1], 0, 0]),
            3 => frames.push(bound_gauge(rng, &frames)),
            _ => frames.push(around(rng, form, frames[place][1], frames.len() - 1)),
        }
    }
    frames.into_iter().flat_map(|frame| form.bytes(frame)).collect()
}

/// A gauge of a variable that the frames bind, or of 0.
fn bound_gauge(rng: &mut Rng, frames: &[[u16; 4]]) -> [u16; 4] {
    let quantifiers = of_kinds(frames, &[0x05, 0x06]);
    if quantifiers.is_empty() {
        return [0x07, 0, 0, 0];
    }
    let [_, _, b, c] = rng.pick(&quantifiers);
    [0x07, b + rng.below(c.into()) as u16, 0, 0]
}

/// A quantifier of the variable and up to two others, over a frame.
fn around(rng: &mut Rng, form: Form, variable: u16, frame: usize) -> [u16; 4] {
    let first = variable - rng.below(usize::from(variable.min(1)) + 1) as u16;
    let last = (variable + rng.below(2) as u16).min(u16::from(form.variables()) - 1);
    [rng.pick(&[0x05, 0x06]), frame as u16, first, last - first + 1]
}

/// K, A, B, C of each frame.
pub fn frames(form: Form, sheet: &[u8]) -> Vec<[u16; 4]> {
    sheet.chunks_exact(form.frame()).map(|frame| form.fields(frame)).collect()
}

fn of_kinds(frames: &[[u16; 4]], kinds: &[u16]) -> Vec<[u16; 4]> {
    frames.iter().copied().filter(|frame| kinds.contains(&frame[0])).collect()
}

/// A sheet with one byte's fault: still of whole frames.
pub fn damaged_frame(rng: &mut Rng, sheet: &[u8]) -> Vec<u8> {
    let mut sheet = sheet.to_vec();
    let place = rng.below(sheet.len());
    sheet[place] = faulty(rng, sheet[place]);
    sheet
}
