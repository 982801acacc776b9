//! A sheet while it is written. Equal frames are written once, and frames that the last one does not reach are left out.

use crate::evaluator::form::Form;
use std::collections::HashMap;
use std::ops::Range;

/// The number of a frame that has been written.
pub type Frame = usize;

const NEVER: usize = 0;
const INPUT: usize = 1;
const NOT: usize = 2;
const AND: usize = 3;
const OR: usize = 4;
const EXISTS: usize = 5;
const FORALL: usize = 6;
const GAUGE: usize = 7;

pub struct Builder {
    form: Form,
    /// The fields K A B C of each frame.
    frames: Vec<[usize; 4]>,
    written: HashMap<[usize; 4], Frame>,
}

/// Of a narrow sheet.
impl Default for Builder {
    fn default() -> Builder {
        Builder::new(Form::Narrow)
    }
}

impl Builder {
    fn new(form: Form) -> Builder {
        Builder { form, frames: Vec::new(), written: HashMap::new() }
    }

    pub fn wide() -> Builder {
        Builder::new(Form::Wide)
    }

    /// The most frames that the sheet may have.
    pub fn most_frames(&self) -> usize {
        self.form.most_frames()
    }

    /// How many frames have been written.
    pub fn size(&self) -> usize {
        self.frames.len()
    }

    fn write(&mut self, frame: [usize; 4]) -> Frame {
        let frames = &mut self.frames;
        *self.written.entry(frame).or_insert_with(|| {
            frames.push(frame);
            frames.len() - 1
        })
    }

    pub fn never(&mut self) -> Frame {
        self.write([NEVER, 0, 0, 0])
    }

    pub fn always(&mut self) -> Frame {
        let never = self.never();
        self.not(never)
    }

    pub fn input(&mut self, variable: usize) -> Frame {
        self.write([INPUT, variable, 0, 0])
    }

    pub fn inputs(&mut self, variables: Range<usize>) -> Vec<Frame> {
        variables.map(|variable| self.input(variable)).collect()
    }

    /// An input whose variable is not ours to choose.
    pub fn gauge(&mut self, variable: usize) -> Frame {
        self.write([GAUGE, variable, 0, 0])
    }

    pub fn gauges(&mut self, variables: Range<usize>) -> Vec<Frame> {
        variables.map(|variable| self.gauge(variable)).collect()
    }

    pub fn not(&mut self, frame: Frame) -> Frame {
        match self.frames[frame] {
            [NOT, inside, ..] => inside,
            _ => self.write([NOT, frame, 0, 0]),
        }
    }

    /// The frame, or its NOT.
    pub fn signed(&mut self, frame: Frame, positive: bool) -> Frame {
        if positive {
            frame
        } else {
            self.not(frame)
        }
    }

    pub fn and(&mut self, left: Frame, right: Frame) -> Frame {
        self.write([AND, left, right, 0])
    }

    pub fn or(&mut self, left: Frame, right: Frame) -> Frame {
        self.write([OR, left, right, 0])
    }

    pub fn all(&mut self, frames: &[Frame]) -> Frame {
        match frames.split_first() {
            Some((&first, rest)) => rest.iter().fold(first, |all, &frame| self.and(all, frame)),
            None => self.always(),
        }
    }

    pub fn any(&mut self, frames: &[Frame]) -> Frame {
        match frames.split_first() {
            Some((&first, rest)) => rest.iter().fold(first, |any, &frame| self.or(any, frame)),
            None => self.never(),
        }
    }

    pub fn implies(&mut self, left: Frame, right: Frame) -> Frame {
        let not_left = self.not(left);
        self.or(not_left, right)
    }

    /// Not both.
    pub fn apart(&mut self, left: Frame, right: Frame) -> Frame {
        let (not_left, not_right) = (self.not(left), self.not(right));
        self.or(not_left, not_right)
    }

    /// Exactly one of the two; four frames.
    pub fn differ(&mut self, left: Frame, right: Frame) -> Frame {
        let (either, both) = (self.or(left, right), self.and(left, right));
        let not_both = self.not(both);
        self.and(either, not_both)
    }

    pub fn equal(&mut self, left: Frame, right: Frame) -> Frame {
        let differ = self.differ(left, right);
        self.not(differ)
    }

    /// An odd number of the frames, one after the other.
    pub fn parity(&mut self, frames: &[Frame]) -> Frame {
        frames[1..].iter().fold(frames[0], |parity, &frame| self.differ(parity, frame))
    }

    pub fn at_most_one(&mut self, frames: &[Frame]) -> Frame {
        let mut some = frames[0];
        let mut apart = Vec::new();
        for &frame in &frames[1..] {
            apart.push(self.apart(some, frame));
            some = self.or(some, frame);
        }
        self.all(&apart)
    }

    pub fn exactly_one(&mut self, frames: &[Frame]) -> Frame {
        let (most, least) = (self.at_most_one(frames), self.any(frames));
        self.and(most, least)
    }

    /// Sum and carry of three bits; nine frames.
    pub fn full_adder(&mut self, x: Frame, y: Frame, carry: Frame) -> (Frame, Frame) {
        let differ = self.differ(x, y);
        let sum = self.differ(differ, carry);
        let (both, passed) = (self.and(x, y), self.and(differ, carry));
        (sum, self.or(both, passed))
    }

    /// The sum of two numbers, lowest bit first, one bit longer.
    pub fn add(&mut self, x: &[Frame], y: &[Frame]) -> Vec<Frame> {
        let mut bits = vec![self.differ(x[0], y[0])];
        let mut carry = self.and(x[0], y[0]);
        for (&x, &y) in x.iter().zip(y).skip(1) {
            let (sum, next) = self.full_adder(x, y, carry);
            bits.push(sum);
            carry = next;
        }
        bits.push(carry);
        bits
    }

    /// Two numbers of one length are equal.
    pub fn same(&mut self, x: &[Frame], y: &[Frame]) -> Frame {
        let bits: Vec<Frame> = x.iter().zip(y).map(|(&x, &y)| self.equal(x, y)).collect();
        self.all(&bits)
    }

    /// The first number is below the second; both lowest bit first.
    pub fn below(&mut self, x: &[Frame], y: &[Frame]) -> Frame {
        let mut below = self.never();
        for (&x, &y) in x.iter().zip(y) {
            let not_x = self.not(x);
            let (sure, perhaps) = (self.and(not_x, y), self.or(not_x, y));
            let kept = self.and(perhaps, below);
            below = self.or(sure, kept);
        }
        below
    }

    pub fn exists(&mut self, variables: Range<usize>, frame: Frame) -> Frame {
        self.write([EXISTS, frame, variables.start, variables.len()])
    }

    pub fn forall(&mut self, variables: Range<usize>, frame: Frame) -> Frame {
        self.write([FORALL, frame, variables.start, variables.len()])
    }

    pub fn quantified(&mut self, forall: bool, variables: Range<usize>, frame: Frame) -> Frame {
        if forall {
            self.forall(variables, frame)
        } else {
            self.exists(variables, frame)
        }
    }

    /// The sheet whose formula is this frame: the frames that it reaches, in their order.
    pub fn finish(self, last: Frame) -> Vec<u8> {
        let mut reached = vec![false; last + 1];
        reached[last] = true;
        for number in (0..=last).rev() {
            if reached[number] {
                self.named(number).for_each(|named| reached[named] = true);
            }
        }
        let mut numbers = vec![0; last + 1];
        let (mut bytes, mut count) = (Vec::new(), 0);
        for number in (0..=last).filter(|&number| reached[number]) {
            numbers[number] = count;
            count += 1;
            let mut frame = self.frames[number];
            for (field, named) in (1..).zip(self.named(number)) {
                frame[field] = numbers[named];
            }
            bytes.extend(self.form.bytes(frame.map(|field| field as u16)));
        }
        assert!(count <= self.most_frames(), "a sheet of {count} frames");
        bytes
    }

    /// The frames that a frame names, in the order of its fields from A on.
    fn named(&self, number: Frame) -> impl Iterator<Item = Frame> {
        let [kind, a, b, _] = self.frames[number];
        let count = match kind {
            NEVER | INPUT | GAUGE => 0,
            AND | OR => 2,
            _ => 1,
        };
        [a, b].into_iter().take(count)
    }
}
