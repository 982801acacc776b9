//! A sheet while it is written. A frame is usable as long as no variable that the sheet binds is open in it; only such
//! frames may be reached from the last one. Which variables are gauges is fixed before: an input of one is a 07 frame, and
//! no quantifier may bind it.

use crate::evaluator::form::Form;
use crate::evaluator::sheet::Range;
use crate::rng::Rng;

pub struct Draft {
    pub form: Form,
    pub bytes: Vec<u8>,
    open: Vec<u64>,
    bound: u64,
    gauges: u64,
    frames: usize,
}

impl Draft {
    /// A draft of at most so many frames, with these gauges.
    pub fn new(form: Form, frames: usize, gauges: u64) -> Draft {
        Draft { form, bytes: Vec::new(), open: Vec::new(), bound: 0, gauges, frames }
    }

    pub fn room(&self) -> usize {
        self.frames - self.open.len()
    }

    pub fn open(&self, frame: usize) -> u64 {
        self.open[frame]
    }

    pub fn unbound(&self, variable: u8) -> bool {
        self.bound >> variable & 1 == 0
    }

    pub fn gauge(&self, variable: u8) -> bool {
        self.gauges >> variable & 1 == 1
    }

    pub fn bindable(&self, variable: u8) -> bool {
        self.unbound(variable) && !self.gauge(variable)
    }

    fn push(&mut self, fields: [usize; 4], open: u64) -> usize {
        self.bytes.extend(self.form.bytes(fields.map(|field| field as u16)));
        self.open.push(open);
        self.open.len() - 1
    }

    pub fn never(&mut self) -> usize {
        self.push([0x00, 0, 0, 0], 0)
    }

    pub fn input(&mut self, variable: u8) -> usize {
        let kind = if self.gauge(variable) { 0x07 } else { 0x01 };
        self.push([kind, variable.into(), 0, 0], 1 << variable)
    }

    pub fn not(&mut self, frame: usize) -> usize {
        self.push([0x02, frame, 0, 0], self.open(frame))
    }

    pub fn and(&mut self, left: usize, right: usize) -> usize {
        self.push([0x03, left, right, 0], self.open(left) | self.open(right))
    }

    pub fn or(&mut self, left: usize, right: usize) -> usize {
        self.push([0x04, left, right, 0], self.open(left) | self.open(right))
    }

    /// AND or OR.
    pub fn gate(&mut self, rng: &mut Rng, left: usize, right: usize) -> usize {
        if rng.percent(50) {
            self.and(left, right)
        } else {
            self.or(left, right)
        }
    }

    /// Exactly one of the two; five frames.
    pub fn differ(&mut self, left: usize, right: usize) -> usize {
        let (not_left, not_right) = (self.not(left), self.not(right));
        let (first, second) = (self.and(left, not_right), self.and(not_left, right));
        self.or(first, second)
    }

    /// The one frame with its condition, or the other with its own; three frames.
    pub fn chosen(&mut self, condition: usize, one: usize, otherwise: usize, other: usize) -> usize {
        let (one, other) = (self.and(condition, one), self.and(otherwise, other));
        self.or(one, other)
    }

    /// INPUT or its NOT; at most two frames.
    pub fn literal(&mut self, rng: &mut Rng, variable: u8) -> usize {
        let input = self.input(variable);
        if rng.percent(50) && self.room() > 1 {
            self.not(input)
        } else {
            input
        }
    }

    pub fn quantifier(&mut self, forall: bool, frame: usize, first: u8, count: u8) -> usize {
        let mask = Range { first, count }.mask();
        self.bound |= mask;
        let kind = 0x05 + usize::from(forall);
        self.push([kind, frame, first.into(), count.into()], self.open(frame) & !mask)
    }

    fn usable(&self) -> impl Iterator<Item = usize> + '_ {
        (0..self.open.len()).filter(|&frame| self.open(frame) & self.bound == 0)
    }

    /// A usable frame, a late one more often.
    pub fn some_usable(&self, rng: &mut Rng) -> Option<usize> {
        let count = self.usable().count();
        if count == 0 {
            return None;
        }
        self.usable().nth(rng.below(count).max(rng.below(count)))
    }

    pub fn some_frame(&self, rng: &mut Rng) -> usize {
        rng.below(self.open.len())
    }

    /// A range of variables that may be bound, around one of the wanted ones, as first and count; large ones are rarer.
    pub fn some_range(&self, rng: &mut Rng, wanted: u64) -> Option<(u8, u8)> {
        let candidates: Vec<u8> =
            (0..self.form.variables()).filter(|&v| wanted >> v & 1 == 1 && self.bindable(v)).collect();
        if candidates.is_empty() {
            return None;
        }
        let start = rng.pick(&candidates);
        let (mut first, mut end) = (start, start + 1);
        let go_on = rng.pick(&[0, 20, 50, 90, 100]);
        while first > 0 && self.bindable(first - 1) && rng.percent(go_on) {
            first -= 1;
        }
        while end < self.form.variables() && self.bindable(end) && rng.percent(go_on) {
            end += 1;
        }
        Some((first, end - first))
    }
}
