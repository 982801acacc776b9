//! One run of a group: what it is given, and where its checks go.

use crate::evaluator::form::Form;
use crate::rng::Rng;
use crate::tally::Tally;

pub struct Options {
    pub seed: u64,
    pub count: u64,
    pub program: String,
    /// The reader of questions.
    pub qdimacs: String,
    /// The converter.
    pub widen: String,
    /// The writer of normal sheets.
    pub normal: String,
}

pub struct Run<'a> {
    pub options: &'a Options,
    /// The form of the sheets that are drawn.
    pub form: Form,
    /// Which run of the group it is.
    pub number: u64,
    pub rng: Rng,
    pub tally: &'a mut Tally,
}

impl Run<'_> {
    pub fn check(&mut self, holds: bool, report: impl FnOnce() -> String) {
        self.tally.check(self.number, holds, report);
    }
}
