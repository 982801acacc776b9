//! Sheets with up to all variables, of which no table can be made: chains of literals, one of each variable, and such
//! chains under as many quantifiers as there may be. What is answered follows from the rules at once.

use super::draft::Draft;
use crate::evaluator::form::Form;
use crate::rng::Rng;

/// What a sheet says of its open variables: an OR or an AND of a literal of each.
pub struct Chain {
    pub or: bool,
    pub open: u64,
    /// The variables whose literal is not negated.
    pub positive: u64,
    /// The variables that a 07 frame names, open or not.
    pub gauges: u64,
}

/// A chain of all variables or of some. A FORALL may bind some of an OR, an EXISTS some of an AND: it says the same of
/// those left.
pub fn chain(rng: &mut Rng, form: Form) -> (Vec<u8>, Chain) {
    let variables = all_variables(rng, form);
    let count = if rng.percent(50) { variables.len() } else { rng.between(1, 12) };
    let (variables, unused) = variables.split_at(count);
    let (mut draft, frame, mut chain) = drafted(rng, form, variables, unused);
    if let (true, Some((first, count))) = (rng.percent(50), draft.some_range(rng, chain.open)) {
        let quantified = draft.quantifier(chain.or, frame, first, count);
        chain.open = draft.open(quantified);
    }
    (draft.bytes, chain)
}

/// A short chain inside quantifiers of all other variables or of some, one around the other and each over one variable.
/// There is a value that makes its literal true, and not every value does: so each has the truth of what is inside.
pub fn nest(rng: &mut Rng, form: Form) -> (Vec<u8>, Chain) {
    let variables = all_variables(rng, form);
    let (open, others) = variables.split_at(rng.between(1, 3));
    let levels = if rng.percent(50) { others.len() } else { rng.between(1, others.len()) };
    let (bound, unused) = others.split_at(levels);
    let (mut draft, mut frame, mut chain) = drafted(rng, form, open, unused);
    for &variable in bound {
        let literal = draft.literal(rng, variable);
        let forall = rng.percent(50);
        let gate = if forall { draft.or(frame, literal) } else { draft.and(frame, literal) };
        frame = draft.quantifier(forall, gate, variable, 1);
        if rng.percent(20) {
            frame = draft.not(frame);
            chain = Chain { or: !chain.or, positive: !chain.positive & chain.open, ..chain };
        }
    }
    (draft.bytes, chain)
}

fn all_variables(rng: &mut Rng, form: Form) -> Vec<u8> {
    let mut variables: Vec<u8> = (0..form.variables()).collect();
    rng.shuffle(&mut variables);
    variables
}

/// A chain of these variables, some of them negated, and its last frame. One in two has gauges among them, or an unused
/// variable as one, named by a frame that nothing reaches.
fn drafted(rng: &mut Rng, form: Form, variables: &[u8], unused: &[u8]) -> (Draft, usize, Chain) {
    let mut chain = Chain { or: rng.percent(50), open: 0, positive: 0, gauges: 0 };
    let share = rng.pick(&[0, 0, 0, 0, 10, 50, 90, 100]);
    chain.gauges = variables.iter().filter(|_| rng.percent(share)).fold(0, |mask, variable| mask | 1 << variable);
    let apart = if rng.percent(15) { unused.first().copied() } else { None };
    chain.gauges |= apart.map_or(0, |variable| 1 << variable);
    let mut draft = Draft::new(form, form.most_frames(), chain.gauges);
    if let Some(variable) = apart {
        draft.input(variable);
    }
    let mut last = None;
    for &variable in variables {
        let input = draft.input(variable);
        let positive = rng.percent(50);
        let literal = if positive { input } else { draft.not(input) };
        chain.open |= 1 << variable;
        chain.positive |= u64::from(positive) << variable;
        last = Some(match last {
            None => literal,
            Some(frame) if chain.or => draft.or(frame, literal),
            Some(frame) => draft.and(frame, literal),
        });
    }
    (draft, last.expect("a variable"), chain)
}

impl Chain {
    /// Those of the variables whose literal is true under a setting.
    fn true_ones(&self, variables: u64, setting: u64) -> u64 {
        !(setting ^ self.positive) & variables
    }

    /// The open variables that are not entered: the gauges, and the others.
    fn left(&self, entered: u64) -> (u64, u64) {
        let left = self.open & !entered;
        (left & self.gauges, left & !self.gauges)
    }

    /// ASK's verdict and word. One true literal is enough for an OR: an entry's, or one of the others. Else it fails with
    /// every gauge set against it. For an AND all must be true, which a gauge can always spoil.
    pub fn ask(&self, entered: u64, values: u64) -> (bool, u64) {
        let (gauges, others) = self.left(entered);
        let settled = self.true_ones(entered, values);
        if self.or && settled == 0 && others == 0 {
            (false, gauges & !self.positive)
        } else if self.or {
            let with_zeros = self.true_ones(self.open, values) != 0;
            (true, values | if with_zeros { 0 } else { lowest(others) })
        } else if settled != entered || gauges & self.positive != 0 {
            (false, 0)
        } else if gauges != 0 {
            (false, lowest(gauges))
        } else {
            (true, values | others & self.positive)
        }
    }

    /// One literal is reason enough for a true OR or a false AND, and the lowest is dropped last; else all are needed.
    /// Where there are gauges only entries are, and none if those not entered settle it.
    pub fn why(&self, entered: u64, values: u64) -> (bool, u64) {
        let (verdict, word) = self.ask(entered, values);
        let (gauges, others) = self.left(entered);
        let (start, setting) = if verdict && self.gauges == 0 { (self.open, word) } else { (entered, values) };
        let settling = if self.or { others } else { gauges };
        let left = if verdict != self.or {
            start
        } else if self.gauges != 0 && settling != 0 {
            0
        } else if self.or {
            lowest(self.true_ones(start, setting))
        } else {
            lowest(start & !self.true_ones(start, setting))
        };
        (verdict, left)
    }
}

/// The lowest variable of a mask, as a mask.
fn lowest(mask: u64) -> u64 {
    mask & mask.wrapping_neg()
}
