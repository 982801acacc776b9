//! A sheet's question in prenex form: quantified variables in levels, and a matrix of AND gates with signed inputs.
//!
//! Negation is pushed down to the quantified frames, so that each stands for itself (its quantifier) or for its NOT (the other
//! quantifier). The rest is then monotone in each of them, and for a monotone P: P(exists x. F) is exists x. P(F), and the
//! same for forall, whatever other quantifiers P contains, as long as they bind nothing that is open in F. So a quantified
//! frame moves to the front of the scope where it belongs, once for all places that name it in the same polarity, with
//! variables of its own for each polarity and for each copy of the scope around it.

use crate::evaluator::sheet::{Kind, Range, Sheet};
use crate::scope::{named, Scopes, VARIABLES};
use std::collections::HashMap;

/// A gate or variable of the matrix, or its negation: twice the node's number, plus 1 if negated.
#[derive(Clone, Copy, Debug, PartialEq, Eq, Hash, PartialOrd, Ord)]
pub struct Signal(pub u32);

pub const TRUE: Signal = Signal(0);
pub const FALSE: Signal = Signal(1);

impl Signal {
    pub fn node(self) -> usize {
        (self.0 >> 1) as usize
    }

    pub fn negated(self) -> bool {
        self.0 & 1 == 1
    }

    #[must_use]
    pub fn flipped(self) -> Signal {
        Signal(self.0 ^ 1)
    }

    fn times(self, positive: bool) -> Signal {
        Signal(self.0 ^ u32::from(!positive))
    }
}

#[derive(Clone, Copy, PartialEq, Eq, Hash)]
pub enum Node {
    /// Node 0.
    True,
    /// A variable, bound at a level: even ones are existential. The open variables stand at level 0, or if there are gauges among
    /// them, these at level 1 and the others at level 2.
    Variable {
        level: u32,
        serial: u32,
    },
    And(Signal, Signal),
}

pub struct Prenex {
    pub nodes: Vec<Node>,
    pub matrix: Signal,
}

/// A sheet whose matrix would have more nodes than this is not converted: where quantified frames are nested and each is named
/// in both polarities, every level doubles the matrix.
const MOST_NODES: usize = 200_000;

/// The level of the open gauges, which are universal and stand outside all others.
const GAUGES: u32 = 1;

/// None if the matrix is too large.
pub fn prenex(sheet: &Sheet) -> Option<Prenex> {
    let scopes = Scopes::of(sheet);
    let mut quantifies = Vec::new();
    for kind in &sheet.frames {
        let own = matches!(kind, Kind::Exists { .. } | Kind::Forall { .. });
        quantifies.push(own || named(*kind).into_iter().any(|frame| quantifies[frame]));
    }
    let level = if sheet.gauges & sheet.open == 0 { 0 } else { GAUGES + 1 };
    let open = Copy { binder: None, level, outer: None, first: 0 };
    let mut work = Work {
        sheet,
        scopes,
        quantifies,
        nodes: vec![Node::True],
        numbers: HashMap::new(),
        copies: vec![open],
        known: HashMap::new(),
        serial: VARIABLES as u32,
    };
    let matrix = work.signal(sheet.frames.len() - 1, true, 0)?;
    Some(Prenex { nodes: work.nodes, matrix })
}

/// A copy of a scope with variables of its own.
struct Copy {
    /// The quantified frame; none for the outermost scope.
    binder: Option<usize>,
    level: u32,
    /// The copy of the scope around it.
    outer: Option<usize>,
    /// The serial number of its first variable.
    first: u32,
}

struct Work<'a> {
    sheet: &'a Sheet,
    scopes: Scopes,
    /// Whether a quantified frame is reached from the frame.
    quantifies: Vec<bool>,
    nodes: Vec<Node>,
    numbers: HashMap<Node, u32>,
    copies: Vec<Copy>,
    /// Frame, polarity and copy of its scope.
    known: HashMap<(usize, bool, usize), Signal>,
    serial: u32,
}

impl Work<'_> {
    /// The frame, or with false its NOT, named inside this copy of a scope.
    fn signal(&mut self, frame: usize, positive: bool, inside: usize) -> Option<Signal> {
        if !positive && !self.quantifies[frame] {
            return Some(self.signal(frame, true, inside)?.flipped());
        }
        let copy = self.enclosing(inside, self.scopes.home[frame]);
        if let Some(&signal) = self.known.get(&(frame, positive, copy)) {
            return Some(signal);
        }
        if self.nodes.len() > MOST_NODES {
            return None;
        }
        let signal = match self.sheet.frames[frame] {
            Kind::Never => FALSE.times(positive),
            Kind::Input { variable } => self.variable(variable, copy).times(positive),
            Kind::Not { frame } => self.signal(frame, !positive, copy)?,
            Kind::And { left, right } => self.gate(left, right, positive, copy, true)?,
            Kind::Or { left, right } => self.gate(left, right, positive, copy, false)?,
            Kind::Exists { frame: body, binds } => self.quantified(frame, body, binds, positive, positive, copy)?,
            Kind::Forall { frame: body, binds } => self.quantified(frame, body, binds, positive, !positive, copy)?,
        };
        self.known.insert((frame, positive, copy), signal);
        Some(signal)
    }

    /// The copy of that scope around, or equal to, this copy.
    fn enclosing(&self, mut copy: usize, binder: Option<usize>) -> usize {
        while self.copies[copy].binder != binder {
            copy = self.copies[copy].outer.expect("a frame is named inside its scope only");
        }
        copy
    }

    fn variable(&mut self, variable: u8, copy: usize) -> Signal {
        let Copy { binder, level, first, .. } = self.copies[copy];
        let level = if self.sheet.gauges >> variable & 1 == 1 { GAUGES } else { level };
        let start = match binder.map(|binder| self.sheet.frames[binder]) {
            Some(Kind::Exists { binds, .. } | Kind::Forall { binds, .. }) => binds.first,
            _ => 0,
        };
        self.node(Node::Variable { level, serial: first + u32::from(variable - start) })
    }

    /// AND, or OR as the NOT of the AND of both NOTs.
    fn gate(&mut self, left: usize, right: usize, positive: bool, copy: usize, and: bool) -> Option<Signal> {
        let (left, right) = (self.signal(left, positive, copy)?, self.signal(right, positive, copy)?);
        let conjunction = and == positive;
        Some(self.and(left.times(conjunction), right.times(conjunction)).times(conjunction))
    }

    fn and(&mut self, left: Signal, right: Signal) -> Signal {
        let (left, right) = (left.min(right), left.max(right));
        match (left, right) {
            (TRUE, other) => other,
            (FALSE, _) => FALSE,
            _ if left == right => left,
            _ if left == right.flipped() => FALSE,
            _ => self.node(Node::And(left, right)),
        }
    }

    fn node(&mut self, node: Node) -> Signal {
        let nodes = &mut self.nodes;
        let number = *self.numbers.entry(node).or_insert_with(|| {
            nodes.push(node);
            nodes.len() as u32 - 1
        });
        Signal(number << 1)
    }

    /// A new copy of the frame's own scope, bound at the same level as the scope around it or at the next, and the body
    /// inside it.
    fn quantified(
        &mut self,
        frame: usize,
        body: usize,
        binds: Range,
        positive: bool,
        existential: bool,
        copy: usize,
    ) -> Option<Signal> {
        let outer = self.copies[copy].level;
        let level = outer + u32::from((outer % 2 == 0) != existential);
        self.copies.push(Copy { binder: Some(frame), level, outer: Some(copy), first: self.serial });
        self.serial += u32::from(binds.count);
        self.signal(body, positive, self.copies.len() - 1)
    }
}
