//! A sheet's question in QDIMACS, for depqbf: the prenex form with a Tseitin encoding of its matrix. A gate gets clauses only
//! for the polarities in which it is used, and a gate used once is joined with the gate that uses it.

use crate::evaluator::sheet::Sheet;
use crate::prenex::{prenex, Node, Prenex, Signal, FALSE, TRUE};
use std::fmt::Write;

/// None if the prenex form would be too large.
pub fn qdimacs(sheet: &Sheet) -> Option<String> {
    let prenex = prenex(sheet)?;
    Some(match prenex.matrix {
        TRUE => "p cnf 0 0\n".to_string(),
        FALSE => "p cnf 0 1\n0\n".to_string(),
        matrix => {
            let count = prenex.nodes.len();
            let (uses, defined) = (uses(&prenex), vec![[false; 2]; count]);
            let mut encoding = Encoding { prenex: &prenex, uses, defined, clauses: Vec::new() };
            encoding.assert(matrix, &mut vec![false; count]);
            text(&encoding.clauses, &levels(&prenex))
        }
    })
}

struct Encoding<'a> {
    prenex: &'a Prenex,
    /// How many places use the node.
    uses: Vec<u32>,
    /// Whether the clauses for the node, and for its negation, have been written.
    defined: Vec<[bool; 2]>,
    clauses: Vec<Vec<Signal>>,
}

fn uses(prenex: &Prenex) -> Vec<u32> {
    let mut uses = vec![0; prenex.nodes.len()];
    for node in &prenex.nodes {
        if let Node::And(left, right) = *node {
            uses[left.node()] += 1;
            uses[right.node()] += 1;
        }
    }
    uses[prenex.matrix.node()] += 1;
    uses
}

impl Encoding<'_> {
    fn gate(&self, signal: Signal) -> Option<(Signal, Signal)> {
        match self.prenex.nodes[signal.node()] {
            Node::And(left, right) => Some((left, right)),
            _ => None,
        }
    }

    /// The signal holds: a conjunction part by part, a disjunction as one clause.
    fn assert(&mut self, signal: Signal, asserted: &mut [bool]) {
        match self.gate(signal) {
            Some((left, right)) if !signal.negated() => {
                if !std::mem::replace(&mut asserted[signal.node()], true) {
                    self.assert(left, asserted);
                    self.assert(right, asserted);
                }
            }
            Some(_) => self.clause(None, self.nots_of_parts(signal)),
            None => self.clause(None, vec![signal]),
        }
    }

    /// The parts of a conjunction, through the conjunctions among them that are used here alone.
    fn parts(&self, conjunction: Signal) -> Vec<Signal> {
        let (left, right) = self.gate(conjunction).expect("a conjunction");
        let (mut waiting, mut parts) = (vec![right, left], Vec::new());
        while let Some(part) = waiting.pop() {
            match self.gate(part) {
                Some((left, right)) if !part.negated() && self.uses[part.node()] == 1 => waiting.extend([right, left]),
                _ => parts.push(part),
            }
        }
        parts
    }

    /// The parts of a disjunction.
    fn nots_of_parts(&self, disjunction: Signal) -> Vec<Signal> {
        self.parts(disjunction.flipped()).into_iter().map(Signal::flipped).collect()
    }

    /// If the gate holds (if one is given), so does one of the signals; and what each of them implies.
    fn clause(&mut self, gate: Option<Signal>, signals: Vec<Signal>) {
        let mut clause: Vec<Signal> = gate.map(Signal::flipped).into_iter().chain(signals.iter().copied()).collect();
        clause.sort_unstable();
        clause.dedup();
        if clause.windows(2).any(|pair| pair[0] == pair[1].flipped()) {
            return;
        }
        self.clauses.push(clause);
        signals.into_iter().for_each(|signal| self.define(signal));
    }

    /// What the signal implies, if it is a gate's.
    fn define(&mut self, signal: Signal) {
        let defined = &mut self.defined[signal.node()][usize::from(signal.negated())];
        if std::mem::replace(defined, true) || self.gate(signal).is_none() {
            return;
        }
        if signal.negated() {
            self.clause(Some(signal), self.nots_of_parts(signal));
        } else {
            self.parts(signal).into_iter().for_each(|part| self.clause(Some(signal), vec![part]));
        }
    }
}

/// The level of each node. Gates stand innermost.
fn levels(prenex: &Prenex) -> Vec<u32> {
    let level = |node: &Node| if let Node::Variable { level, .. } = *node { level } else { 0 };
    let innermost = prenex.nodes.iter().map(level).max().unwrap_or(0).next_multiple_of(2);
    prenex.nodes.iter().map(|node| if let Node::And(..) = node { innermost } else { level(node) }).collect()
}

/// The variables and gates that occur in a clause, numbered from 1 by level, and the clauses.
fn text(clauses: &[Vec<Signal>], levels: &[u32]) -> String {
    let mut nodes: Vec<usize> = clauses.iter().flatten().map(|signal| signal.node()).collect();
    nodes.sort_unstable_by_key(|&node| (levels[node], node));
    nodes.dedup();
    let mut numbers = vec![0; levels.len()];
    let mut text = format!("p cnf {} {}\n", nodes.len(), clauses.len());
    let mut letter = "";
    for (number, &node) in (1..).zip(&nodes) {
        numbers[node] = number;
        let quantifier = if levels[node] % 2 == 0 { "e" } else { "a" };
        if quantifier != letter {
            text += if letter.is_empty() { "" } else { " 0\n" };
            text += quantifier;
            letter = quantifier;
        }
        write!(text, " {number}").unwrap();
    }
    text += if letter.is_empty() { "" } else { " 0\n" };
    for clause in clauses {
        for signal in clause {
            let sign = if signal.negated() { "-" } else { "" };
            write!(text, "{sign}{} ", numbers[signal.node()]).unwrap();
        }
        text += "0\n";
    }
    text
}
