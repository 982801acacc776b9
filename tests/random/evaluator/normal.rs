//! The one written form of a sheet (documents/02-change-requests.md): the frames that the last one reaches, equal ones
//! once, each behind those it names, A's whole side before B's, the first met first. It is read off the formulas as trees.

use super::form::Form;
use super::sheet::{self, named, naming, Refusal};
use std::collections::HashMap;

/// The normal sheet's bytes, or the sheet's own refusal. The sheet has whole frames and not too many.
pub fn normal(form: Form, sheet: &[u8]) -> Result<Vec<u8>, Refusal> {
    if sheet.is_empty() {
        return Err(Refusal { number: 2, place: 0 });
    }
    sheet::check(form, sheet)?;
    let mut forest = Forest::default();
    let last = forest.last(form, sheet);
    Ok(forest.frames(last).into_iter().flat_map(|frame| form.bytes(frame)).collect())
}

/// Whether the last frames of two accepted sheets are the same formula, written out.
pub fn same_tree(form: Form, one: &[u8], other: &[u8]) -> bool {
    let mut forest = Forest::default();
    forest.last(form, one) == forest.last(form, other)
}

/// Formulas as trees, no two of them equal: a frame's fields, with the numbers of trees where it names frames.
#[derive(Default)]
struct Forest {
    trees: Vec<[u16; 4]>,
    numbers: HashMap<[u16; 4], u16>,
}

impl Forest {
    /// The number of the last frame's tree; those of all its frames are in the forest then.
    fn last(&mut self, form: Form, sheet: &[u8]) -> u16 {
        let mut trees: Vec<u16> = Vec::new();
        for frame in sheet.chunks_exact(form.frame()) {
            let fields = form.fields(frame);
            trees.push(self.number(naming(fields, |frame| trees[usize::from(frame)])));
        }
        *trees.last().expect("a frame")
    }

    fn number(&mut self, tree: [u16; 4]) -> u16 {
        let next = self.trees.len() as u16;
        let number = *self.numbers.entry(tree).or_insert(next);
        if number == next {
            self.trees.push(tree);
        }
        number
    }

    /// The tree's frames. Every tree inside it is written once, as soon as both its sides are.
    fn frames(&self, tree: u16) -> Vec<[u16; 4]> {
        let mut frames = Vec::new();
        let mut written = HashMap::new();
        // From the whole tree down to the one to be written next.
        let mut path = vec![tree];
        while let Some(&tree) = path.last() {
            let fields = self.trees[usize::from(tree)];
            match named(fields).iter().find(|side| !written.contains_key(*side)) {
                Some(&side) => path.push(side),
                None => {
                    written.insert(tree, frames.len() as u16);
                    frames.push(naming(fields, |side| written[&side]));
                    path.pop();
                }
            }
        }
        frames
    }
}
