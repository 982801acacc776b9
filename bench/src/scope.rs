//! Where each frame of a sheet belongs when the sheet is written as a formula with scopes.
//!
//! A variable is bound by at most one frame, and no bound variable is open in the last frame: so every way from the last frame
//! to a frame with a bound variable open leads through the frame that binds it. Hence a frame's value depends on its
//! open variables only, wherever it is named, and it can be written once, in the innermost scope that binds one of them.

use crate::evaluator::sheet::{open_variables, Kind, Sheet};

/// Of a wide sheet; a narrow one has fewer.
pub const VARIABLES: usize = 64;

pub struct Scopes {
    /// The frames that the last one names, directly or through others, and the last one itself.
    pub reached: Vec<bool>,
    /// For each frame the quantified frame in whose body it belongs; none for the outermost scope.
    pub home: Vec<Option<usize>>,
    /// For each variable the reached frame that binds it.
    pub binder: [Option<usize>; VARIABLES],
}

impl Scopes {
    pub fn of(sheet: &Sheet) -> Scopes {
        let reached = reached(&sheet.frames);
        let mut binder = [None; VARIABLES];
        let mut open = Vec::new();
        for (number, kind) in sheet.frames.iter().enumerate() {
            open.push(open_variables(*kind, &open));
            if let (Kind::Exists { binds, .. } | Kind::Forall { binds, .. }, true) = (*kind, reached[number]) {
                binds.variables().for_each(|variable| binder[usize::from(variable)] = Some(number));
            }
        }
        // An inner quantified frame has the smaller number.
        let innermost = |open: &u64| (0..VARIABLES).filter(|v| open >> v & 1 == 1).filter_map(|v| binder[v]).min();
        let home = open.iter().map(innermost).collect();
        Scopes { reached, home, binder }
    }
}

/// The frames that a frame names.
pub fn named(kind: Kind) -> Vec<usize> {
    match kind {
        Kind::Never | Kind::Input { .. } => vec![],
        Kind::Not { frame } | Kind::Exists { frame, .. } | Kind::Forall { frame, .. } => vec![frame],
        Kind::And { left, right } | Kind::Or { left, right } => vec![left, right],
    }
}

fn reached(frames: &[Kind]) -> Vec<bool> {
    let mut reached = vec![false; frames.len()];
    reached[frames.len() - 1] = true;
    for number in (0..frames.len()).rev() {
        if reached[number] {
            named(frames[number]).into_iter().for_each(|frame| reached[frame] = true);
        }
    }
    reached
}
