//! The rules of truth, ASK, WHY and normal sheets read word for word, without tables. Only for sheets whose quantifiers
//! bind few variables, and whose formula is short when it is written out: it is what the rest is checked against.

use super::form::Form;
use super::sheet::{named, naming, Kind, Range, Sheet};
use super::words::ascending;

/// The value of a frame under a setting of all variables.
fn value(sheet: &Sheet, frame: usize, setting: u64) -> bool {
    match sheet.frames[frame] {
        Kind::Never => false,
        Kind::Input { variable } => setting >> variable & 1 == 1,
        Kind::Not { frame } => !value(sheet, frame, setting),
        Kind::And { left, right } => value(sheet, left, setting) && value(sheet, right, setting),
        Kind::Or { left, right } => value(sheet, left, setting) || value(sheet, right, setting),
        Kind::Exists { frame, binds } => ranged(setting, binds).any(|setting| value(sheet, frame, setting)),
        Kind::Forall { frame, binds } => ranged(setting, binds).all(|setting| value(sheet, frame, setting)),
    }
}

/// The setting with all settings of the range's variables, of which there are fewer than 64.
fn ranged(setting: u64, range: Range) -> impl Iterator<Item = u64> {
    let rest = setting & !range.mask();
    (0..1u64 << range.count).map(move |bits| rest | bits << range.first)
}

/// ASK's verdict and word.
pub fn ask(sheet: &Sheet, entered: u64, values: u64) -> (bool, u64) {
    let last = sheet.frames.len() - 1;
    let gauges = sheet.gauges & sheet.open & !entered;
    // The words of the open variables that agree with the entries and this setting of the gauges, and make it true.
    let words = |setting: u64| {
        let agrees = move |word: &u64| word & entered == values && word & gauges == setting;
        ascending(sheet.open).filter(agrees).filter(|&word| value(sheet, last, word))
    };
    for setting in ascending(gauges) {
        if words(setting).next().is_none() {
            return (false, setting);
        }
    }
    (true, words(0).next().expect("a word for every setting of the gauges"))
}

pub fn why(sheet: &Sheet, entered: u64, values: u64) -> (bool, u64) {
    let (verdict, word) = ask(sheet, entered, values);
    if sheet.gauges != 0 {
        return (verdict, left(sheet, entered, |mask| verdict_stays(sheet, entered, values, mask, verdict)));
    }
    let (start, values) = if verdict { (sheet.open, word) } else { (entered, values) };
    (verdict, left(sheet, start, |mask| truth_stays(sheet, values, mask, verdict)))
}

/// From the highest variable down, one is dropped if what would then be left is enough.
fn left(sheet: &Sheet, start: u64, enough: impl Fn(u64) -> bool) -> u64 {
    let mut left = start;
    for variable in (0..sheet.form.variables()).rev().filter(|variable| start >> variable & 1 == 1) {
        let fewer = left & !(1 << variable);
        if enough(fewer) {
            left = fewer;
        }
    }
    left
}

/// All settings that agree with the values on the mask give the last frame that truth.
fn truth_stays(sheet: &Sheet, values: u64, mask: u64, truth: bool) -> bool {
    let last = sheet.frames.len() - 1;
    let agreeing = |word: &u64| word & mask == values & mask;
    ascending(sheet.open).filter(agreeing).all(|word| value(sheet, last, word) == truth)
}

/// All entries of the same variables that agree with the values on the mask get that verdict.
fn verdict_stays(sheet: &Sheet, entered: u64, values: u64, mask: u64, verdict: bool) -> bool {
    let agreeing = |others: &u64| others & mask == values & mask;
    ascending(entered).filter(agreeing).all(|others| ask(sheet, entered, others).0 == verdict)
}

/// How many values of frames an ask may look at, roughly: the unfolded formula's size under all its settings.
pub fn cost(sheet: &Sheet) -> u64 {
    let mut costs: Vec<u64> = Vec::new();
    for kind in &sheet.frames {
        let cost = match *kind {
            Kind::Never | Kind::Input { .. } => 1,
            Kind::Not { frame } => costs[frame].saturating_add(1),
            Kind::And { left, right } | Kind::Or { left, right } => {
                costs[left].saturating_add(costs[right]).saturating_add(1)
            }
            Kind::Exists { frame, binds } | Kind::Forall { frame, binds } => {
                costs[frame].saturating_mul(settings(binds.count.into())).saturating_add(1)
            }
        };
        costs.push(cost);
    }
    let gauges = (sheet.gauges & sheet.open).count_ones();
    costs.last().unwrap().saturating_mul(settings(sheet.open.count_ones() + gauges))
}

/// The number of settings of so many variables, or the largest number.
fn settings(variables: u32) -> u64 {
    1u64.checked_shl(variables).unwrap_or(u64::MAX)
}

/// The normal sheet of an accepted one: the last frame is placed.
pub fn normal(form: Form, sheet: &[u8]) -> Vec<u8> {
    let frames: Vec<[u16; 4]> = sheet.chunks_exact(form.frame()).map(|frame| form.fields(frame)).collect();
    let mut placed = Vec::new();
    place(&frames, frames.len() as u16 - 1, &mut placed);
    placed.into_iter().flat_map(|frame| form.bytes(frame)).collect()
}

/// A's side is placed, then B's, then the frame itself, unless one of the same kind and fields is there. Its new number.
fn place(frames: &[[u16; 4]], frame: u16, placed: &mut Vec<[u16; 4]>) -> u16 {
    let renumbered = naming(frames[usize::from(frame)], |side| place(frames, side, placed));
    let number = placed.iter().position(|&other| other == renumbered);
    number.unwrap_or_else(|| {
        placed.push(renumbered);
        placed.len() - 1
    }) as u16
}

/// How often a frame is placed: the size of the formula written out, or the largest number.
pub fn places(form: Form, sheet: &[u8]) -> u64 {
    let mut places: Vec<u64> = Vec::new();
    for frame in sheet.chunks_exact(form.frame()) {
        let sides = named(form.fields(frame)).into_iter().map(|side| places[usize::from(side)]);
        places.push(sides.fold(1, u64::saturating_add));
    }
    *places.last().expect("a frame")
}
