//! Texts through the writer of normal sheets.

use super::texts::some_text;
use super::{accepted, some_sheets};
use crate::compare;
use crate::evaluator::form::{Form, LINE};
use crate::evaluator::normal::normal;
use crate::evaluator::Call;
use crate::generate::copies::{changed, copy};
use crate::generate::sheets::{Size, LARGE, LARGER, LARGEST, MIDDLE, SMALL};
use crate::generate::texts::{in_some_style, text as plain};
use crate::run::{Options, Run};

pub fn text_runs(options: &Options, _: Form) -> u64 {
    options.count / 50
}

/// Texts in every style: one in five of a faulty sheet, half of them damaged or with a strange line.
pub fn texts(run: &mut Run) {
    let text = some_text(run);
    let pieces = if run.number.is_multiple_of(20) { 3 } else { 1 };
    let _ = compare::normal(run, &text, pieces);
}

pub fn sheet_runs(options: &Options, _: Form) -> u64 {
    options.count / 125
}

/// An accepted sheet, another of the same formula, and one with something changed.
pub fn sheets(run: &mut Run) {
    let form = run.form;
    let sheet = some_sheet(run);
    compare::normal_literally(run, &sheet);
    let printed = written(run, &sheet);
    compare::normal_laws(run, &sheet, &printed);
    let copied = copy(&mut run.rng, form, &sheet);
    accepted(form, &copied);
    for other in [Some(copied), changed(&mut run.rng, form, &sheet)].into_iter().flatten() {
        let printed_other = written(run, &other);
        compare::normal_pair(run, [&sheet, &other], [&printed, &printed_other]);
    }
}

/// A sheet that is drawn again, a few times, if its normal sheet has less than half of its frames.
fn some_sheet(run: &mut Run) -> Vec<u8> {
    let size = some_size(run);
    let drawn = some_sheets(&mut run.rng);
    let mut tries = run.rng.between(2, 12);
    loop {
        let sheet = drawn(&mut run.rng, run.form, size);
        let normal = normal(run.form, &sheet).expect("an accepted sheet");
        tries -= 1;
        if tries == 0 || 2 * normal.len() >= sheet.len() {
            return sheet;
        }
    }
}

fn some_size(run: &mut Run) -> Size {
    match (run.rng.below(100), run.form) {
        (0..=54, _) => SMALL,
        (55..=74, _) => MIDDLE,
        (_, Form::Narrow) => LARGE,
        (75..=96, _) => LARGER,
        _ => LARGEST,
    }
}

/// What the writer prints for a text of that sheet; the bytes of its script are of no consequence.
fn written(run: &mut Run, sheet: &[u8]) -> Result<Vec<u8>, String> {
    let lines = run.rng.below(4);
    let script = run.rng.bytes(lines * LINE);
    let text = plain(Call { form: run.form, sheet, script: &script });
    let text = in_some_style(&mut run.rng, &text);
    compare::normal(run, &text, 1)
}
