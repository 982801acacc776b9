//! The groups of runs. Each takes its random numbers from the seed, its own number, its form and the run's number.

mod calls;
mod chains;
mod normal;
mod questions;
mod texts;

use crate::archive::Outcome;
use crate::evaluator::form::{Form, FORMS};
use crate::evaluator::sheet::{self, Sheet};
use crate::evaluator::{truth::Truth, Call};
use crate::generate::scripts;
use crate::generate::sheets::{self, Size};
use crate::rng::Rng;
use crate::run::{Options, Run};
use crate::{compare, panel};

pub struct Group {
    pub name: &'static str,
    /// The group is run once for each of these.
    pub forms: &'static [Form],
    /// How many runs, each perhaps of several calls.
    pub runs: fn(&Options, Form) -> u64,
    pub run: fn(&mut Run),
}

const NARROW: &[Form] = &[Form::Narrow];
const WIDE: &[Form] = &[Form::Wide];
const BOTH: &[Form] = &FORMS;

pub const GROUPS: &[Group] = &[
    Group { name: "the panel's cases", forms: BOTH, runs: |_, form| panel::cases(form).len() as u64, run: panel::run },
    Group { name: "sizes", forms: BOTH, runs: calls::size_runs, run: calls::sizes },
    Group { name: "every second frame of edge values", forms: BOTH, runs: calls::edge_runs, run: calls::edge_frames },
    Group { name: "every 301st frame of edge values", forms: WIDE, runs: calls::late_runs, run: calls::late_frames },
    Group { name: "every three frames that use variables", forms: BOTH, runs: calls::use_runs, run: calls::uses },
    Group { name: "every line of edge values", forms: BOTH, runs: calls::line_runs, run: calls::edge_lines },
    Group { name: "random runs", forms: BOTH, runs: calls::random_runs, run: calls::random },
    Group { name: "gauges", forms: BOTH, runs: |options, _| options.count / 4, run: calls::gauges },
    Group { name: "long scripts", forms: BOTH, runs: |options, _| options.count / 400, run: calls::long_scripts },
    Group { name: "full tables", forms: BOTH, runs: |options, _| options.count / 2000, run: calls::full_tables },
    Group { name: "chains of all variables", forms: BOTH, runs: |options, _| options.count / 40, run: chains::chain },
    Group { name: "desks", forms: BOTH, runs: |options, _| options.count / 40, run: calls::desks },
    Group { name: "narrow sheets widened", forms: WIDE, runs: |options, _| options.count / 10, run: calls::widened },
    Group { name: "single byte faults", forms: BOTH, runs: |options, _| options.count / 400, run: calls::byte_faults },
    Group { name: "cut sheets and scripts", forms: BOTH, runs: |options, _| options.count / 400, run: calls::cut },
    Group {
        name: "answer buffers of every length",
        forms: BOTH,
        runs: |options, _| options.count / 400,
        run: calls::answer_buffers,
    },
    Group {
        name: "truth tables against the rules read literally",
        forms: BOTH,
        runs: |options, _| options.count / 10,
        run: calls::literally,
    },
    Group { name: "texts through the program", forms: BOTH, runs: texts::text_runs, run: texts::texts },
    Group { name: "texts through the converter", forms: BOTH, runs: texts::widen_runs, run: texts::widen },
    Group {
        name: "texts through the writer of normal sheets",
        forms: BOTH,
        runs: normal::text_runs,
        run: normal::texts,
    },
    Group { name: "normal sheets", forms: BOTH, runs: normal::sheet_runs, run: normal::sheets },
    Group { name: "limits through the programs", forms: BOTH, runs: texts::limit_runs, run: texts::limits },
    Group { name: "questions", forms: NARROW, runs: |options, _| options.count / 10, run: questions::sound },
    Group {
        name: "questions that break the standard",
        forms: NARROW,
        runs: |options, _| options.count / 14,
        run: questions::broken,
    },
    Group { name: "limits of questions", forms: NARROW, runs: questions::limit_runs, run: questions::limits },
];

/// A call of the run's form with an answer buffer of random content: room for the script's answers and a few bytes more.
fn call(run: &mut Run, sheet: &[u8], script: &[u8]) -> Outcome {
    let call = Call { form: run.form, sheet, script };
    let more = run.rng.below(10);
    let answers = run.rng.bytes(call.needed() + more);
    compare::call(run, call, &answers)
}

/// A random accepted sheet of the run's form and a script for it. A sheet that is true or false under every setting is
/// drawn again, a few times, and so are most of those whose gauges make a first ASK a no.
fn sheet_and_script(run: &mut Run, size: Size, lines: usize, questions: usize) -> (Vec<u8>, Vec<u8>) {
    let drawn = some_sheets(&mut run.rng);
    drawn_and_script(run, drawn, size, lines, questions)
}

/// How a sheet is drawn.
type Drawn = fn(&mut Rng, Form, Size) -> Vec<u8>;

/// The same of a sheet that is drawn so.
fn drawn_and_script(run: &mut Run, drawn: Drawn, size: Size, lines: usize, questions: usize) -> (Vec<u8>, Vec<u8>) {
    let (form, rng) = (run.form, &mut run.rng);
    let mut tries = rng.between(1, 5);
    let (sheet, truth) = loop {
        let sheet = drawn(rng, form, size);
        let truth = Truth::of(&accepted(form, &sheet));
        tries -= 1;
        if tries == 0 || truth.varies() && (truth.ask(0, 0).0 || rng.percent(30)) {
            break (sheet, truth);
        }
    };
    let lines = rng.between(0, lines);
    let script = scripts::script(rng, form, truth.open, lines, questions);
    (sheet, script)
}

/// One in three has gauges.
fn some_sheets(rng: &mut Rng) -> Drawn {
    if rng.below(3) == 0 {
        sheets::with_gauges
    } else {
        sheets::sheet
    }
}

fn accepted(form: Form, drafted: &[u8]) -> Sheet {
    let refused = |refusal| panic!("a drafted sheet is refused: {refusal:?}, {drafted:02X?}");
    sheet::check(form, drafted).unwrap_or_else(refused)
}

fn joined(mut text: Vec<u8>, more: &[u8]) -> Vec<u8> {
    text.extend(more);
    text
}
