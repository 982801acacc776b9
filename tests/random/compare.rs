//! One run of the archive or of a program against the evaluator, byte by byte; and two runs against each other.

use crate::archive::Outcome;
use crate::evaluator::form::{Form, LINE};
use crate::evaluator::normal::{self, same_tree};
use crate::evaluator::question::{self, settings, Cause, Question};
use crate::evaluator::sheet::{self, Refusal};
use crate::evaluator::text::{self, Reading};
use crate::evaluator::{self, literal, truth::Truth, Call};
use crate::generate::texts;
use crate::run::Run;
use crate::{archive, program};

/// Calls the archive with an answer buffer of the given content: one check.
pub fn call(run: &mut Run, call: Call, answers: &[u8]) -> Outcome {
    call_expecting(run, call, answers, &evaluator::run(call, answers.len()))
}

/// The same against what is expected.
pub fn call_expecting(run: &mut Run, call: Call, answers: &[u8], expected: &Result<Vec<u8>, Refusal>) -> Outcome {
    run.tally.met.note(call, expected);
    let outcome = archive::call(call, answers, run.rng.next());
    let faults = faults(call.form, expected, answers, &outcome);
    run.check(faults.is_empty(), || {
        format!(
            "{}\n  {} answer bytes lent; sheet and script as text, odd bytes at a part's end on a short line:\n{}",
            faults.join("; "),
            answers.len(),
            as_text(call),
        )
    });
    outcome
}

fn as_text(call: Call) -> String {
    String::from_utf8_lossy(&texts::text(call)).into_owned()
}

fn faults(form: Form, expected: &Result<Vec<u8>, Refusal>, before: &[u8], outcome: &Outcome) -> Vec<String> {
    let mut faults = Vec::new();
    let mut answers = before.to_vec();
    let result = match expected {
        Ok(bytes) => {
            answers[..bytes.len()].copy_from_slice(bytes);
            0
        }
        Err(refusal) => form.times() * u32::from(refusal.number) + u32::from(refusal.place),
    };
    if outcome.result != result {
        faults.push(format!("returned {}, expected {result}", outcome.result));
    }
    if let Some(place) = (0..answers.len()).find(|&place| answers[place] != outcome.answers[place]) {
        let number = place / form.answer();
        let start = number * form.answer();
        let line = start..answers.len().min(start + form.answer());
        let (is, should) = (&outcome.answers[line.clone()], &answers[line]);
        faults.push(format!("answer {number} is {is:02X?}, expected {should:02X?}"));
    }
    faults.extend(outcome.disturbed.iter().map(|what| format!("changed {what}")));
    faults
}

/// The runs of two scripts that differ in desks alone against each other, without the evaluator: they differ in nothing
/// but the desks that READ and TAKE BACK tell. One check.
pub fn but_for_desks(run: &mut Run, calls: [Call; 2], outcomes: &[Outcome; 2]) {
    let [one, other] = outcomes;
    let answers = |outcome: &Outcome| -> Vec<Vec<u8>> {
        let lines = calls[0].script.chunks_exact(LINE).zip(outcome.answers.chunks_exact(calls[0].form.answer()));
        lines.map(|(line, answer)| without_desk(line[0], answer)).collect()
    };
    // A refused run has no answers: its buffer holds what was lent.
    let refused = one.result != 0;
    let holds = one.result == other.result && (refused || answers(one) == answers(other));
    run.check(holds, || {
        format!(
            "returned {} and {}, answers {:02X?} and {:02X?}\n  for a script and then another of other desks:\n{}{}",
            one.result,
            other.result,
            one.answers,
            other.answers,
            as_text(calls[0]),
            as_text(Call { sheet: &[], ..calls[1] }),
        )
    });
}

/// An answer to a line of this kind, without its last byte but one where that is a desk.
fn without_desk(kind: u8, answer: &[u8]) -> Vec<u8> {
    match (kind, answer) {
        (0x11 | 0x12, [before @ .., _, value]) => [before, &[*value]].concat(),
        _ => answer.to_vec(),
    }
}

/// The run of a narrow sheet and that of the same sheet widened against each other, without the evaluator: the same
/// refusal at the same place, or the same answers but for the words' four higher bytes, which are 0. One check; none if
/// the narrow run is refused by 9, as a variable may be one of the wide sheet's alone.
pub fn but_for_width(run: &mut Run, narrow_call: Call, narrow: &Outcome, wide: &Outcome) {
    let refusal = |outcome: &Outcome, form: Form| (outcome.result / form.times(), outcome.result % form.times());
    let (told, told_wide) = (refusal(narrow, Form::Narrow), refusal(wide, Form::Wide));
    if told.0 == 9 {
        return;
    }
    let answers = &narrow.answers[..narrow_call.needed()];
    let expected = widened_answers(answers);
    let holds = told == told_wide && (told.0 != 0 || wide.answers.starts_with(&expected));
    run.check(holds, || {
        format!(
            "refusals and places {told:?} and widened {told_wide:?}, answers {:02X?} and widened {:02X?}\n  for\n{}",
            answers,
            wide.answers,
            as_text(narrow_call),
        )
    });
}

/// The answers' bytes with each word in eight bytes.
fn widened_answers(answers: &[u8]) -> Vec<u8> {
    let wide = |answer: &[u8]| [&answer[..2], &[0; 4], &answer[2..]].concat();
    answers.chunks_exact(Form::Narrow.answer()).flat_map(wide).collect()
}

/// Runs the program on a text: one check.
pub fn text(run: &mut Run, text: &[u8], pieces: usize) {
    let printed = program::printed(&run.options.program, text, pieces);
    prints(run, text, &printed, &text::printed(text));
}

fn prints(run: &mut Run, text: &[u8], printed: &Result<Vec<u8>, String>, expected: &[u8]) {
    run.check(printed.as_deref() == Ok(expected), || {
        let got = match printed {
            Ok(bytes) => format!("printed {:?}", String::from_utf8_lossy(bytes)),
            Err(error) => error.clone(),
        };
        format!("{got}\n  expected {:?}\n  for {}", String::from_utf8_lossy(expected), shown(text))
    });
}

/// Runs the converter on a text: one check.
pub fn widened(run: &mut Run, text: &[u8], pieces: usize) {
    let printed = program::printed(&run.options.widen, text, pieces);
    prints(run, text, &printed, &text::widened(text));
}

/// A text that can be widened, and what the converter makes of it, both through the program and without the evaluator:
/// the same answers but for the words' width. One check.
pub fn widened_and_run(run: &mut Run, text: &[u8]) {
    let printed = |program: &str, text: &[u8]| program::printed(program, text, 1);
    let narrow = printed(&run.options.program, text);
    let wide = printed(&run.options.widen, text).and_then(|text| printed(&run.options.program, &text));
    let expected = narrow.as_deref().map(wide_lines).map_err(Clone::clone);
    run.check(wide.is_ok() && wide == expected, || {
        format!("widened it prints {wide:?}, as it stands {narrow:?}\n  for {}", shown(text))
    });
}

/// Printed answers with each word in sixteen digits.
fn wide_lines(printed: &[u8]) -> Vec<u8> {
    let wide = |line: &[u8]| [&line[..4], b"00000000", &line[4..]].concat();
    printed.split_inclusive(|&byte| byte == b'\n').filter(|line| line.len() > 4).flat_map(wide).collect()
}

/// Runs the writer of normal sheets on a text: one check. What it printed.
pub fn normal(run: &mut Run, text: &[u8], pieces: usize) -> Result<Vec<u8>, String> {
    run.tally.met.note_normal(text);
    let printed = program::printed(&run.options.normal, text, pieces);
    prints(run, text, &printed, &text::normal(text));
    printed
}

/// What the writer printed for two accepted sheets, without its evaluator: the same lines exactly if the formulas are the
/// same, written out. One check.
pub fn normal_pair(run: &mut Run, sheets: [&[u8]; 2], printed: [&Result<Vec<u8>, String>; 2]) {
    let form = run.form;
    let [one, other] = sheets;
    let same = same_tree(form, one, other);
    run.tally.met.note_pair(form, one, other);
    let holds = printed[0].is_ok() && printed[1].is_ok() && (printed[0] == printed[1]) == same;
    run.check(holds, || {
        let [one, other] = sheets.map(|sheet| as_text(Call { form, sheet, script: &[] }));
        let formulas = if same { "one formula" } else { "two formulas" };
        format!("printed {printed:?}\n  for two sheets of {formulas}:\n{one}{other}")
    });
}

/// What the writer printed for an accepted sheet, without its evaluator: it is a sheet that keeps the rules, with the same
/// open variables and the same truth under every setting of them, and with an empty line behind it the writer prints it
/// again. Two checks.
pub fn normal_laws(run: &mut Run, sheet: &[u8], printed: &Result<Vec<u8>, String>) {
    let form = run.form;
    let text = printed.as_ref().map_or(Vec::new(), |lines| [lines, &b"\n"[..]].concat());
    let Reading { form: form_read, parts } = text::read(&text);
    let written = parts.map_or(Vec::new(), |(sheet, _)| sheet);
    let holds = form_read == form && !written.is_empty() && mean_the_same(form, sheet, &written);
    run.check(holds, || {
        format!(
            "another truth, or other open variables: {printed:?}\n  for\n{}",
            as_text(Call { form, sheet, script: &[] })
        )
    });
    let again = program::printed(&run.options.normal, &text, 1);
    run.check(again.is_ok() && again == *printed, || {
        format!("printed {printed:?}, and for that {again:?}\n  for\n{}", as_text(Call { form, sheet, script: &[] }))
    });
}

/// Whether another sheet is accepted, has the same open variables as one that is, and the same truth under every setting.
fn mean_the_same(form: Form, sheet: &[u8], other: &[u8]) -> bool {
    let (Ok(one), Ok(other)) = (sheet::check(form, sheet), sheet::check(form, other)) else {
        return false;
    };
    let (truth, other_truth) = (Truth::of(&one), Truth::of(&other));
    let verdict = |truth: &Truth, setting| truth.ask(one.open, setting).0;
    one.open == other.open
        && settings(one.open).all(|setting| verdict(&truth, setting) == verdict(&other_truth, setting))
}

/// The evaluator's own check of a sheet whose formula is short when it is written out: it finds the normal sheet that the
/// rules read word for word give.
pub fn normal_literally(run: &mut Run, sheet: &[u8]) {
    let form = run.form;
    if literal::places(form, sheet) > 3000 {
        return;
    }
    let (found, rules) = (normal::normal(form, sheet), literal::normal(form, sheet));
    run.check(found.as_ref() == Ok(&rules), || format!("found {found:02X?}, rules {rules:02X?}: {sheet:02X?}"));
}

/// The evaluator's own check: it reads the same from a text in every style. Else it and the program could err alike.
pub fn reading(run: &mut Run, text: &[u8], written: &Reading) {
    let holds = text::read(text) == *written;
    run.check(holds, || format!("the evaluator reads something else than was written\n  from {}", shown(text)));
}

/// Small questions are tried under every setting.
const FEW: usize = 10;

/// Runs the reader of questions on a text: one check, and another if a small question's sheet is printed as it should
/// be: the same variables are open in it, and the truth is the same under every setting of them.
pub fn question(run: &mut Run, text: &[u8], pieces: usize) {
    let (printed, expected) = (program::printed(&run.options.qdimacs, text, pieces), question::printed(text));
    prints(run, text, &printed, &expected);
    let small = question::read(text).filter(|question| question.occurring().len() <= FEW);
    if let (Some(question), Ok(frames), true) = (small, question::sheet(text), printed == Ok(expected)) {
        run.check(says_the_same(&question, &frames.concat()), || {
            format!("another truth, or other open variables: {frames:02X?}\n  for {}", shown(text))
        });
    }
}

fn says_the_same(question: &Question, sheet: &[u8]) -> bool {
    let Ok(sheet) = sheet::check(Form::Narrow, sheet) else {
        return false;
    };
    let truth = Truth::of(&sheet);
    let agrees = |setting: u64| truth.ask(sheet.open, setting).0 == question.holds(setting);
    sheet.open == question.open() && settings(sheet.open).all(agrees)
}

/// The evaluator's own check: it reads the question that was written, or finds the text broken as it is.
pub fn question_reading(run: &mut Run, text: &[u8], written: Option<&Question>) {
    let holds = question::read(text).as_ref() == written;
    run.check(holds, || format!("the evaluator reads something else than was written\n  from {}", shown(text)));
}

/// The evaluator's own check of a text whose sheet is not too large: it finds the matrix of a small question always true
/// or always false exactly if every setting says so.
pub fn question_matrix(run: &mut Run, text: &[u8], question: &Question) {
    let variables = question.occurring();
    let found = question::sheet(text).err();
    if variables.len() > FEW || matches!(found, Some(Cause::Text | Cause::Variables | Cause::Frames)) {
        return;
    }
    let mask = variables.iter().fold(0, |mask, variable| mask | 1 << (variable - 1));
    let truths: Vec<bool> = settings(mask).map(|setting| question.matrix_holds(setting)).collect();
    let expected = match (truths.contains(&true), truths.contains(&false)) {
        (true, true) => None,
        (true, false) => Some(Cause::AlwaysTrue),
        _ => Some(Cause::AlwaysFalse),
    };
    run.check(found == expected, || {
        format!("the evaluator finds {found:?} and not {expected:?}\n  in {}", shown(text))
    });
}

/// A text's length and start.
fn shown(text: &[u8]) -> String {
    let start = &text[..text.len().min(2000)];
    format!("a text of {} bytes: {:?}", text.len(), String::from_utf8_lossy(start))
}
