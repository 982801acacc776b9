//! What is right, written from the rules alone (documents/01-scope.md) and sharing nothing with the product: truth
//! tables, the refusals in their order, the plain book, the text, normal sheets, questions of other tools. Slow and plain
//! on purpose.

pub mod book;
pub mod form;
pub mod literal;
pub mod normal;
pub mod question;
pub mod sheet;
pub mod text;
pub mod truth;
pub mod words;

use form::{Form, LINE, MOST_LINES};
use sheet::Refusal;

/// What an entry is given, but for the answer buffer.
#[derive(Clone, Copy)]
pub struct Call<'a> {
    pub form: Form,
    pub sheet: &'a [u8],
    pub script: &'a [u8],
}

impl Call<'_> {
    /// The bytes of all answers to the script's whole lines.
    pub fn needed(&self) -> usize {
        self.script.len() / LINE * self.form.answer()
    }
}

/// A whole run: the answers' bytes, or the refusal.
pub fn run(call: Call, answers_len: usize) -> Result<Vec<u8>, Refusal> {
    sizes(call, answers_len).map_err(|number| Refusal { number, place: 0 })?;
    let truth = truth::Truth::of(&sheet::check(call.form, call.sheet)?);
    let mut book = Vec::new();
    let lines = call.script.chunks_exact(LINE);
    Ok(lines.flat_map(|line| book::line(call.form, &truth, &mut book, line.try_into().unwrap())).collect())
}

/// Sheet 2, 3; script 2, 4; then 5.
fn sizes(call: Call, answers_len: usize) -> Result<(), u8> {
    let Call { form, sheet, script } = call;
    if sheet.is_empty() || !sheet.len().is_multiple_of(form.frame()) {
        return Err(2);
    }
    if sheet.len() / form.frame() > form.most_frames() {
        return Err(3);
    }
    if !script.len().is_multiple_of(LINE) {
        return Err(2);
    }
    if script.len() / LINE > MOST_LINES {
        return Err(4);
    }
    if answers_len < call.needed() {
        return Err(5);
    }
    Ok(())
}
