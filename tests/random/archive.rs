//! Calls of the archive's two entries, with canary bytes around each lent buffer.

#[path = "../../include/hammerloom.rs"]
mod hammerloom;

use crate::evaluator::form::Form;
use crate::evaluator::Call;
use hammerloom::{hammerloom_run, hammerloom_run_wide};
use std::ptr;

pub struct Outcome {
    pub result: u32,
    /// The answer buffer at exit, all of it.
    pub answers: Vec<u8>,
    /// What was changed that must not be: sheet, script, or bytes around a buffer.
    pub disturbed: Vec<&'static str>,
}

type Entry = unsafe extern "C" fn(*const u8, usize, *const u8, usize, *mut u8, usize) -> u32;

/// One call of the form's entry. The answer buffer starts with the given content; `salt` varies the canaries and the
/// buffers' alignment.
pub fn call(call: Call, answers: &[u8], salt: u64) -> Outcome {
    let Call { form, sheet, script } = call;
    let entry: Entry = match form {
        Form::Narrow => hammerloom_run,
        Form::Wide => hammerloom_run_wide,
    };
    let null_if_empty = salt.is_multiple_of(2);
    let mut lent_sheet = Lent::new(sheet, salt, null_if_empty);
    let mut lent_script = Lent::new(script, salt >> 8, null_if_empty);
    let mut lent_answers = Lent::new(answers, salt >> 16, null_if_empty);
    // SAFETY: each pointer has its buffer's length behind it, or is null with length 0; the three are apart.
    let result = unsafe {
        entry(
            lent_sheet.pointer(),
            sheet.len(),
            lent_script.pointer(),
            script.len(),
            lent_answers.pointer(),
            answers.len(),
        )
    };
    let mut disturbed = Vec::new();
    for (what, differs) in [
        ("the sheet", lent_sheet.content() != sheet),
        ("bytes around the sheet", !lent_sheet.canaries_stand()),
        ("the script", lent_script.content() != script),
        ("bytes around the script", !lent_script.canaries_stand()),
        ("bytes around the answers", !lent_answers.canaries_stand()),
    ] {
        if differs {
            disturbed.push(what);
        }
    }
    Outcome { result, answers: lent_answers.content().to_vec(), disturbed }
}

/// A buffer between canary bytes.
struct Lent {
    bytes: Vec<u8>,
    before: usize,
    len: usize,
    salt: u64,
    null: bool,
}

const CANARIES: usize = 64;

impl Lent {
    fn new(content: &[u8], salt: u64, null_if_empty: bool) -> Lent {
        let before = CANARIES + (salt >> 3) as usize % 16;
        let len = content.len();
        let mut bytes: Vec<u8> = (0..before + len + CANARIES).map(|place| canary(salt, place)).collect();
        bytes[before..before + len].copy_from_slice(content);
        Lent { bytes, before, len, salt, null: null_if_empty && len == 0 }
    }

    fn pointer(&mut self) -> *mut u8 {
        if self.null {
            ptr::null_mut()
        } else {
            self.bytes[self.before..].as_mut_ptr()
        }
    }

    fn content(&self) -> &[u8] {
        &self.bytes[self.before..self.before + self.len]
    }

    fn canaries_stand(&self) -> bool {
        let inside = self.before..self.before + self.len;
        let bytes = self.bytes.iter().enumerate();
        bytes.filter(|(place, _)| !inside.contains(place)).all(|(place, &byte)| byte == canary(self.salt, place))
    }
}

fn canary(salt: u64, place: usize) -> u8 {
    (salt as u8).wrapping_add((place as u8).wrapping_mul(151)) ^ 0xA5
}
