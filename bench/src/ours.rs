//! One call of the archive: `ours FILE ask|why|asks|entries [once]` prints the verdict, a word and the CPU seconds of the call, which
//! checks the sheet and runs a script over it. A short call is repeated until it can be measured, if not `once` is said.
//! - ask, why: a script of that one line; the word is the answer's.
//! - asks, entries: a script of 1,000 lines; the verdict is the last ASK's (no where there is none), the word a sum of all answers.
//!
//! A sheet is a wide one if its file's name begins with `wide`. The word has two digits for each of its bytes.

#[allow(dead_code)]
#[path = "../../include/hammerloom.rs"]
mod hammerloom;

use hammerloom::{hammerloom_run, hammerloom_run_wide};
use std::path::Path;
use std::process::ExitCode;

extern "C" {
    fn clock_gettime(clock: i32, time: *mut Time) -> i32;
}

#[repr(C)]
struct Time {
    seconds: i64,
    nanoseconds: i64,
}

/// Linux: the CPU time of the calling thread. That of the process is told in whole ticks only once a process has a CPU limit.
const THREAD_CPU: i32 = 3;
/// A call that takes so long is not repeated.
const LONG: f64 = 0.02;
/// Others are repeated for about so long, in batches, of which the quickest counts.
const MEASURED: f64 = 0.03;
const BATCHES: u32 = 5;

const LINES: usize = 1000;
/// Bytes of a script line.
const LINE: usize = 4;
const ASK: u8 = 0x13;

type Entry = unsafe extern "C" fn(*const u8, usize, *const u8, usize, *mut u8, usize) -> u32;

/// What depends on the sheet's form.
struct Form {
    entry: Entry,
    variables: usize,
    /// Bytes of an answer's word, which stands behind its number and verdict.
    word: usize,
}

const NARROW: Form = Form { entry: hammerloom_run, variables: 32, word: 4 };
const WIDE: Form = Form { entry: hammerloom_run_wide, variables: 64, word: 8 };

impl Form {
    fn of(file: &str) -> Form {
        let name = Path::new(file).file_name().map(|name| name.to_string_lossy());
        if name.is_some_and(|name| name.starts_with("wide")) {
            WIDE
        } else {
            NARROW
        }
    }

    /// Bytes of an answer.
    fn answer(&self) -> usize {
        2 + self.word
    }
}

fn main() -> ExitCode {
    let arguments: Vec<String> = std::env::args().skip(1).collect();
    let (file, question, once) = match &arguments[..] {
        [file, question] => (file, question, false),
        [file, question, word] if word == "once" => (file, question, true),
        _ => return fail("usage: ours FILE ask|why|asks|entries [once]"),
    };
    let form = Form::of(file);
    let Some(script) = script(&form, question) else {
        return fail("no such question");
    };
    let Ok(sheet) = std::fs::read(file) else {
        return fail("the sheet cannot be read");
    };
    let mut answers = vec![0; script.len() / LINE * form.answer()];
    let start = cpu_seconds();
    let accepted = call(&form, &sheet, &script, &mut answers);
    let mut seconds = cpu_seconds() - start;
    let Some((verdict, word)) = told(&form, &script, &answers).filter(|_| accepted) else {
        return fail("the question is refused");
    };
    let mut again = vec![0; answers.len()];
    if seconds < LONG && !once {
        let repeats = (MEASURED / f64::from(BATCHES) / seconds.max(1e-7)).ceil().min(20_000.0) as u32;
        for _ in 0..BATCHES {
            let start = cpu_seconds();
            for _ in 0..repeats {
                assert!(call(&form, &sheet, &script, &mut again) && again == answers, "another answer the next time");
            }
            seconds = seconds.min((cpu_seconds() - start) / f64::from(repeats));
        }
    }
    println!("{} {word:0digits$X} {seconds:.9}", if verdict { "yes" } else { "no" }, digits = 2 * form.word);
    ExitCode::SUCCESS
}

/// The script of a question.
fn script(&Form { variables, .. }: &Form, question: &str) -> Option<Vec<u8>> {
    let enter = |v: usize| [0x10, (v % variables) as u8, 0, 0];
    let read = |v: usize| [0x12, (v % variables) as u8, 0, 0];
    let line = |i: usize| match question {
        "ask" => [ASK, 0, 0, 0],
        "why" => [0x14, 0, 0, 0],
        // Every variable is entered first, so that the questions cost little beside their entries; an ENTER behind that is refused.
        "asks" if i < variables => enter(i),
        "asks" => [read(i), enter(i), [ASK, 0, 0, 0]][i % 3],
        // Every variable is entered, read and taken back, over and over.
        _ => [enter(i), read(i), [0x11, 0, 0, 0]][i / variables % 3],
    };
    let lines = match question {
        "ask" | "why" => 1,
        "asks" | "entries" => LINES,
        _ => return None,
    };
    Some((0..lines).flat_map(line).collect())
}

/// The verdict and the word of the answers; none if the one line of a script is refused.
fn told(form: &Form, script: &[u8], answers: &[u8]) -> Option<(bool, u64)> {
    if script.len() == LINE {
        let word = answers[2..].iter().fold(0, |word, byte| word << 8 | u64::from(*byte));
        return (answers[0] == 0).then_some((answers[1] == 1, word));
    }
    let last = script.chunks(LINE).zip(answers.chunks(form.answer())).filter(|(line, _)| line[0] == ASK).last();
    let sum = answers.iter().fold(0x811C_9DC5, |sum: u32, byte| (sum ^ u32::from(*byte)).wrapping_mul(0x0100_0193));
    Some((last.is_some_and(|(_, answer)| answer[1] == 1), sum.into()))
}

fn fail(why: &str) -> ExitCode {
    eprintln!("{why}");
    ExitCode::from(2)
}

/// Runs the script over the sheet; whether the run is accepted.
fn call(form: &Form, sheet: &[u8], script: &[u8], answers: &mut [u8]) -> bool {
    let (room, answers) = (answers.len(), answers.as_mut_ptr());
    // SAFETY: each pointer has its buffer's length behind it, and the three are apart.
    let result = unsafe { (form.entry)(sheet.as_ptr(), sheet.len(), script.as_ptr(), script.len(), answers, room) };
    result == 0
}

fn cpu_seconds() -> f64 {
    let mut time = Time { seconds: 0, nanoseconds: 0 };
    // SAFETY: the time is ours to write; its fields are those of x86-64 Linux.
    let status = unsafe { clock_gettime(THREAD_CPU, &mut time) };
    assert_eq!(status, 0, "a clock");
    time.seconds as f64 + time.nanoseconds as f64 * 1e-9
}
