//! Runs the archive and the four programs against an evaluator written from the rules. Arguments: INTERLOCK QDIMACS
//! WIDEN NORMAL [SEED [COUNT]], the programs first. Prints the first failures of each group and one closing line.

mod archive;
mod compare;
mod evaluator;
mod generate;
mod groups;
mod panel;
mod program;
mod rng;
mod run;
mod tally;

use evaluator::form::Form;
use groups::{Group, GROUPS};
use rng::Rng;
use run::{Options, Run};
use std::process::ExitCode;
use std::thread;
use tally::Tally;

const SEED: u64 = 20_001;
const COUNT: u64 = 20_000;
/// Calls come from two threads at once: the entries keep no state.
const THREADS: u64 = 2;
/// All of a thread's stack, this program's own part included, by the form of the group's sheets: no less than what the
/// header says that a call needs at most.
const NARROW_STACK: usize = 512 * 1024;
const WIDE_STACK: usize = 2 * 1024 * 1024;
/// From so many random runs on, all that must come up must have come up.
const ENOUGH: u64 = COUNT;

fn main() -> ExitCode {
    let Some(options) = options() else {
        println!(
            "usage: INTERLOCK QDIMACS WIDEN NORMAL [SEED [COUNT]], four programs and two numbers below two to the 64th"
        );
        return ExitCode::from(2);
    };
    let mut total = Tally::default();
    for (number, group) in GROUPS.iter().enumerate() {
        for &form in group.forms {
            let mut tally = in_threads(&options, number, group, form);
            tally.tell(&format!("{} ({form:?})", group.name));
            total.add(tally);
        }
    }
    if options.count >= ENOUGH {
        let lacks = total.met.lacks(20);
        total.check(0, lacks.is_empty(), || format!("came up too seldom: {}", lacks.join(", ")));
        total.tell("what the runs met");
    }
    println!("{} passed, {} failed", total.passed, total.failed);
    ExitCode::from(u8::from(total.failed > 0))
}

fn options() -> Option<Options> {
    let mut arguments = std::env::args().skip(1);
    let (program, qdimacs) = (arguments.next()?, arguments.next()?);
    let (widen, normal) = (arguments.next()?, arguments.next()?);
    let mut number = |otherwise| arguments.next().map_or(Some(otherwise), |word| word.parse().ok());
    let (seed, count) = (number(SEED)?, number(COUNT)?);
    arguments.next().is_none().then_some(Options { seed, count, program, qdimacs, widen, normal })
}

/// The group's runs of one form, shared out between threads. A thread that panics is a failure.
fn in_threads(options: &Options, number: usize, group: &Group, form: Form) -> Tally {
    let (stack, stream) = match form {
        Form::Narrow => (NARROW_STACK, number),
        Form::Wide => (WIDE_STACK, number + GROUPS.len()),
    };
    let share = |thread: u64| {
        let mut tally = Tally::default();
        for number in (thread..(group.runs)(options, form)).step_by(THREADS as usize) {
            let rng = Rng::new(options.seed, stream as u64, number);
            (group.run)(&mut Run { options, form, number, rng, tally: &mut tally });
        }
        tally
    };
    let mut total = Tally::default();
    thread::scope(|scope| {
        let start = |thread| {
            thread::Builder::new()
                .stack_size(stack)
                .spawn_scoped(scope, move || share(thread))
                .expect("a thread starts")
        };
        let threads: Vec<_> = (0..THREADS).map(start).collect();
        for thread in threads {
            match thread.join() {
                Ok(tally) => total.add(tally),
                Err(_) => total.check(0, false, || "a thread of this program panicked".to_string()),
            }
        }
    });
    total
}
