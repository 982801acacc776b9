//! The generator and the converters against the brute-force evaluator, without any other solver.

mod qdimacs;
mod smtlib;

use crate::builder::Builder;
use crate::evaluator::form::Form::{self, Narrow, Wide};
use crate::evaluator::question::{self, Question};
use crate::evaluator::sheet::{self, Kind, Sheet};
use crate::evaluator::truth::Truth;
use crate::families::scale::SWEEPS;
use crate::families::{FAMILIES, SHEETS};
use crate::generate::sheets::{sheet as plain, with_gauges, Size, MIDDLE, SMALL};
use crate::generate::{question_texts, questions};
use crate::rng::Rng;
use std::collections::HashSet;
use std::process::ExitCode;

const RANDOM: u64 = 300;
/// How many settings of a random sheet's open variables are asked for one by one.
const PINS: u64 = 6;
const SEED: u64 = 5;

pub fn check() -> ExitCode {
    let (mut passed, mut failed) = (0, 0);
    let mut count = |name: &str, good: bool| {
        if good {
            passed += 1;
        } else {
            failed += 1;
            println!("FAILED {name}");
        }
    };
    for (name, form, bytes) in SMALL_SHEETS {
        converted(name, form, &bytes(), &mut count);
    }
    for draw in DRAWS {
        (0..RANDOM).for_each(|index| random_converted(draw, index, &mut count));
    }
    count("20 families or more", FAMILIES.len() >= 20);
    let mut seen = HashSet::new();
    for family in FAMILIES {
        let mut sheets = (0..SHEETS).map(|index| family.sheet(index));
        count(family.name, sheets.all(|bytes| sound(family.form, &bytes) && seen.insert(bytes)));
        count(&format!("the name {}", family.name), named_by_form(family.name, family.form));
    }
    for sweep in SWEEPS {
        let good = sweep.sizes.iter().all(|&size| sound(sweep.form, &sweep.sheet(size, 0)));
        count(&format!("{} by {}", sweep.name, sweep.axis), good && named_by_form(sweep.name, sweep.form));
    }
    println!("{passed} passed, {failed} failed");
    ExitCode::from(u8::from(failed > 0))
}

/// Which random sheets are drawn: their form, and whether they have gauges.
#[derive(Clone, Copy)]
struct Draw {
    form: Form,
    gauges: bool,
}

const DRAWS: [Draw; 4] = [
    Draw { form: Narrow, gauges: false },
    Draw { form: Narrow, gauges: true },
    Draw { form: Wide, gauges: false },
    Draw { form: Wide, gauges: true },
];

impl Draw {
    fn sheet(self, rng: &mut Rng, size: Size) -> Vec<u8> {
        if self.gauges {
            with_gauges(rng, self.form, size)
        } else {
            plain(rng, self.form, size)
        }
    }

    fn name(self) -> String {
        format!("random {:?} sheet{}", self.form, if self.gauges { " with gauges" } else { "" })
    }
}

fn checked(form: Form, bytes: &[u8]) -> Sheet {
    sheet::check(form, bytes).expect("an accepted sheet")
}

/// The sheet is accepted by the rules, and its prenex form is not too large.
fn sound(form: Form, bytes: &[u8]) -> bool {
    let whole = (1..=form.most_frames()).contains(&(bytes.len() / form.frame()));
    whole && sheet::check(form, bytes).is_ok_and(|sheet| crate::qdimacs::qdimacs(&sheet).is_some())
}

/// `ours` and the scripts tell a wide sheet by its name.
fn named_by_form(name: &str, form: Form) -> bool {
    name.starts_with("wide") == (form == Wide)
}

/// A random sheet, and some settings of its open variables.
fn random_converted(draw: Draw, index: u64, count: &mut impl FnMut(&str, bool)) {
    let bytes = small_sheet(draw, index);
    let name = format!("{} {index}", draw.name());
    converted(&name, draw.form, &bytes, count);
    for pin in 0..PINS {
        let pinned = pinned(&mut Rng::new(SEED, pin, index), draw.form, &bytes);
        converted(&format!("{name} pinned {pin}"), draw.form, &pinned, count);
    }
}

/// Both formats, read back by an evaluator of their own, give the verdict of the brute-force evaluator.
fn converted(name: &str, form: Form, bytes: &[u8], count: &mut impl FnMut(&str, bool)) {
    let sheet = checked(form, bytes);
    let verdict = verdict(form, bytes);
    count(&format!("{name} in SMT-LIB"), smtlib::satisfiable(&crate::smtlib::smtlib(&sheet)) == verdict);
    let text = crate::qdimacs::qdimacs(&sheet);
    count(&format!("{name} in QDIMACS"), text.is_some_and(|text| qdimacs::holds(&text) == verdict));
}

/// Whether for every setting of the open gauges one of the other open variables makes the last frame true, by truth table.
pub fn verdict(form: Form, bytes: &[u8]) -> bool {
    Truth::of(&checked(form, bytes)).ask(0, 0).0
}

/// A random sheet for the solvers themselves, of each draw in turn, most of them pinned.
pub fn random_sheet(seed: u64, index: u64) -> (Form, Vec<u8>) {
    let mut rng = Rng::new(seed, 0, index);
    let draw = DRAWS[(index / 4) as usize % DRAWS.len()];
    let bytes = draw.sheet(&mut rng, if index % 2 == 0 { MIDDLE } else { SMALL });
    let bytes = if index % 4 == 0 { bytes } else { pinned(&mut rng, draw.form, &bytes) };
    (draw.form, bytes)
}

/// A random question that has a sheet: one in two with nothing open, and of each of these one in two with a yes.
pub fn random_question(seed: u64, index: u64) -> Question {
    let mut rng = Rng::new(seed, 2, index);
    let size = if index % 8 < 2 { questions::SMALL } else { questions::MIDDLE };
    loop {
        let question = questions::question(&mut rng, size);
        let fits = (question.open() == 0) == (index % 2 == 0) && question_verdict(&question) == (index / 2 % 2 == 0);
        if fits && question::sheet(&question_texts::plain(&question)).is_ok() {
            return question;
        }
    }
}

/// Whether the question holds under some setting of its open variables.
pub fn question_verdict(question: &Question) -> bool {
    question::settings(question.open()).any(|setting| question.holds(setting))
}

/// The sheet under one random setting of its open variables: its last frame and a literal of each of them; of a gauge, which is not
/// chosen, the last frame or a literal that holds under all other settings. A single setting shows faults that the search among all of
/// them would hide.
fn pinned(rng: &mut Rng, form: Form, bytes: &[u8]) -> Vec<u8> {
    let Sheet { open, gauges, .. } = checked(form, bytes);
    let mut pinned = bytes.to_vec();
    let mut all = bytes.len() / form.frame() - 1;
    for variable in (0..form.variables()).filter(|variable| open >> variable & 1 == 1) {
        let mut write = |frame: [usize; 4]| {
            pinned.extend(form.bytes(frame.map(|field| field as u16)));
            pinned.len() / form.frame() - 1
        };
        let (input, gate) = if gauges >> variable & 1 == 1 { (7, 4) } else { (1, 3) };
        let mut literal = write([input, variable.into(), 0, 0]);
        if rng.percent(50) {
            literal = write([2, literal, 0, 0]);
        }
        all = write([gate, all, literal, 0]);
    }
    pinned
}

/// A random sheet that the plain evaluators of the formats can be asked: few quantified variables.
fn small_sheet(draw: Draw, index: u64) -> Vec<u8> {
    let mut rng = Rng::new(SEED, 1, index);
    loop {
        let bytes = draw.sheet(&mut rng, SMALL);
        if checked(draw.form, &bytes).frames.iter().map(|kind| binds(*kind)).sum::<u32>() <= 8 {
            return bytes;
        }
    }
}

/// How many variables the frame binds.
fn binds(kind: Kind) -> u32 {
    match kind {
        Kind::Exists { binds, .. } | Kind::Forall { binds, .. } => binds.count.into(),
        _ => 0,
    }
}

const SMALL_SHEETS: [(&str, Form, fn() -> Vec<u8>); 5] = [
    ("small sheet 1", Narrow, nested),
    ("small sheet 2", Narrow, both_ways),
    ("small sheet 3", Narrow, clauses),
    ("small sheet 4", Narrow, gauged),
    ("small wide sheet", Wide, upper_half),
];

/// For all x there is y equal to x and to an open variable: no.
fn nested() -> Vec<u8> {
    let mut b = Builder::default();
    let x = b.inputs(0..3);
    let (first, second) = (b.equal(x[1], x[2]), b.equal(x[0], x[2]));
    let body = b.and(first, second);
    let reply = b.exists(2..3, body);
    let last = b.forall(1..2, reply);
    b.finish(last)
}

/// Quantified frames inside each other, each named in both polarities.
fn both_ways() -> Vec<u8> {
    let mut b = Builder::default();
    let x = b.inputs(0..4);
    let body = b.differ(x[2], x[3]);
    let both = b.and(body, x[0]);
    let inner = b.exists(3..4, both);
    let differ = b.differ(inner, x[1]);
    let body = b.or(differ, x[2]);
    let outer = b.forall(2..3, body);
    let last = b.equal(outer, x[0]);
    b.finish(last)
}

/// Clauses, with a quantified frame that two of them share.
fn clauses() -> Vec<u8> {
    let mut b = Builder::default();
    let x = b.inputs(0..5);
    let either = b.or(x[3], x[4]);
    let both = b.and(either, x[0]);
    let shared = b.forall(4..5, both);
    let not_shared = b.not(shared);
    let some = b.exists(3..4, not_shared);
    let (first, second) = (b.or(some, x[1]), b.apart(x[1], x[0]));
    let last = b.all(&[first, second, x[0], x[2]]);
    b.finish(last)
}

/// For every reading of a gauge our variable can be its opposite, under a quantifier in both polarities: yes, and no if ours were
/// chosen first.
fn gauged() -> Vec<u8> {
    let mut b = Builder::default();
    let (gauge, ours, bound) = (b.gauge(0), b.input(1), b.input(2));
    let apart = b.differ(gauge, ours);
    let body = b.and(apart, bound);
    let some = b.exists(2..3, body);
    let last = b.equal(some, apart);
    let last = b.and(last, apart);
    b.finish(last)
}

/// Open variables that a narrow sheet has not, all set, and quantified ones, none of them set: yes, as long as none is taken for another.
fn upper_half() -> Vec<u8> {
    let mut b = Builder::wide();
    let (open, own) = (b.inputs(32..37), b.inputs(0..5));
    let some = b.any(&own);
    let none = b.not(some);
    let reply = b.exists(0..5, none);
    let all = b.all(&open);
    let last = b.and(all, reply);
    b.finish(last)
}
