//! Sheets for the comparison with other solvers, and the same questions in their formats.

mod builder;
mod check;
mod families;
mod prenex;
mod qdimacs;
mod scope;
mod smtlib;

#[allow(dead_code)]
#[path = "../../tests/random/evaluator/mod.rs"]
mod evaluator;
#[allow(dead_code)]
#[path = "../../tests/random/generate/mod.rs"]
mod generate;
#[allow(dead_code)]
#[path = "../../tests/random/rng.rs"]
mod rng;

use evaluator::form::Form;
use evaluator::sheet::{self, Sheet};
use evaluator::text::Reading;
use families::scale::SWEEPS;
use families::{FAMILIES, SHEETS};
use generate::question_texts;
use std::path::{Path, PathBuf};
use std::process::ExitCode;
use std::{fs, io};

const USAGE: &str =
    "usage: sheets FOLDER | scale FOLDER | random FOLDER COUNT SEED | questions FOLDER COUNT SEED | smtlib | qdimacs | check
  sheets   every family's sheets, each as bytes and in both formats, and their list
  scale    the sheets of growing size
  random   small random sheets as for `sheets`, with the verdict of the brute-force evaluator in the list
  questions   small random questions in QDIMACS, with the verdict by brute force in the list
  smtlib, qdimacs   converts the sheet of a text on standard input
  check    the generator and the converters against the brute-force evaluator";

fn main() -> ExitCode {
    let arguments: Vec<String> = std::env::args().skip(1).collect();
    let words: Vec<&str> = arguments.iter().map(String::as_str).collect();
    let done = match words[..] {
        ["sheets", folder] => write_families(Path::new(folder)),
        ["scale", folder] => write_sweeps(Path::new(folder)),
        [what @ ("random" | "questions"), folder, count, seed] => match (count.parse(), seed.parse()) {
            (Ok(count), Ok(seed)) if what == "random" => write_random(Path::new(folder), count, seed),
            (Ok(count), Ok(seed)) => write_questions(Path::new(folder), count, seed),
            _ => return usage(),
        },
        ["smtlib"] => convert(|sheet| Some(smtlib::smtlib(sheet))),
        ["qdimacs"] => convert(qdimacs::qdimacs),
        ["check"] => return check::check(),
        _ => return usage(),
    };
    match done {
        Ok(()) => ExitCode::SUCCESS,
        Err(error) => {
            eprintln!("{error}");
            ExitCode::FAILURE
        }
    }
}

fn usage() -> ExitCode {
    eprintln!("{USAGE}");
    ExitCode::from(2)
}

fn accepted(form: Form, bytes: &[u8]) -> io::Result<Sheet> {
    sheet::check(form, bytes).map_err(|refusal| io::Error::other(format!("a sheet is refused: {refusal:?}")))
}

/// FOLDER/NAME.sheet, .smt2 and, unless it would be too large, .qdimacs.
fn write_sheet(folder: &Path, name: &str, form: Form, bytes: &[u8]) -> io::Result<()> {
    let sheet = accepted(form, bytes)?;
    let file = |ending: &str| -> PathBuf { folder.join(format!("{name}.{ending}")) };
    fs::write(file("sheet"), bytes)?;
    fs::write(file("smt2"), smtlib::smtlib(&sheet))?;
    match qdimacs::qdimacs(&sheet) {
        Some(text) => fs::write(file("qdimacs"), text),
        None => Ok(()),
    }
}

/// The list has a line `FAMILY NAME` for each sheet.
fn write_families(folder: &Path) -> io::Result<()> {
    let mut list = String::new();
    for family in FAMILIES {
        for index in 0..SHEETS {
            let name = format!("{}-{index}", family.name);
            write_sheet(folder, &name, family.form, &family.sheet(index))?;
            list += &format!("{} {name}\n", family.name);
        }
    }
    fs::write(folder.join("list"), list)
}

/// The list has a line `FAMILY AXIS SIZE NAME` for each sheet.
fn write_sweeps(folder: &Path) -> io::Result<()> {
    const EACH: usize = 3;
    let mut list = String::new();
    for sweep in SWEEPS {
        for &size in sweep.sizes {
            for index in 0..EACH {
                let name = format!("{}-{}-{size}-{index}", sweep.name, sweep.axis);
                write_sheet(folder, &name, sweep.form, &sweep.sheet(size, index))?;
                list += &format!("{} {} {size} {name}\n", sweep.name, sweep.axis);
            }
        }
    }
    fs::write(folder.join("list"), list)
}

/// The list has a line `VERDICT NAME` for each sheet.
fn write_random(folder: &Path, count: usize, seed: u64) -> io::Result<()> {
    let mut list = String::new();
    for index in 0..count {
        let (form, bytes) = check::random_sheet(seed, index as u64);
        let verdict = if check::verdict(form, &bytes) { "yes" } else { "no" };
        write_sheet(folder, &format!("random-{index}"), form, &bytes)?;
        list += &format!("{verdict} random-{index}\n");
    }
    fs::write(folder.join("list"), list)
}

/// The list has a line `VERDICT NAME` for each question.
fn write_questions(folder: &Path, count: usize, seed: u64) -> io::Result<()> {
    let mut list = String::new();
    for index in 0..count {
        let question = check::random_question(seed, index as u64);
        let verdict = if check::question_verdict(&question) { "yes" } else { "no" };
        fs::write(folder.join(format!("question-{index}.qdimacs")), question_texts::plain(&question))?;
        list += &format!("{verdict} question-{index}\n");
    }
    fs::write(folder.join("list"), list)
}

/// The sheet of a text in the program's format; a script may follow and is ignored.
fn convert(converter: impl Fn(&Sheet) -> Option<String>) -> io::Result<()> {
    let mut text = io::read_to_string(io::stdin())?;
    if !text.contains("\n\n") {
        text.push('\n');
    }
    let Reading { form, parts } = evaluator::text::read(text.as_bytes());
    let (bytes, _) = parts.map_err(|refusal| io::Error::other(format!("the text is refused: {refusal:?}")))?;
    let sheet = accepted(form, &bytes)?;
    let converted = converter(&sheet).ok_or_else(|| io::Error::other("the prenex form is too large"))?;
    print!("{converted}");
    Ok(())
}
