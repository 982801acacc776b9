//! Texts through the program and the converter, and those around the limits through the writer of normal sheets too.

use super::{joined, sheet_and_script};
use crate::compare;
use crate::evaluator::form::Form;
use crate::evaluator::text::{self, Reading};
use crate::evaluator::Call;
use crate::generate::damage::{clashing, damaged_frame};
use crate::generate::sheets::{MIDDLE, SMALL};
use crate::generate::texts::{counted, damaged, in_some_style, sheet_lines, styled, text as plain, with_strange_line};
use crate::run::{Options, Run};

/// Fewer of wide sheets: each run of the program takes its time.
pub fn text_runs(options: &Options, form: Form) -> u64 {
    match form {
        Form::Narrow => options.count / 16,
        Form::Wide => options.count / 32,
    }
}

/// Texts in every style: one in five of a faulty sheet, half of them damaged or with a strange line.
pub fn texts(run: &mut Run) {
    let text = some_text(run);
    run.tally.met.note_text(&text);
    let pieces = if run.number.is_multiple_of(20) { 3 } else { 1 };
    compare::text(run, &text, pieces);
}

/// The wide ones, which the converter refuses, are fewer.
pub fn widen_runs(options: &Options, form: Form) -> u64 {
    match form {
        Form::Narrow => options.count / 32,
        Form::Wide => options.count / 128,
    }
}

/// The same through the converter; what it makes of some goes on to the program.
pub fn widen(run: &mut Run) {
    let text = some_text(run);
    run.tally.met.note_widened(&text);
    let pieces = if run.number.is_multiple_of(20) { 3 } else { 1 };
    compare::widened(run, &text, pieces);
    if run.number.is_multiple_of(4) && text::widened_parts(&text).is_ok() {
        compare::widened_and_run(run, &text);
    }
}

/// A text in any style: one in five of a faulty sheet, half of the texts damaged or with a strange line.
pub fn some_text(run: &mut Run) -> Vec<u8> {
    let form = run.form;
    let size = if run.number.is_multiple_of(10) { MIDDLE } else { SMALL };
    let (mut sheet, script) = sheet_and_script(run, size, 20, 40);
    let fault = run.rng.below(10);
    match fault {
        0 => sheet = damaged_frame(&mut run.rng, &sheet),
        1 => sheet = clashing(&mut run.rng, form, &sheet),
        _ => {}
    }
    let text = in_some_style(&mut run.rng, &plain(Call { form, sheet: &sheet, script: &script }));
    compare::reading(run, &text, &Reading { form, parts: Ok((sheet, script)) });
    match fault {
        5..=7 => damaged(&mut run.rng, &text),
        8.. => with_strange_line(&mut run.rng, form, &text),
        _ => text,
    }
}

/// Texts around the counts and sizes.
const LIMITS: &[fn(Form) -> Vec<u8>] = &[
    |_| Vec::new(),
    |_| b"\n".to_vec(),
    |_| b"\n\n".to_vec(),
    |form| counted(form, 0, 0),
    |form| counted(form, 0, 1),
    |form| counted(form, 0, 1000),
    |form| counted(form, 0, 1001),
    |form| full(form, 0),
    |form| full(form, 1000),
    |form| full(form, 1001),
    |form| counted(form, form.most_frames() + 1, 0),
    |form| counted(form, form.most_frames() + 1, 1001),
    |form| counted(form, 1, 999),
    |form| counted(form, 1, 1000),
    |form| counted(form, 1, 1001),
    |form| counted(form, 1, 1820),
    |form| counted(form, 1, 20_000),
    |form| counted(form, 5000, 5000),
    |form| joined(full(form, 0), b"\n"),
    |form| joined(full(form, 0), b"\r"),
    |form| joined(full(form, 0), b"\r\n"),
    |form| joined(full(form, 999), b"13000000\r"),
    |form| joined(full(form, 999), b"13000000\r\n"),
    |form| joined(full(form, 999), b"13000000\r\r\n"),
    |form| joined(full(form, 1000), b"\n"),
    |form| joined(full(form, 1000), b"\r"),
    |form| joined(full(form, 1000), b"\r\n"),
    |form| joined(full(form, 1000), b"0"),
    |form| joined(full(form, 1000), b"1300000f\n"),
    |form| joined(full(form, 1000), b"1300000g\n"),
    |form| joined(full(form, 1000), b"13000000"),
    |form| joined(full(form, 1000), b"13000000\r"),
    |form| joined(full(form, 1000), b"13000000\r\n"),
    |form| joined(full(form, 1000), b"13000000\r\r\n"),
    |form| joined(full(form, 1000), b"13000000\r13000000\n"),
    |form| joined(full(form, 1000), b"13000000\n\n"),
    |form| joined(full(form, 1000), b"13000000000000\n"),
    |form| joined(full(form, 999), b"13000000000000\n"),
    |form| joined(full(form, 0), b"13000000000000\n"),
    |form| joined(full_sheet(form), b"\r"),
    |form| joined(full_sheet(form), b"\r\r\n"),
    |form| joined(full_sheet(form), &with(line(form), b"")),
    |form| joined(full_sheet(form), &with(line(form), b"\r")),
    |form| joined(full_sheet(form), &with(&line(form)[1..], b"\n")),
    |form| joined(full_sheet(form), &with(&line(form)[1..], b"\r\n")),
    |form| joined(full_sheet(form), &with(&line(form)[1..], b"a\n\n")),
    |form| joined(full_sheet(form), &with(&line(form)[1..], b"g\n\n")),
    |form| joined(full_sheet(form), &with(line(form), b"\n")),
    |form| joined(full_sheet(form), &with(line(form), b"\r\r\n")),
    |form| joined(full_sheet(form), &with(line(form), b"\r01000000\n\n")),
    |form| joined(full_sheet(form), &with(line(form), b"\nzz")),
    full_sheet,
    |form| sheet_lines(form, 1),
    // A line of the other form: the first line past the last one, the one behind it, the last one, the second.
    |form| joined(full_sheet(form), &with(line(form.other()), b"\n\n")),
    |form| joined(full_sheet(form), &with(line(form.other()), b"\r\n")),
    |form| joined(full_sheet(form), &with(line(form.other()), b"")),
    |form| joined(full_sheet(form), &with(line(form.other()), b"\r")),
    |form| joined(full_sheet(form), &with(line(form.other()), b"\r\r\n")),
    |form| joined(sheet_lines(form, form.most_frames() + 1), &with(line(form.other()), b"\n\n")),
    |form| joined(sheet_lines(form, form.most_frames() - 1), &with(line(form.other()), b"\n\n")),
    |form| joined(sheet_lines(form, 1), &with(line(form.other()), b"\n\n")),
    |form| joined(sheet_lines(form, 1), &with(line(form.other()), b"\n")),
    |form| joined(sheet_lines(form, 1), &with(line(form.other()), b"")),
    |form| joined(sheet_lines(form, 1), &with(line(form.other()), b"\r")),
    |form| joined(sheet_lines(form, 1), &with(&line(form.other())[1..], b"g\n\n")),
    |form| joined(sheet_lines(form, 1), &with(&line(form.other())[1..], b"\n\n")),
    |form| joined(sheet_lines(form, 1), &with(line(form.other()), b"0\n\n")),
    |form| joined(b"\n".to_vec(), &counted(form, 1, 1)),
    |form| joined(counted(form, 1, 0), &with(line(form.other()), b"\n")),
    |form| joined(counted(form, 1, 1), &with(line(form), b"\n")),
    // First lines that look like one of the form.
    |form| with(line(form), b""),
    |form| with(line(form), b"\r"),
    |form| with(line(form), b"\r\n"),
    |form| with(line(form), b"\r\r\n\n"),
    |form| with(line(form), b"\r\n\r\n13000000\r\n"),
    |form| with(line(form), b"0\n\n13000000\n"),
    |form| with(&line(form)[1..], b"\n\n13000000\n"),
    |form| with(&line(form)[1..], b"G\n\n13000000\n"),
    |form| with(&line(form)[1..], b" \n\n13000000\n"),
    |form| joined(with(line(form), b" \n"), &counted(form, 1, 1)),
    // As long as what the program reads, and longer.
    |_| vec![b'0'; 65_535],
    |_| vec![b'0'; 65_536],
    |_| vec![b'0'; 65_537],
    |_| joined(vec![b'0'; 65_534], b"\r\n"),
    |_| joined(vec![b'0'; 65_535], b"\r\n"),
    |_| joined(vec![b'0'; 65_536], b"\r\n"),
    |_| vec![b'\r'; 65_536],
    |_| vec![b'\n'; 70_000],
    |_| vec![0; 300_000],
    |form| joined(counted(form, 3, 3), &[b'\n'; 70_000]),
    |form| joined(counted(form, 3, 3), &[b'\r'; 70_000]),
    |form| joined(counted(form, 3, 3), &[b'F'; 70_000]),
    // For a narrow sheet the 0D of a script line is the last byte of 64 KiB, then the last but one.
    |form| joined(counted(form, 4, 0), &b"13000000\r\n".repeat(7000)),
    |form| joined(counted(form, 5, 0), &b"13000000\r\n".repeat(7000)),
];

/// As many sheet lines as there may be, and so many script lines.
fn full(form: Form, script_lines: usize) -> Vec<u8> {
    counted(form, form.most_frames(), script_lines)
}

/// The same without the empty line.
fn full_sheet(form: Form) -> Vec<u8> {
    sheet_lines(form, form.most_frames())
}

/// A sheet line without its ending.
fn line(form: Form) -> &'static [u8] {
    match form {
        Form::Narrow => b"01000000",
        Form::Wide => b"01000000000000",
    }
}

fn with(digits: &[u8], more: &[u8]) -> Vec<u8> {
    joined(digits.to_vec(), more)
}

pub fn limit_runs(_: &Options, _: Form) -> u64 {
    LIMITS.len() as u64
}

/// Each as it stands, then all in lower case and 0D 0A, then mixed; and as it stands through the converter and the writer
/// of normal sheets, if they take texts of that length.
pub fn limits(run: &mut Run) {
    let limit = LIMITS[run.number as usize](run.form);
    for percent in [0, 100, 50] {
        let text = styled(&mut run.rng, &limit, percent, percent);
        compare::reading(run, &text, &text::read(&limit));
        compare::text(run, &text, 1);
    }
    if limit.len() <= 64 * 1024 {
        compare::widened(run, &limit, 1);
        let _ = compare::normal(run, &limit, 1);
    }
}
