//! Calls of the archive's entries.

use super::{accepted, call, drawn_and_script, sheet_and_script, some_sheets};
use crate::compare;
use crate::evaluator::form::{self, Form};
use crate::evaluator::{literal, truth::Truth, Call};
use crate::generate::damage::{clashing, damaged, damaged_frame, faulty, misruled};
use crate::generate::scripts;
use crate::generate::sheets::{self, Size, LARGE, LARGER, LARGEST, MIDDLE, SMALL};
use crate::run::{Options, Run};

const ASK: [u8; 4] = [0x13, 0, 0, 0];
const WHY: [u8; 4] = [0x14, 0, 0, 0];
const TAKE_BACK: [u8; 4] = [0x11, 0, 0, 0];
const READ: [u8; 4] = [0x12, 0, 0, 0];

const SHEET_SIZES: &[usize] = &[0, 1, 2, 3, 4, 5, 7, 8, 9, 795, 796, 799, 800, 801, 803, 804, 805, 807, 808, 4000];
const WIDE_SHEET_SIZES: &[usize] = &[
    0, 1, 4, 6, 7, 8, 13, 14, 15, 800, 804, 1400, 1407, 20_986, 20_993, 20_996, 20_999, 21_000, 21_001, 21_004, 21_006,
    21_007, 21_008, 21_014, 70_000,
];
const SCRIPT_SIZES: &[usize] = &[0, 1, 2, 3, 4, 5, 8, 3996, 3999, 4000, 4001, 4003, 4004, 4005, 4008, 8000];

fn sheet_sizes(form: Form) -> &'static [usize] {
    match form {
        Form::Narrow => SHEET_SIZES,
        Form::Wide => WIDE_SHEET_SIZES,
    }
}

pub fn size_runs(_: &Options, form: Form) -> u64 {
    sheet_sizes(form).len() as u64
}

/// Part frames, too many frames, short answer buffers, and a fault in the sheet, all at once in every mix. One line asks,
/// the others are refused, which takes less time.
pub fn sizes(run: &mut Run) {
    let form = run.form;
    let bytes = sheet_sizes(form)[run.number as usize];
    let lines = [ASK.to_vec(), READ.repeat(2000)].concat();
    for &script_len in SCRIPT_SIZES {
        for faulty in [false, true] {
            let mut sheet = form.bytes([0x01, 3, 0, 0]).repeat(bytes.div_ceil(form.frame()))[..bytes].to_vec();
            if let (true, Some(kind)) = (faulty, sheet.first_mut()) {
                *kind = 0x08;
            }
            let call = Call { form, sheet: &sheet, script: &lines[..script_len] };
            let needed = call.needed();
            for len in [0, needed.saturating_sub(1), needed, needed + 1] {
                let answers = run.rng.bytes(len);
                compare::call(run, call, &answers);
            }
        }
    }
}

const EDGES: &[u16] = &[0, 1, 2, 3, 4, 5, 6, 7, 8, 16, 17, 30, 31, 32, 33, 128, 224, 255];
/// With numbers that are in range if a byte is left out or the two change places, and sums of two to the sixteenth.
const WIDE_EDGES: &[u16] = &[0, 1, 2, 3, 31, 32, 62, 63, 64, 65, 255, 256, 257, 320, 0x3F00, 0x8000, 0xFFC0, 0xFFFF];

fn edges(form: Form) -> &'static [u16] {
    match form {
        Form::Narrow => EDGES,
        Form::Wide => WIDE_EDGES,
    }
}

pub fn edge_runs(_: &Options, form: Form) -> u64 {
    edges(form).len() as u64
}

/// After an INPUT of the last variable, a frame of each kind and around, with one field from this run and the others of
/// all edge values. Then the kinds that use variables after a gauge instead.
pub fn edge_frames(run: &mut Run) {
    let kinds: Vec<u16> = (0..=8).chain([0x10, 0xFF]).collect();
    second_frames(run, 0x01, &kinds);
    second_frames(run, 0x07, &[0x01, 0x05, 0x06, 0x07]);
}

/// Frames of these kinds after one of the first kind.
fn second_frames(run: &mut Run, first: u16, kinds: &[u16]) {
    let form = run.form;
    let edges = edges(form);
    let input = form.bytes([first, u16::from(form.variables()) - 1, 0, 0]);
    let a = edges[run.number as usize];
    for &k in kinds {
        for &b in edges {
            for &c in edges {
                let sheet = [input.clone(), form.bytes([k, a, b, c])].concat();
                call(run, &sheet, &[ASK, WHY].concat());
            }
        }
    }
}

/// Around a byte's numbers, the frame's own, and those that have the same lower byte.
const LATE: &[u16] = &[0, 1, 43, 44, 45, 61, 63, 255, 256, 257, 298, 299, 300, 301, 512, 555, 556, 0x8000, 0xFFFF];

pub fn late_runs(_: &Options, _: Form) -> u64 {
    LATE.len() as u64
}

/// After 300 INPUT frames, of which no two whose numbers have the same lower byte have the same variable, and some of
/// whose variables are gauges: frames of each kind and around, with one field from this run.
pub fn late_frames(run: &mut Run) {
    let form = run.form;
    let input = |variable: u16| form.bytes([if variable % 4 == 3 { 0x07 } else { 0x01 }, variable, 0, 0]);
    let inputs: Vec<u8> = (0..300).flat_map(|number| input(number % 61)).collect();
    let a = LATE[run.number as usize];
    for k in 0..=8 {
        for &b in LATE {
            for c in [0, 1, 256] {
                let sheet = [inputs.clone(), form.bytes([k, a, b, c])].concat();
                call(run, &sheet, &[ASK, WHY].concat());
            }
        }
    }
}

/// Frames that use one of the last two variables, or both, and ones that break a rule. They are given the last variable
/// and their own number.
const USES: &[fn(u16, u16) -> [u16; 4]] = &[
    |last, _| [0x01, last, 0, 0],
    |last, _| [0x01, last - 1, 0, 0],
    |last, _| [0x07, last, 0, 0],
    |last, _| [0x07, last - 1, 0, 0],
    |last, own| [0x05, own - 1, last, 1],
    |last, own| [0x06, own - 1, last - 1, 1],
    |last, own| [0x06, own - 1, last - 1, 2],
    |last, own| [0x05, own - 1, last - 1, 3],
    |last, own| [0x05, own, last, 1],
    |last, _| [0x07, last + 1, 0, 0],
    |last, _| [0x07, last, 1, 0],
    |last, _| [0x07, last - 1, 0, 1],
    |last, _| [0x08, last, 0, 0],
    |_, own| [0x04, own - 1, own - 2, 0],
    |_, own| [0x02, own - 1, 0, 0],
];

pub fn use_runs(_: &Options, _: Form) -> u64 {
    USES.len() as u64
}

/// Every mix of three such frames, the first from this run, behind as few NEVERs as there can be; for wide sheets also
/// behind 300.
pub fn uses(run: &mut Run) {
    let form = run.form;
    let last = form.variables() - 1;
    let enter = |variable, value| [0x10, variable, value, 0];
    let script = [ASK, WHY, enter(last, 1), ASK, WHY, enter(last - 1, 0), ASK, WHY].concat();
    let first = USES[run.number as usize];
    let befores: &[u16] = if form == Form::Wide { &[2, 300] } else { &[2] };
    for &before in befores {
        for second in USES {
            for third in USES {
                let frames = (before..).zip([first, *second, *third]).map(|(own, frame)| frame(last.into(), own));
                let sheet = [[0; 4]].repeat(before.into()).into_iter().chain(frames);
                let sheet: Vec<u8> = sheet.flat_map(|frame| form.bytes(frame)).collect();
                call(run, &sheet, &script);
            }
        }
    }
}

const LINE_EDGES: &[u8] = &[0, 1, 2, 3, 4, 5, 6, 7, 8, 16, 17, 30, 31, 32, 33, 62, 63, 64, 65, 128, 224, 255];

pub fn line_runs(_: &Options, _: Form) -> u64 {
    LINE_EDGES.len() as u64
}

/// All lines of one first field, on a sheet whose open variables are the first and the last, with an entry and without.
/// Then all ENTER lines with a TAKE BACK after each, so that none stands in the way of the next and every accepted one is
/// told.
pub fn edge_lines(run: &mut Run) {
    let form = run.form;
    let last = form.variables() - 1;
    let frames = [[0x01, 0, 0, 0], [0x01, last.into(), 0, 0], [0x04, 0, 1, 0]];
    let sheet = frames.map(|frame| form.bytes(frame)).concat();
    let a = LINE_EDGES[run.number as usize];
    for k in [0x00, 0x01, 0x0F, 0x10, 0x11, 0x12, 0x13, 0x14, 0x15, 0xFF] {
        for first in [ASK, [0x10, last, 1, 7]] {
            let mut script = first.to_vec();
            script.extend(edge_mixes(k, a).flatten());
            script.extend([READ, [0x12, 1, 0, 0], WHY].concat());
            call(run, &sheet, &script);
        }
    }
    let script: Vec<u8> = edge_mixes(0x10, a).flat_map(|enter| [enter, TAKE_BACK]).flatten().collect();
    call(run, &sheet, &script);
}

/// The lines of a kind and first field with every mix of edge values in the others.
fn edge_mixes(k: u8, a: u8) -> impl Iterator<Item = [u8; 4]> {
    LINE_EDGES.iter().flat_map(move |&b| LINE_EDGES.iter().map(move |&c| [k, a, b, c]))
}

/// The largest wide sheets take the time.
pub fn random_runs(options: &Options, form: Form) -> u64 {
    match form {
        Form::Narrow => options.count,
        Form::Wide => options.count / 2,
    }
}

/// Sheets and scripts of all shapes, one in six damaged. Most are small: the large ones take the time.
pub fn random(run: &mut Run) {
    let form = run.form;
    let (size, lines) = match (run.rng.below(100), form) {
        (0..=66, _) => (SMALL, 24),
        (67..=95, _) => (MIDDLE, 14),
        (_, Form::Narrow) => (LARGE, 8),
        _ if run.number.is_multiple_of(8) => (LARGEST, 6),
        _ => (LARGER, 8),
    };
    let (mut sheet, mut script) = sheet_and_script(run, size, lines, 40);
    match run.rng.below(24) {
        0 => sheet = damaged(&mut run.rng, &sheet),
        1 => script = damaged(&mut run.rng, &script),
        2 => sheet = misruled(&mut run.rng, form, &sheet),
        3 => sheet = clashing(&mut run.rng, form, &sheet),
        _ => {}
    }
    call(run, &sheet, &script);
}

/// Sheets with gauges, none of them damaged, and scripts with many questions.
pub fn gauges(run: &mut Run) {
    let size = if run.number.is_multiple_of(3) { MIDDLE } else { SMALL };
    let (sheet, script) = drawn_and_script(run, sheets::with_gauges, size, 40, 60);
    call(run, &sheet, &script);
}

/// Many questions under changing entries.
pub fn long_scripts(run: &mut Run) {
    let size = Size { frames: 40, variables: if run.number.is_multiple_of(4) { 9 } else { 6 } };
    let (sheet, script) = sheet_and_script(run, size, 1000, 30);
    call(run, &sheet, &script);
}

/// Questions after a first one that is meant to fill the tables; a call does not tell whether it did.
pub fn full_tables(run: &mut Run) {
    let sheet = sheets::table_filling(&mut run.rng, run.form);
    let open = accepted(run.form, &sheet).open;
    let script = [ASK.to_vec(), scripts::script(&mut run.rng, run.form, open, 14, 40)].concat();
    call(run, &sheet, &script);
}

/// Two scripts that differ in the desks of their ENTER lines alone, all 0 to 7. Both end with a READ of every place
/// that an entry can have.
pub fn desks(run: &mut Run) {
    let size = if run.number.is_multiple_of(5) { MIDDLE } else { SMALL };
    let (sheet, mut script) = sheet_and_script(run, size, 24, 30);
    script.extend((0..size.variables as u8).flat_map(|place| [0x12, place, 0, 0]));
    let scripts = [(); 2].map(|()| scripts::with_other_desks(&mut run.rng, &script));
    let outcomes = scripts.each_ref().map(|script| call(run, &sheet, script));
    let calls = scripts.each_ref().map(|script| Call { form: run.form, sheet: &sheet, script });
    compare::but_for_desks(run, calls, &outcomes);
}

/// A narrow sheet, one in five faulty, through its entry, and widened through the other one.
pub fn widened(run: &mut Run) {
    run.form = Form::Narrow;
    let size = if run.number.is_multiple_of(5) { MIDDLE } else { SMALL };
    let (mut sheet, script) = sheet_and_script(run, size, 24, 40);
    match run.rng.below(16) {
        0 => sheet = damaged_frame(&mut run.rng, &sheet),
        1 => sheet = misruled(&mut run.rng, Form::Narrow, &sheet),
        2 => sheet = clashing(&mut run.rng, Form::Narrow, &sheet),
        _ => {}
    }
    let narrow = call(run, &sheet, &script);
    run.form = Form::Wide;
    let wide = call(run, &form::widened(&sheet), &script);
    compare::but_for_width(run, Call { form: Form::Narrow, sheet: &sheet, script: &script }, &narrow, &wide);
}

/// Each byte of a sheet and of a script in turn with three other values.
pub fn byte_faults(run: &mut Run) {
    let (sheet, script) = sheet_and_script(run, Size { frames: 24, variables: 5 }, 10, 40);
    for place in 0..sheet.len() + script.len() {
        for _ in 0..3 {
            let (mut sheet, mut script) = (sheet.clone(), script.clone());
            let byte = if place < sheet.len() { &mut sheet[place] } else { &mut script[place - sheet.len()] };
            *byte = faulty(&mut run.rng, *byte);
            call(run, &sheet, &script);
        }
    }
}

/// Every beginning of a sheet with the whole script, and the whole sheet with every beginning of the script.
pub fn cut(run: &mut Run) {
    let (sheet, script) = sheet_and_script(run, Size { frames: 30, variables: 5 }, 14, 40);
    for end in 0..sheet.len() {
        call(run, &sheet[..end], &script);
    }
    for end in 0..=script.len() {
        call(run, &sheet, &script[..end]);
    }
}

/// Every length from none to some bytes more than needed.
pub fn answer_buffers(run: &mut Run) {
    let (sheet, script) = sheet_and_script(run, SMALL, 12, 40);
    let call = Call { form: run.form, sheet: &sheet, script: &script };
    for len in 0..=call.needed() + 13 {
        let answers = run.rng.bytes(len);
        compare::call(run, call, &answers);
    }
}

/// The evaluator's own check: its tables against the rules read word for word, where that ends soon.
pub fn literally(run: &mut Run) {
    let (form, rng) = (run.form, &mut run.rng);
    let drawn = some_sheets(rng);
    let (sheet, truth) = loop {
        let sheet = accepted(form, &drawn(rng, form, Size { frames: 24, variables: 5 }));
        if literal::cost(&sheet) < 3000 {
            let truth = Truth::of(&sheet);
            break (sheet, truth);
        }
    };
    let entered = rng.next() & sheet.open;
    let values = rng.next() & entered;
    let tables = (truth.ask(entered, values), truth.why(entered, values));
    let words = (literal::ask(&sheet, entered, values), literal::why(&sheet, entered, values));
    run.check(tables == words, || format!("tables {tables:?}, rules {words:?}: {:?}", sheet.frames));
}
