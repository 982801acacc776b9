//! The panel's cases with the answers as the rules' own tables print them, so that neither the product nor the evaluator
//! decides what is right here; some with gauges; the same ones as wide sheets, with the wide limits; and the refusals that
//! no text reaches.

use crate::evaluator::form::{Form, LINE, MOST_LINES};
use crate::evaluator::Call;
use crate::run::Run;
use crate::{archive, compare};

pub struct Case {
    /// Each frame as a number, K highest.
    pub sheet: &'static [u64],
    pub script: &'static [u32],
    pub outcome: Outcome,
}

pub enum Outcome {
    /// One number for each line: twelve hexadecimal digits, or twenty for a wide sheet.
    Answers(&'static [u128]),
    /// By number, at a place.
    Refused(u32, u32),
}
use Outcome::{Answers, Refused};

const L: &[u64] = &[
    0x01000000, 0x01020000, 0x03000100, 0x02000000, 0x02010000, 0x03030400, 0x04020500, 0x05060201, 0x01010000,
    0x03070800,
];
const L_FORALL: &[u64] = &[
    0x01000000, 0x01020000, 0x03000100, 0x02000000, 0x02010000, 0x03030400, 0x04020500, 0x06060201, 0x01010000,
    0x03070800,
];
const ASK: u32 = 0x13000000;
const WHY: u32 = 0x14000000;
const L_SCRIPT: &[u32] = &[ASK, WHY, 0x10010000, ASK, WHY, 0x11000000, 0x12000000, 0x10020100];
const NO: u128 = 0;
const DEEP_SCRIPT: &[u32] = &[ASK, WHY, 0x10000000, ASK, WHY];

/// Not the gauge 0, in as many frames: "it or any variable 1" for every variable 1, and then NOTs, of an odd number.
const fn deep<const FRAMES: usize>(form: Form) -> [u64; FRAMES] {
    let [k, a, b] = match form {
        Form::Narrow => [24, 16, 8],
        Form::Wide => [48, 32, 16],
    };
    let mut sheet = [0; FRAMES];
    sheet[0] = 0x07 << k;
    sheet[1] = 0x01 << k | 1 << a;
    sheet[3] = 0x04 << k | 1 << b;
    sheet[4] = 0x06 << k | 3 << a | 1 << b | 1;
    let mut frame = 5;
    while frame < FRAMES {
        sheet[frame] = 0x02 << k | (frame as u64 - 1) << a;
        frame += 1;
    }
    sheet
}

/// Variable 1, and not the gauge 0.
const GAUGE: &[u64] = &[0x07000000, 0x02000000, 0x01010000, 0x03010200];

const NARROW: &[Case] = &[
    Case {
        sheet: L,
        script: L_SCRIPT,
        outcome: Answers(&[
            0x000100000002,
            0x000100000002,
            0x000100000000,
            NO,
            0x000000000002,
            0x000100000000,
            0x110000000000,
            0x0D0000000000,
        ]),
    },
    Case { sheet: L_FORALL, script: &[ASK], outcome: Answers(&[NO]) },
    Case { sheet: &[0], script: &[ASK, WHY], outcome: Answers(&[NO, NO]) },
    Case { sheet: &[0, 0x02000000], script: &[ASK, WHY], outcome: Answers(&[0x000100000000, 0x000100000000]) },
    Case { sheet: &[0x011F0000], script: &[ASK], outcome: Answers(&[0x000180000000]) },
    Case { sheet: &[0x01200000], script: &[ASK], outcome: Refused(9, 0) },
    Case { sheet: &[0x02000000], script: &[ASK], outcome: Refused(8, 0) },
    Case { sheet: &[0x01000000, 0x05000020], script: &[ASK], outcome: Answers(&[0x000100000000]) },
    Case { sheet: &[0x01000000, 0x05000120], script: &[ASK], outcome: Refused(9, 1) },
    Case { sheet: &[0x01000000, 0x05000000], script: &[ASK], outcome: Refused(9, 1) },
    Case { sheet: &[0x01000000, 0x05000001, 0x03000100], script: &[ASK], outcome: Refused(11, 2) },
    Case { sheet: &[0x01000000, 0x05000001, 0x06000001], script: &[ASK], outcome: Refused(10, 2) },
    Case { sheet: &[0x01200100], script: &[ASK], outcome: Refused(7, 0) },
    Case { sheet: &[0x01000000], script: &[0x10280200], outcome: Answers(&[0x0D0000000000]) },
    Case { sheet: &[0x08000000], script: &[ASK], outcome: Refused(6, 0) },
    Case {
        sheet: GAUGE,
        script: &[ASK, WHY, 0x10010100, ASK, WHY, 0x10000000, ASK, WHY],
        outcome: Answers(&[
            0x000000000001,
            NO,
            0x000100000000,
            0x000000000001,
            NO,
            0x000200000000,
            0x000100000002,
            0x000100000003,
        ]),
    },
    Case { sheet: &[0x07050000, 0x01000000], script: &[ASK, WHY], outcome: Answers(&[0x000100000001, 0x000100000000]) },
    Case {
        sheet: &deep::<200>(Form::Narrow),
        script: DEEP_SCRIPT,
        outcome: Answers(&[0x000000000001, NO, 0x000100000000, 0x000100000000, 0x000100000001]),
    },
    Case { sheet: &[0x071F0000], script: &[0x101F0100, ASK], outcome: Answers(&[0x000100000000, 0x000180000000]) },
    Case { sheet: &[0x07200000], script: &[ASK], outcome: Refused(9, 0) },
    Case { sheet: &[0x07000100], script: &[ASK], outcome: Refused(7, 0) },
    Case { sheet: &[0x01000000, 0x07000000], script: &[ASK], outcome: Refused(22, 1) },
    Case { sheet: &[0x07000000, 0x01000000], script: &[ASK], outcome: Refused(22, 1) },
    Case { sheet: &[0x07000000, 0x05000001], script: &[ASK], outcome: Refused(23, 1) },
    Case { sheet: &[0x01000000, 0x05000101, 0x07010000], script: &[ASK], outcome: Refused(23, 2) },
    Case { sheet: &[0x01000000], script: &[], outcome: Answers(&[]) },
    Case { sheet: &[], script: &[ASK], outcome: Refused(2, 0) },
    Case { sheet: &[0; 200], script: &[ASK; 1000], outcome: Answers(&[NO; 1000]) },
    Case { sheet: &[0; 201], script: &[ASK], outcome: Refused(3, 0) },
    Case { sheet: &[0], script: &[ASK; 1001], outcome: Refused(4, 0) },
];

const WIDE_L: &[u64] = &[
    0x01000000000000,
    0x01000200000000,
    0x03000000010000,
    0x02000000000000,
    0x02000100000000,
    0x03000300040000,
    0x04000200050000,
    0x05000600020001,
    0x01000100000000,
    0x03000700080000,
];
const WIDE_L_FORALL: &[u64] = &[
    0x01000000000000,
    0x01000200000000,
    0x03000000010000,
    0x02000000000000,
    0x02000100000000,
    0x03000300040000,
    0x04000200050000,
    0x06000600020001,
    0x01000100000000,
    0x03000700080000,
];
/// INPUT 0.
const WIDE_INPUT: u64 = 0x01000000000000;
const YES: u128 = 0x00010000000000000000;
/// The gauge 63.
const WIDE_GAUGE: u64 = 0x07003F00000000;
const WIDE_EXISTS: u64 = 0x05000000000001;

/// Two frames, then NEVERs, then a last frame.
const fn apart<const FRAMES: usize>(first: u64, second: u64, last: u64) -> [u64; FRAMES] {
    let mut sheet = [0; FRAMES];
    sheet[0] = first;
    sheet[1] = second;
    sheet[FRAMES - 1] = last;
    sheet
}

const WIDE: &[Case] = &[
    Case {
        sheet: WIDE_L,
        script: L_SCRIPT,
        outcome: Answers(&[
            0x00010000000000000002,
            0x00010000000000000002,
            0x00010000000000000000,
            NO,
            0x00000000000000000002,
            0x00010000000000000000,
            0x11000000000000000000,
            0x0D000000000000000000,
        ]),
    },
    Case { sheet: WIDE_L_FORALL, script: &[ASK], outcome: Answers(&[NO]) },
    Case { sheet: &[0], script: &[ASK, WHY], outcome: Answers(&[NO, NO]) },
    Case { sheet: &[0, 0x02000000000000], script: &[ASK, WHY], outcome: Answers(&[YES, YES]) },
    Case { sheet: &[0x01001F00000000], script: &[ASK], outcome: Answers(&[0x00010000000080000000]) },
    Case { sheet: &[0x01002000000000], script: &[ASK], outcome: Answers(&[0x00010000000100000000]) },
    Case {
        sheet: &[0x01003F00000000],
        script: &[ASK, WHY, 0x103F0007, ASK, WHY, 0x12000000, 0x11000000, 0x10400000],
        outcome: Answers(&[
            0x00018000000000000000,
            0x00018000000000000000,
            0x00010000000000000000,
            NO,
            0x00008000000000000000,
            0x003F0000000000000700,
            0x003F0000000000000700,
            0x0D000000000000000000,
        ]),
    },
    Case { sheet: &[0x01004000000000], script: &[ASK], outcome: Refused(9, 0) },
    Case { sheet: &[0x01010000000000], script: &[ASK], outcome: Refused(9, 0) },
    Case { sheet: &[0x02000000000000], script: &[ASK], outcome: Refused(8, 0) },
    Case { sheet: &[WIDE_INPUT, 0x05000000000040], script: &[ASK], outcome: Answers(&[YES]) },
    Case { sheet: &[WIDE_INPUT, 0x05000000010040], script: &[ASK], outcome: Refused(9, 1) },
    Case { sheet: &[WIDE_INPUT, 0x05000000000041], script: &[ASK], outcome: Refused(9, 1) },
    Case { sheet: &[WIDE_INPUT, 0x05000000000000], script: &[ASK], outcome: Refused(9, 1) },
    // First and count as numbers of sixteen bits have the sum 0.
    Case { sheet: &[WIDE_INPUT, 0x050000FFC00040], script: &[ASK], outcome: Refused(9, 1) },
    Case { sheet: &[WIDE_INPUT, WIDE_EXISTS, 0x03000000010000], script: &[ASK], outcome: Refused(11, 2) },
    Case { sheet: &[WIDE_INPUT, WIDE_EXISTS, 0x06000000000001], script: &[ASK], outcome: Refused(10, 2) },
    Case { sheet: &[0x01004000010000], script: &[ASK], outcome: Refused(7, 0) },
    Case { sheet: &[0x01000000000100], script: &[ASK], outcome: Refused(7, 0) },
    Case { sheet: &[WIDE_INPUT], script: &[0x10480200], outcome: Answers(&[0x0D000000000000000000]) },
    Case { sheet: &[0x08000000000000], script: &[ASK], outcome: Refused(6, 0) },
    Case {
        sheet: &[WIDE_GAUGE, 0x02000000000000],
        script: &[ASK, WHY, 0x103F0000, ASK, WHY],
        outcome: Answers(&[0x00008000000000000000, NO, YES, YES, 0x00018000000000000000]),
    },
    Case { sheet: &[0x07000500000000, WIDE_INPUT], script: &[WHY], outcome: Answers(&[YES]) },
    Case {
        sheet: &deep::<3000>(Form::Wide),
        script: DEEP_SCRIPT,
        outcome: Answers(&[0x00000000000000000001, NO, YES, YES, 0x00010000000000000001]),
    },
    Case { sheet: &[0x07004000000000], script: &[ASK], outcome: Refused(9, 0) },
    Case { sheet: &[0x07000000000100], script: &[ASK], outcome: Refused(7, 0) },
    Case { sheet: &[0x01003F00000000, WIDE_GAUGE], script: &[ASK], outcome: Refused(22, 1) },
    Case { sheet: &[WIDE_GAUGE, 0x06000000000040], script: &[ASK], outcome: Refused(23, 1) },
    Case { sheet: &[WIDE_INPUT], script: &[], outcome: Answers(&[]) },
    Case { sheet: &[], script: &[ASK], outcome: Refused(2, 0) },
    Case { sheet: &apart::<301>(0, 0, 0x02012B00000000), script: &[ASK], outcome: Answers(&[YES]) },
    Case { sheet: &apart::<301>(0, 0, 0x02012C00000000), script: &[ASK], outcome: Refused(8, 300) },
    Case { sheet: &apart::<301>(0, 0, 0x08000000000000), script: &[ASK], outcome: Refused(6, 300) },
    Case { sheet: &apart::<301>(0, 0, 0x00000000000001), script: &[ASK], outcome: Refused(7, 300) },
    Case { sheet: &apart::<301>(0, 0, 0x01010000000000), script: &[ASK], outcome: Refused(9, 300) },
    Case { sheet: &apart::<301>(WIDE_INPUT, 0, 0x07000000000000), script: &[ASK], outcome: Refused(22, 300) },
    Case { sheet: &apart::<301>(0x07000000000000, 0, WIDE_EXISTS), script: &[ASK], outcome: Refused(23, 300) },
    Case { sheet: &apart::<301>(WIDE_INPUT, WIDE_EXISTS, WIDE_EXISTS), script: &[ASK], outcome: Refused(10, 300) },
    Case { sheet: &apart::<301>(WIDE_INPUT, WIDE_EXISTS, WIDE_INPUT), script: &[ASK], outcome: Refused(11, 300) },
    Case { sheet: &apart::<3000>(0, 0, 0x020BB700000000), script: &[ASK], outcome: Refused(8, 2999) },
    Case { sheet: &[0; 3000], script: &[ASK; 1000], outcome: Answers(&[NO; 1000]) },
    Case { sheet: &[0; 3001], script: &[ASK], outcome: Refused(3, 0) },
    Case { sheet: &[0], script: &[ASK; 1001], outcome: Refused(4, 0) },
];

pub fn cases(form: Form) -> &'static [Case] {
    match form {
        Form::Narrow => NARROW,
        Form::Wide => WIDE,
    }
}

/// Through the archive with just enough room; then with one byte less (5, told before any fault of a frame), and with a
/// part of a frame at the end of the script, then of the sheet too (2).
pub fn run(run: &mut Run) {
    let form = run.form;
    let case = &cases(form)[run.number as usize];
    let mut sheet: Vec<u8> = case.sheet.iter().flat_map(|frame| last(frame.to_be_bytes(), form.frame())).collect();
    let mut script: Vec<u8> = case.script.iter().flat_map(|line| line.to_be_bytes()).collect();
    let (result, answers) = expected(form, &case.outcome);
    let room = run.rng.bytes(script.len() / LINE * form.answer());
    pinned(run, Call { form, sheet: &sheet, script: &script }, &room, result, &answers);
    compare::call(run, Call { form, sheet: &sheet, script: &script }, &room);
    let few = case.sheet.len() <= form.most_frames() && case.script.len() <= MOST_LINES && !sheet.is_empty();
    if !few {
        return;
    }
    if !room.is_empty() {
        pinned(run, Call { form, sheet: &sheet, script: &script }, &room[1..], 5 * form.times(), &[]);
    }
    script.push(0);
    pinned(run, Call { form, sheet: &sheet, script: &script }, &room, 2 * form.times(), &[]);
    sheet.pop();
    pinned(run, Call { form, sheet: &sheet, script: &script }, &room, 2 * form.times(), &[]);
}

/// The last so many of the bytes.
fn last<const ALL: usize>(bytes: [u8; ALL], count: usize) -> Vec<u8> {
    bytes[ALL - count..].to_vec()
}

fn expected(form: Form, outcome: &Outcome) -> (u32, Vec<u8>) {
    match outcome {
        Answers(answers) => (0, answers.iter().flat_map(|answer| last(answer.to_be_bytes(), form.answer())).collect()),
        Refused(number, place) => (form.times() * number + place, Vec::new()),
    }
}

/// One check against what is written here, without the evaluator.
fn pinned(run: &mut Run, call: Call, room: &[u8], result: u32, answers: &[u8]) {
    let outcome = archive::call(call, room, run.rng.next());
    let kept = &room[answers.len()..];
    let holds = outcome.result == result
        && outcome.answers.starts_with(answers)
        && outcome.answers.ends_with(kept)
        && outcome.disturbed.is_empty();
    run.check(holds, || {
        format!(
            "returned {}, expected {result}; answers {:02X?}, expected {answers:02X?}; changed {:?}\n  \
             sheet {:02X?}, script {:02X?}",
            outcome.result, outcome.answers, outcome.disturbed, call.sheet, call.script,
        )
    });
}
