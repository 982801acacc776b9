//! Texts for the program, the converter and the writer of normal sheets.

use super::damage::faulty;
use crate::evaluator::form::{Form, LINE};
use crate::evaluator::Call;
use crate::rng::Rng;

/// Sheet lines, the empty line, script lines; in capitals, each line ended by 0A. Odd bytes at a part's end are a short
/// line.
pub fn text(call: Call) -> Vec<u8> {
    let mut text = lines(call.sheet, call.form.frame());
    text.push(b'\n');
    text.extend(lines(call.script, LINE));
    text
}

fn lines(bytes: &[u8], each: usize) -> Vec<u8> {
    let line = |frame: &[u8]| frame.iter().map(|byte| format!("{byte:02X}")).collect::<String>() + "\n";
    bytes.chunks(each).flat_map(|frame| line(frame).into_bytes()).collect()
}

/// The text with none, some or all letters in lower case, and none, some or all lines ended by 0D 0A.
pub fn in_some_style(rng: &mut Rng, text: &[u8]) -> Vec<u8> {
    let [lower_case, carriage_returns] = [(); 2].map(|()| rng.pick(&[0, 50, 100]));
    styled(rng, text, lower_case, carriage_returns)
}

/// The text with so many percent of the letters in lower case, and so many percent of the lines ended by 0D 0A. A 0A
/// with a 0D before it is left as it is.
pub fn styled(rng: &mut Rng, text: &[u8], lower_case: usize, carriage_returns: usize) -> Vec<u8> {
    let mut styled = Vec::new();
    for &byte in text {
        if byte == b'\n' && styled.last() != Some(&b'\r') && rng.percent(carriage_returns) {
            styled.push(b'\r');
        }
        styled.push(if rng.percent(lower_case) { byte.to_ascii_lowercase() } else { byte });
    }
    styled
}

/// The bytes just before and behind the digits.
const NEIGHBOURS: &[u8] = b"/:@G`g";
const BLANKS: &[u8] = b" \t\x0B\x0C\0\x85\xA0";
const EMPTY_LINES: &[&[u8]] = &[b"\n", b"\r\n"];
/// What no line ends with.
const NO_ENDINGS: &[&[u8]] = &[b"", b"\r", b"\r\r\n", b"\n\r", b" ", b" \n", b"\r \n", b"\t\r\n"];
const PIECES: &[&[u8]] = &[b"01000000", b"01000000000000", b"13000000", b"\n", b"\n", b"\r\n", b"\r"];

/// A text with a fault, or one that looks like it: most, but not all, are refused.
pub fn damaged(rng: &mut Rng, text: &[u8]) -> Vec<u8> {
    let mut text = text.to_vec();
    let (place, gap) = (rng.below(text.len()), rng.below(text.len() + 1));
    match rng.below(20) {
        0..=3 => {
            let ending = rng.pick(NO_ENDINGS);
            replace_ending(rng, &mut text, ending);
        }
        4 => {
            let ending = [rng.pick(EMPTY_LINES), rng.pick(EMPTY_LINES)].concat();
            replace_ending(rng, &mut text, &ending);
        }
        5 => text.insert(gap, b'\r'),
        6 => text.insert(gap, rng.pick(b"0Ff\n")),
        7 => text.insert(gap, rng.pick(BLANKS)),
        8 => text[place] = rng.pick(BLANKS),
        9..=11 => text[place] = rng.pick(NEIGHBOURS),
        12 => text[place] = faulty(rng, text[place]),
        13 => drop(text.remove(place)),
        14 => text.truncate(gap),
        15 => drop(text.pop()),
        16 => text.extend(rng.pick(EMPTY_LINES)),
        17 => text = [rng.pick(EMPTY_LINES), &text].concat(),
        18 => text.retain(|&byte| byte != b'\n'),
        19 if rng.percent(50) => text = (0..rng.below(8)).flat_map(|_| rng.pick(PIECES).to_vec()).collect(),
        _ => {
            let count = rng.below(300);
            text = rng.bytes(count);
        }
    }
    text
}

/// Puts other bytes in the place of one line's ending.
fn replace_ending(rng: &mut Rng, text: &mut Vec<u8>, by: &[u8]) {
    let ends: Vec<usize> = (0..text.len()).filter(|&place| text[place] == b'\n').collect();
    let end = rng.pick(&ends);
    let start = if text[..end].ends_with(b"\r") { end - 1 } else { end };
    text.splice(start..=end, by.iter().copied());
}

/// A text of the form with a line that is no line of it, or not there, most often an ended one of the other form in the
/// sheet's part: put before a line, or in its place. A text that gets a wide line first is a wide one.
pub fn with_strange_line(rng: &mut Rng, form: Form, text: &[u8]) -> Vec<u8> {
    let any = rng.pick(&[7, 8, 9, 13, 14, 15, 16, 22]);
    let digits = if rng.percent(60) { 2 * form.other().frame() } else { any };
    let mut line: Vec<u8> = (0..digits).map(|_| rng.pick(b"0000123ABcd")).collect();
    line.extend(rng.pick(&[&b"\n"[..], b"\n", b"\n", b"\n", b"\r\n", b"\r\n", b"", b"\r", b"\r\r\n"]));
    let mut lines: Vec<Vec<u8>> = text.split_inclusive(|&byte| byte == b'\n').map(<[u8]>::to_vec).collect();
    let sheet_lines = lines.iter().take_while(|line| line.len() > 2).count();
    let places = if rng.percent(70) { sheet_lines } else { lines.len() };
    let place = rng.below(places);
    let replaced = usize::from(rng.percent(50));
    lines.splice(place..place + replaced, [line]);
    lines.concat()
}

/// A text around the limits: so many sheet and script lines, all well shaped.
pub fn counted(form: Form, sheet_lines: usize, script_lines: usize) -> Vec<u8> {
    let sheet = form.bytes([0x01, 0, 0, 0]).repeat(sheet_lines);
    let script = [0x13, 0, 0, 0].repeat(script_lines);
    text(Call { form, sheet: &sheet, script: &script })
}

/// Sheet lines without the empty line.
pub fn sheet_lines(form: Form, count: usize) -> Vec<u8> {
    let mut text = counted(form, count, 0);
    text.pop();
    text
}
