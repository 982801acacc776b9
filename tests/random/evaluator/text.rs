//! The text: lines of digits of either case, ended by 0A or by 0D 0A, sheet lines of one of the two forms
//! (documents/02-change-requests.md); what the program prints, what the converter prints, and what the writer of normal
//! sheets prints.

use super::form::{widened as widened_sheet, Form, LINE, MOST_LINES};
use super::normal::normal as normal_sheet;
use super::sheet::{self, Refusal};
use super::Call;

/// The bytes of sheet and script, or the first fault. The form is told of either.
#[derive(Debug, PartialEq, Eq)]
pub struct Reading {
    pub form: Form,
    pub parts: Result<(Vec<u8>, Vec<u8>), Refusal>,
}

/// What the program prints for a text.
pub fn printed(text: &[u8]) -> Vec<u8> {
    let Reading { form, parts } = read(text);
    match parts.and_then(|(sheet, script)| super::run(Call { form, sheet: &sheet, script: &script }, usize::MAX)) {
        Ok(answers) => digits_lines(&answers, form.answer()),
        Err(refusal) => refused(form, refusal),
    }
}

/// What the converter prints for a text: the wide text, or the refusal's line. A wide text is refused by 29.
pub fn widened(text: &[u8]) -> Vec<u8> {
    match widened_parts(text) {
        Ok((sheet, script)) => {
            [digits_lines(&sheet, Form::Wide.frame()), b"\n".to_vec(), digits_lines(&script, LINE)].concat()
        }
        Err(refusal) => refused(Form::Narrow, refusal),
    }
}

/// The bytes of the wide sheet and of the script, or the text's own refusal, or the sheet's.
pub fn widened_parts(text: &[u8]) -> Result<(Vec<u8>, Vec<u8>), Refusal> {
    let Reading { form, parts } = read(text);
    if form == Form::Wide {
        return Err(Refusal { number: 29, place: 0 });
    }
    let (sheet, script) = parts?;
    if sheet.is_empty() {
        return Err(Refusal { number: 2, place: 0 });
    }
    sheet::check(form, &sheet)?;
    Ok((widened_sheet(&sheet), script))
}

/// What the writer of normal sheets prints for a text: the normal sheet's lines alone, or the refusal's line.
pub fn normal(text: &[u8]) -> Vec<u8> {
    let Reading { form, parts } = read(text);
    match parts.and_then(|(sheet, _)| normal_sheet(form, &sheet)) {
        Ok(sheet) => digits_lines(&sheet, form.frame()),
        Err(refusal) => refused(form, refusal),
    }
}

/// The one line of a refused run: number, place, zero bytes.
fn refused(form: Form, refusal: Refusal) -> Vec<u8> {
    let Refusal { number, place } = refusal;
    match form {
        Form::Narrow => digits_line(&[number, place as u8, 0, 0, 0, 0]),
        Form::Wide => digits_line(&[&[number], &place.to_be_bytes()[..], &[0; 7]].concat()),
    }
}

/// A line for each so many bytes.
fn digits_lines(bytes: &[u8], each: usize) -> Vec<u8> {
    bytes.chunks_exact(each).flat_map(digits_line).collect()
}

/// Two digits a byte, in capitals, and 0A alone.
pub fn digits_line(bytes: &[u8]) -> Vec<u8> {
    let digits: String = bytes.iter().map(|byte| format!("{byte:02X}")).collect();
    format!("{digits}\n").into_bytes()
}

/// Lines are taken in order, the first fault is told, a line's shape before the counts.
pub fn read(text: &[u8]) -> Reading {
    let form = form(text);
    let parts = parts(form, text).map_err(|number| Refusal { number, place: 0 });
    Reading { form, parts }
}

/// Wide if the text begins with an ended line of fourteen digits.
fn form(text: &[u8]) -> Form {
    match first_line(text) {
        Some((line, _)) if bytes(line, Form::Wide.frame()).is_some() => Form::Wide,
        _ => Form::Narrow,
    }
}

fn parts(form: Form, text: &[u8]) -> Result<(Vec<u8>, Vec<u8>), u8> {
    let (mut sheet, mut script) = (Vec::new(), Vec::new());
    let mut in_script = false;
    let mut rest = text;
    while !rest.is_empty() {
        let (line, behind) = first_line(rest).ok_or(1)?;
        rest = behind;
        if line.is_empty() && !in_script {
            in_script = true;
        } else if in_script {
            add(&mut script, bytes(line, LINE).ok_or(1)?, MOST_LINES, 4)?;
        } else {
            add(&mut sheet, sheet_line(form, line)?, form.most_frames(), 3)?;
        }
    }
    if in_script {
        Ok((sheet, script))
    } else {
        Err(1)
    }
}

/// A frame of the sheet's part; a well shaped one of the other form is refused by 29.
fn sheet_line(form: Form, line: &[u8]) -> Result<Vec<u8>, u8> {
    let of_other_form = bytes(line, form.other().frame()).is_some();
    bytes(line, form.frame()).ok_or(if of_other_form { 29 } else { 1 })
}

/// Adds a line's bytes to those before, unless there are so many lines already.
fn add(part: &mut Vec<u8>, line: Vec<u8>, most: usize, too_many: u8) -> Result<(), u8> {
    if part.len() == most * line.len() {
        return Err(too_many);
    }
    part.extend(line);
    Ok(())
}

/// The first line without its ending, and what follows; none if no 0A ends it. A 0D just before the 0A belongs to the
/// ending, any other does not.
fn first_line(text: &[u8]) -> Option<(&[u8], &[u8])> {
    let end = text.iter().position(|&byte| byte == 0x0A)?;
    let line = &text[..end];
    Some((line.strip_suffix(b"\r").unwrap_or(line), &text[end + 1..]))
}

/// So many bytes, each two digits.
fn bytes(line: &[u8], count: usize) -> Option<Vec<u8>> {
    let digits: Vec<u8> = line.iter().map(|&byte| digit(byte)).collect::<Option<_>>()?;
    let bytes: Vec<u8> = digits.chunks_exact(2).map(|pair| pair[0] << 4 | pair[1]).collect();
    (digits.len() == 2 * count).then_some(bytes)
}

/// The value of a digit 0-9 A-F a-f.
fn digit(byte: u8) -> Option<u8> {
    match byte {
        b'0'..=b'9' => Some(byte - b'0'),
        b'A'..=b'F' => Some(byte - b'A' + 10),
        b'a'..=b'f' => Some(byte - b'a' + 10),
        _ => None,
    }
}
