//! Texts of questions that break the standard, and damaged ones.

use super::damage::faulty;
use super::question_texts::{comment, comments, digits, Draft};
use crate::evaluator::question::Question;
use crate::rng::Rng;

/// The question's text with a break of the standard: refused for it, whatever else is the matter with the question.
pub fn broken(rng: &mut Rng, question: &Question) -> Vec<u8> {
    loop {
        let mut draft = Draft::of(question);
        draft.comments = comments(rng);
        if rng.percent(15) {
            let text = draft.in_some_style(rng);
            return misended(rng, text);
        }
        if rng.pick(BREAKS)(rng, &mut draft, question).is_some() {
            return draft.in_some_style(rng);
        }
    }
}

/// What may not stand behind the last line's end: nothing may.
const BEHIND: &[&[u8]] =
    &[b" ", b"\t", b"\n", b" \n", b"c\n", b"c", b"0", b"0\n", b"1 0\n", b"1 0", b"e 1 0\n", b"%\n0\n", b"\r", b"\0"];

/// The text without its last line's end, with something behind that, or not even a whole comment.
fn misended(rng: &mut Rng, mut text: Vec<u8>) -> Vec<u8> {
    match rng.below(8) {
        0 | 1 => drop(text.pop()),
        2 => text = comment(rng),
        _ => text.extend(rng.pick(BEHIND)),
    }
    text
}

/// Each breaks the draft for sure, or tells that the question has no place for it.
type Break = fn(&mut Rng, &mut Draft, &Question) -> Option<()>;

const BREAKS: &[Break] = &[
    no_comment,
    late_comment,
    problem_line,
    problem_line,
    problem_line_lost_or_twice,
    problem_number,
    too_few_variables,
    number,
    number,
    number,
    ending,
    ending,
    empty_line,
    empty_set,
    empty_clause,
    other_letter,
    other_letters,
    set_in_two_parts,
    atom_again,
    atom_again,
    idle_atom,
    idle_atom,
    late_set,
    lines_joined,
    line_parted,
    no_letter,
    no_letter,
    clause_lost_or_twice,
    no_blank,
    no_blank,
    carriage_returns,
    words_joined,
];

/// A set's line.
fn some_set(rng: &mut Rng, draft: &Draft) -> Option<usize> {
    (draft.sets > 0).then(|| rng.between(1, draft.sets))
}

fn some_clause(rng: &mut Rng, draft: &Draft) -> usize {
    rng.between(draft.sets + 1, draft.lines.len() - 1)
}

/// A place for an atom in a set's line: an atom's, or the 0's.
fn some_place(rng: &mut Rng, set: &[Vec<u8>]) -> usize {
    rng.between(1, set.len() - 1)
}

fn no_comment(rng: &mut Rng, draft: &mut Draft, _: &Question) -> Option<()> {
    let line = rng.pick(&[" c", "\tc a comment", "C", "", " ", "x"]);
    draft.comments.insert(rng.below(draft.comments.len() + 1), line.into());
    Some(())
}

fn late_comment(rng: &mut Rng, draft: &mut Draft, _: &Question) -> Option<()> {
    draft.lines.insert(rng.between(1, draft.lines.len()), vec![comment(rng)]);
    Some(())
}

fn problem_line(rng: &mut Rng, draft: &mut Draft, _: &Question) -> Option<()> {
    let problem = &mut draft.lines[0];
    match rng.below(10) {
        0 => problem[0] = rng.pick(&["P", "pp", "q", "e", "1"]).into(),
        1..=3 => problem[1] = rng.pick(&["dnf", "CNF", "Cnf", "cn", "cnfs", "qbf", "1"]).into(),
        4 => drop(problem.remove(rng.below(4))),
        5 => problem.truncate(rng.between(1, 2)),
        6 | 7 => problem.push(rng.pick(&["0", "1", "c", "x"]).into()),
        _ => problem.insert(rng.below(4), "1".into()),
    }
    Some(())
}

fn problem_line_lost_or_twice(rng: &mut Rng, draft: &mut Draft, _: &Question) -> Option<()> {
    let problem = draft.lines.remove(0);
    if rng.percent(50) {
        let place = rng.below(draft.lines.len() + 1);
        draft.lines.splice(place..place, [problem.clone(), problem]);
    }
    Some(())
}

/// One of the problem line's numbers is none, or not that of the clauses.
fn problem_number(rng: &mut Rng, draft: &mut Draft, question: &Question) -> Option<()> {
    let place = rng.between(2, 3);
    let clauses = question.clauses.len();
    draft.lines[0][place] = match rng.below(6) {
        0 => "0".into(),
        1 => [b"-", &draft.lines[0][place][..]].concat(),
        2 if place == 3 => digits(rng.pick(&[clauses + 1, clauses - 1, 2 * clauses, clauses + (1 << 32)])),
        3 | 4 if place == 2 => rng.pick(&["2147483648", "4294967295", "4294967297", "99999999999999999999"]).into(),
        _ => no_number(rng, &draft.lines[0][place]),
    };
    Some(())
}

fn too_few_variables(_: &mut Rng, draft: &mut Draft, question: &Question) -> Option<()> {
    draft.lines[0][2] = digits(question.occurring().last()? - 1);
    Some(())
}

/// An atom or literal is no number, or none that may stand there.
fn number(rng: &mut Rng, draft: &mut Draft, question: &Question) -> Option<()> {
    let line = rng.between(1, draft.lines.len() - 1);
    let in_a_set = line <= draft.sets;
    let words = &mut draft.lines[line];
    let place = rng.between(usize::from(in_a_set), words.len() - 2);
    let above = i64::from(question.variables) + rng.pick(&[1, 1, 2, 30, 1 << 31]);
    words[place] = match rng.below(8) {
        0 => "0".into(),
        1 => digits(above),
        2 => digits(-above),
        3..=5 if in_a_set => [b"-", &words[place][..]].concat(),
        _ => no_number(rng, &words[place]),
    };
    Some(())
}

/// The word of a number, written in a way that does not count.
fn no_number(rng: &mut Rng, word: &[u8]) -> Vec<u8> {
    let (sign, number) = if let Some(number) = word.strip_prefix(b"-") { ("-", number) } else { ("", word) };
    let number = std::str::from_utf8(number).unwrap();
    let value: u128 = number.parse().unwrap();
    let written = match rng.below(10) {
        0 => format!("+{sign}{number}"),
        1 => format!("{sign}0{number}"),
        2 => format!("{sign}{number}{}", rng.pick(&["x", "e", "-", ".", ".0", "/", ":", "A"])),
        3 => format!("{sign}{}", rng.pick(&["-0", "--1", "x", "0x1", ":", "/", "-"])),
        4 => format!("--{number}"),
        // The same in the lowest bits of 32, 64 and 128.
        5 | 6 => format!("{sign}{}", value + (1 << 32)),
        7 => format!("{sign}{}", value + (1 << 64)),
        8 => format!("{sign}{}", value + (1 << 31)),
        _ => format!("{sign}340282366920938463463374607431768211{}", 456 + value % 400),
    };
    written.into()
}

fn ending(rng: &mut Rng, draft: &mut Draft, _: &Question) -> Option<()> {
    let line = rng.between(1, draft.lines.len() - 1);
    let ends: &[&[&str]] = &[&[], &["00"], &["-0"], &["+0"], &["0", "0"], &["0", "1", "0"], &["o"], &["4294967296"]];
    draft.lines[line].pop()?;
    draft.lines[line].extend(rng.pick(ends).iter().map(|&word| word.into()));
    Some(())
}

fn empty_line(rng: &mut Rng, draft: &mut Draft, _: &Question) -> Option<()> {
    draft.lines.insert(rng.below(draft.lines.len() + 1), Vec::new());
    Some(())
}

fn empty_set(rng: &mut Rng, draft: &mut Draft, _: &Question) -> Option<()> {
    match some_set(rng, draft) {
        // Without its atoms, or without the 0 too.
        Some(set) if rng.percent(60) => {
            draft.lines[set].truncate(1);
            draft.lines[set].extend(rng.percent(70).then(|| "0".into()));
        }
        // One more.
        _ => draft.lines.insert(rng.between(1, draft.sets + 1), vec![rng.pick(&["e", "a"]).into(), "0".into()]),
    }
    Some(())
}

fn empty_clause(rng: &mut Rng, draft: &mut Draft, _: &Question) -> Option<()> {
    let clause = some_clause(rng, draft);
    draft.lines[clause] = vec!["0".into()];
    Some(())
}

fn flip(letter: &mut Vec<u8>) {
    *letter = if letter == b"e" { "a".into() } else { "e".into() };
}

/// Two sets of one letter come together, or the innermost is an a.
fn other_letter(rng: &mut Rng, draft: &mut Draft, _: &Question) -> Option<()> {
    let set = some_set(rng, draft)?;
    flip(&mut draft.lines[set][0]);
    Some(())
}

/// The innermost is an a; all alternate.
fn other_letters(rng: &mut Rng, draft: &mut Draft, _: &Question) -> Option<()> {
    some_set(rng, draft)?;
    draft.lines[1..=draft.sets].iter_mut().for_each(|set| flip(&mut set[0]));
    Some(())
}

fn set_in_two_parts(rng: &mut Rng, draft: &mut Draft, _: &Question) -> Option<()> {
    let set = some_set(rng, draft).filter(|&set| draft.lines[set].len() > 3)?;
    let middle = rng.between(2, draft.lines[set].len() - 2);
    let mut second = draft.lines[set].split_off(middle);
    second.insert(0, draft.lines[set][0].clone());
    draft.lines[set].push("0".into());
    draft.lines.insert(set + 1, second);
    Some(())
}

/// An atom of a set again, there or in another.
fn atom_again(rng: &mut Rng, draft: &mut Draft, _: &Question) -> Option<()> {
    let (from, to) = (some_set(rng, draft)?, some_set(rng, draft)?);
    let atoms = &draft.lines[from];
    let atom = atoms[rng.between(1, atoms.len() - 2)].clone();
    let place = some_place(rng, &draft.lines[to]);
    draft.lines[to].insert(place, atom);
    Some(())
}

/// An atom that occurs in no clause: near those that do, the highest there may be, or one more than that.
fn idle_atom(rng: &mut Rng, draft: &mut Draft, question: &Question) -> Option<()> {
    let set = some_set(rng, draft)?;
    let near = question.occurring().into_iter().flat_map(|variable| [variable.max(2) - 1, variable + 1]);
    let highest = question.variables as u32;
    let mut idle: Vec<u32> = near.chain([1, highest, highest + 1]).collect();
    idle.retain(|variable| !question.occurring().contains(variable));
    let atom = rng.pick(&idle);
    if atom > highest && atom <= i32::MAX as u32 && rng.percent(70) {
        draft.lines[0][2] = digits(atom);
    }
    let place = some_place(rng, &draft.lines[set]);
    draft.lines[set].insert(place, digits(atom));
    Some(())
}

fn late_set(rng: &mut Rng, draft: &mut Draft, _: &Question) -> Option<()> {
    let set = some_set(rng, draft)?;
    let line = draft.lines.remove(set);
    draft.lines.insert(rng.between(draft.sets + 1, draft.lines.len()), line);
    Some(())
}

/// Two lines on one, with blanks between them or 0D alone.
fn lines_joined(rng: &mut Rng, draft: &mut Draft, _: &Question) -> Option<()> {
    let line = rng.below(draft.lines.len() - 1);
    let mut next = draft.lines.remove(line + 1);
    if rng.percent(40) {
        let last = draft.lines[line].pop()?;
        next[0] = [&last, &b"\r"[..], &next[0]].concat();
    }
    draft.lines[line].extend(next);
    Some(())
}

fn line_parted(rng: &mut Rng, draft: &mut Draft, _: &Question) -> Option<()> {
    let line = rng.below(draft.lines.len());
    let middle = rng.between(1, draft.lines[line].len() - 1);
    let rest = draft.lines[line].split_off(middle);
    draft.lines.insert(line + 1, rest);
    Some(())
}

/// A set's line begins with something else than a letter, or has none; or a clause has one.
fn no_letter(rng: &mut Rng, draft: &mut Draft, _: &Question) -> Option<()> {
    let letters: &[&[u8]] = &[b"E", b"A", b"d", b"d", b"ea", b"p", b"c", b"e1", b"-e", b"1"];
    let line = rng.between(1, draft.lines.len() - 1);
    let words = &mut draft.lines[line];
    match rng.below(4) {
        _ if line > draft.sets => words.insert(0, rng.pick(&["E", "d", "x", "c", "p", "ea"]).into()),
        0 => drop(words.remove(0)),
        _ => words[0] = rng.pick(letters).to_vec(),
    }
    Some(())
}

fn clause_lost_or_twice(rng: &mut Rng, draft: &mut Draft, _: &Question) -> Option<()> {
    let clause = some_clause(rng, draft);
    let line = draft.lines.remove(clause);
    if rng.percent(50) {
        draft.lines.splice(clause..clause, [line.clone(), line]);
    }
    Some(())
}

/// A byte that looks like a blank and is none, behind a word or between two.
fn no_blank(rng: &mut Rng, draft: &mut Draft, _: &Question) -> Option<()> {
    let line = rng.below(draft.lines.len());
    let words = &mut draft.lines[line];
    let place = rng.below(words.len());
    words[place].push(rng.pick(b"\r\r\x0B\x0C\0\xA0,;"));
    if place + 1 < words.len() && rng.percent(50) {
        let next = words.remove(place + 1);
        words[place].extend(next);
    }
    Some(())
}

/// A line, or every line, ended by 0D 0A.
fn carriage_returns(rng: &mut Rng, draft: &mut Draft, _: &Question) -> Option<()> {
    let line = rng.below(draft.lines.len());
    let lines = if rng.percent(50) { &mut draft.lines[line..=line] } else { &mut draft.lines[..] };
    lines.iter_mut().filter_map(|words| words.last_mut()).for_each(|word| word.push(b'\r'));
    Some(())
}

/// Two words of the problem line, or a set's letter and its first atom, with no blank between them.
fn words_joined(rng: &mut Rng, draft: &mut Draft, _: &Question) -> Option<()> {
    let line = rng.below(draft.sets + 1);
    let place = if line == 0 { rng.below(3) } else { 0 };
    let next = draft.lines[line].remove(place + 1);
    draft.lines[line][place].extend(next);
    Some(())
}

const PIECES: &[&[u8]] = &[b"c\n", b"p cnf 1 1\n", b"e 1 0\n", b"a 1 0\n", b"1 0\n", b"-1 0\n", b"1", b" ", b"0"];

/// A text with a fault, or one that looks like it: most, but not all, are refused.
pub fn damaged(rng: &mut Rng, text: &[u8]) -> Vec<u8> {
    let mut text = text.to_vec();
    let (place, gap) = (rng.below(text.len()), rng.below(text.len() + 1));
    match rng.below(12) {
        0..=2 => text[place] = rng.pick(b"0123456789 -\tea\n"),
        3 => text[place] = faulty(rng, text[place]),
        4..=5 => text.insert(gap, rng.pick(b"0123456789 -\tea\n\rc")),
        6 => text.insert(gap, rng.byte()),
        7..=8 => drop(text.remove(place)),
        9 => text.truncate(gap),
        10 => {
            let mut lines: Vec<&[u8]> = text.split_inclusive(|&byte| byte == b'\n').collect();
            let (one, other) = (rng.below(lines.len()), rng.below(lines.len()));
            lines.swap(one, other);
            text = lines.concat();
        }
        _ => text = (0..rng.between(1, 5)).flat_map(|_| rng.pick(PIECES).to_vec()).collect(),
    }
    text
}
