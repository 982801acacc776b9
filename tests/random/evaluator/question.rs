//! Questions in QDIMACS 1.1 (documents/02-change-requests.md): which texts are well formed, the sheet of a question, and
//! its truth with every variable tried both ways. A text is taken apart into lines and these into words.

use super::form::Form::Narrow;
use super::text::digits_line;
use std::collections::BTreeSet;

/// A question of a well formed text.
#[derive(Clone, Debug, PartialEq, Eq)]
pub struct Question {
    /// The problem line's number of variables.
    pub variables: i32,
    /// Outermost first.
    pub sets: Vec<Set>,
    pub clauses: Vec<Vec<i32>>,
}

#[derive(Clone, Debug, PartialEq, Eq)]
pub struct Set {
    pub forall: bool,
    pub atoms: Vec<i32>,
}

/// Why a text is refused; the first one in this order is told.
#[derive(Clone, Copy, Debug, PartialEq, Eq)]
pub enum Cause {
    Text,
    Variables,
    Frames,
    AlwaysTrue,
    AlwaysFalse,
}

impl Cause {
    fn number(self) -> u8 {
        match self {
            Cause::Text | Cause::AlwaysTrue | Cause::AlwaysFalse => 18,
            Cause::Variables | Cause::Frames => 19,
        }
    }
}

/// What the program prints for a text.
pub fn printed(text: &[u8]) -> Vec<u8> {
    match sheet(text) {
        Ok(frames) => frames.iter().flat_map(|frame| digits_line(frame)).collect(),
        Err(cause) => digits_line(&[cause.number(), 0, 0, 0, 0, 0]),
    }
}

/// The frames of a text's sheet.
pub fn sheet(text: &[u8]) -> Result<Vec<[u8; 4]>, Cause> {
    let question = read(text).ok_or(Cause::Text)?;
    if question.variables > i32::from(Narrow.variables()) {
        return Err(Cause::Variables);
    }
    let frames = question.frames();
    if frames.len() > Narrow.most_frames() {
        return Err(Cause::Frames);
    }
    if question.clauses.iter().all(|clause| clause.iter().any(|&literal| clause.contains(&-literal))) {
        return Err(Cause::AlwaysTrue);
    }
    if !satisfiable(&question.clauses) {
        return Err(Cause::AlwaysFalse);
    }
    Ok(frames.into_iter().map(|frame| frame.map(|field| u8::try_from(field).unwrap())).collect())
}

/// The question of a well formed text, whatever its size and truth.
pub fn read(text: &[u8]) -> Option<Question> {
    let mut lines: Vec<&[u8]> = text.split(|&byte| byte == b'\n').collect();
    // Every line is ended, so nothing stands behind the last end.
    if !lines.pop()?.is_empty() {
        return None;
    }
    let comments = lines.iter().take_while(|line| line.starts_with(b"c")).count();
    let lines: Vec<Vec<&[u8]>> = lines[comments..].iter().map(|line| words(line)).collect();
    let (problem, lines) = lines.split_first()?;
    let [b"p", b"cnf", variables, count] = problem[..] else {
        return None;
    };
    let (variables, count) = (number(variables)?, number(count)?);
    let prefix = lines.iter().take_while(|line| letter(line).is_some()).count();
    let (sets, clauses) = lines.split_at(prefix);
    let set = |line: &Vec<&[u8]>| Some(Set { forall: letter(line)?, atoms: ended(&line[1..])? });
    let question = Question {
        variables,
        sets: sets.iter().map(set).collect::<Option<_>>()?,
        clauses: clauses.iter().map(|line| ended(line)).collect::<Option<_>>()?,
    };
    let counted = count >= 1 && usize::try_from(count) == Ok(question.clauses.len());
    (counted && question.keeps_the_rules()).then_some(question)
}

fn words(line: &[u8]) -> Vec<&[u8]> {
    line.split(|byte| b" \t".contains(byte)).filter(|word| !word.is_empty()).collect()
}

/// Whether a quantified set's line is a for all; none for another line.
fn letter(line: &[&[u8]]) -> Option<bool> {
    match line.first() {
        Some(&b"e") => Some(false),
        Some(&b"a") => Some(true),
        _ => None,
    }
}

/// The numbers before the 0 that ends a line: some, and none of them 0.
fn ended(words: &[&[u8]]) -> Option<Vec<i32>> {
    let mut numbers: Vec<i32> = words.iter().map(|word| number(word)).collect::<Option<_>>()?;
    let end = numbers.pop()?;
    (end == 0 && !numbers.is_empty() && !numbers.contains(&0)).then_some(numbers)
}

/// A number that is written in the one way that counts: as Rust writes it.
fn number(word: &[u8]) -> Option<i32> {
    let word = std::str::from_utf8(word).ok()?;
    word.parse().ok().filter(|number: &i32| number.to_string() == word)
}

impl Question {
    /// What the standard asks beyond the lines' shape, but for the matrix's truth.
    fn keeps_the_rules(&self) -> bool {
        let atoms: Vec<i32> = self.sets.iter().flat_map(|set| set.atoms.clone()).collect();
        let occurring = self.occurring();
        let in_range = |number: &u32| i64::from(*number) <= i64::from(self.variables);
        let mut letters = self.sets.iter().rev().map(|set| set.forall);
        let once: BTreeSet<u32> = atoms.iter().map(|atom| atom.unsigned_abs()).collect();
        occurring.iter().all(in_range)
            && atoms.iter().all(|&atom| atom > 0)
            && once.len() == atoms.len()
            && once.is_subset(&occurring)
            && [false, true].into_iter().cycle().zip(&mut letters).all(|(expected, forall)| expected == forall)
    }

    /// The variables of the clauses.
    pub fn occurring(&self) -> BTreeSet<u32> {
        self.clauses.iter().flatten().map(|literal| literal.unsigned_abs()).collect()
    }

    /// The variables that the sheet has open, as a word.
    pub fn open(&self) -> u64 {
        let atoms: Vec<i32> = self.sets.iter().flat_map(|set| set.atoms.clone()).collect();
        let open = self.occurring().into_iter().filter(|&variable| !atoms.contains(&(variable as i32)));
        open.fold(0, |word, variable| word | 1 << (variable - 1))
    }

    /// The sheet's frames, however many.
    pub fn frames(&self) -> Vec<[usize; 4]> {
        let inputs: Vec<u32> = self.occurring().into_iter().collect();
        let negated = |variable: &u32| self.clauses.iter().any(|clause| clause.contains(&-(*variable as i32)));
        let nots: Vec<u32> = inputs.iter().copied().filter(negated).collect();
        let input = |variable: u32| inputs.binary_search(&variable).unwrap();
        let not = |variable: u32| inputs.len() + nots.binary_search(&variable).unwrap();
        let literal = |number: i32| if number < 0 { not(number.unsigned_abs()) } else { input(number as u32) };
        let mut frames: Vec<[usize; 4]> = inputs.iter().map(|&variable| [0x01, variable as usize - 1, 0, 0]).collect();
        frames.extend(nots.iter().map(|&variable| [0x02, input(variable), 0, 0]));
        let mut clause = |numbers: &Vec<i32>| chain(&mut frames, 0x04, numbers.iter().map(|&number| literal(number)));
        let clauses: Vec<usize> = self.clauses.iter().map(&mut clause).collect();
        let mut last = chain(&mut frames, 0x03, clauses.into_iter());
        for set in self.sets.iter().rev() {
            for (first, count) in runs(&set.atoms) {
                frames.push([0x05 + usize::from(set.forall), last, first - 1, count]);
                last = frames.len() - 1;
            }
        }
        frames
    }

    /// The truth under a setting of the open variables; bit k - 1 is variable k.
    pub fn holds(&self, setting: u64) -> bool {
        let atoms: Vec<(bool, i32)> =
            self.sets.iter().flat_map(|set| set.atoms.iter().map(|&atom| (set.forall, atom))).collect();
        self.holds_inside(&atoms, setting)
    }

    fn holds_inside(&self, atoms: &[(bool, i32)], setting: u64) -> bool {
        let Some((&(forall, atom), inner)) = atoms.split_first() else {
            return self.matrix_holds(setting);
        };
        let bit = 1 << (atom - 1);
        let (without, with) = (self.holds_inside(inner, setting & !bit), self.holds_inside(inner, setting | bit));
        if forall {
            without && with
        } else {
            without || with
        }
    }

    pub fn matrix_holds(&self, setting: u64) -> bool {
        let literal = |&number: &i32| (setting >> (number.unsigned_abs() - 1) & 1 == 1) == (number > 0);
        self.clauses.iter().all(|clause| clause.iter().any(literal))
    }
}

/// Adds the frames of a chain of gates and gives its last frame, which for one member is that member.
fn chain(frames: &mut Vec<[usize; 4]>, kind: usize, members: impl Iterator<Item = usize>) -> usize {
    let gate = |so_far, newest| {
        frames.push([kind, so_far, newest, 0]);
        frames.len() - 1
    };
    members.reduce(gate).unwrap()
}

/// The longest runs of consecutive numbers, ascending, each as first and count. Along a run, number and place rise alike.
fn runs(atoms: &[i32]) -> Vec<(usize, usize)> {
    let mut atoms: Vec<usize> = atoms.iter().map(|&atom| atom as usize).collect();
    atoms.sort_unstable();
    let places: Vec<(usize, usize)> = atoms.into_iter().enumerate().collect();
    let run = |run: &[(usize, usize)]| (run[0].1, run.len());
    places.chunk_by(|one, next| one.1 - one.0 == next.1 - next.0).map(run).collect()
}

/// Whether some setting makes all clauses true: the shortest clause's first literal is tried true, then false.
fn satisfiable(clauses: &[Vec<i32>]) -> bool {
    let Some(shortest) = clauses.iter().min_by_key(|clause| clause.len()) else {
        return true;
    };
    let Some(&literal) = shortest.first() else {
        return false;
    };
    [literal, -literal].into_iter().any(|literal| {
        let left = clauses.iter().filter(|clause| !clause.contains(&literal));
        let shorter = |clause: &Vec<i32>| clause.iter().copied().filter(|&other| other != -literal).collect();
        satisfiable(&left.map(shorter).collect::<Vec<_>>())
    })
}

/// All words that are 0 off the mask: the mask itself, then ever smaller ones.
pub fn settings(mask: u64) -> impl Iterator<Item = u64> {
    let smaller = move |word: &u64| word.checked_sub(1).map(|less| less & mask);
    std::iter::successors(Some(mask), smaller)
}
