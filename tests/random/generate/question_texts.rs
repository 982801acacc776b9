//! Texts of questions, in several styles.

use crate::evaluator::question::Question;
use crate::rng::Rng;

/// A text while it is written: comments, then lines of words.
pub struct Draft {
    pub comments: Vec<Vec<u8>>,
    /// The problem line, the sets, the clauses.
    pub lines: Vec<Vec<Vec<u8>>>,
    pub sets: usize,
}

/// Single spaces, and no comments.
pub fn plain(question: &Question) -> Vec<u8> {
    Draft::of(question).text(None)
}

/// In some style: with comments or without, with single spaces or any blanks.
pub fn in_some_style(rng: &mut Rng, question: &Question) -> Vec<u8> {
    if rng.percent(20) {
        return plain(question);
    }
    let mut draft = Draft::of(question);
    draft.comments = comments(rng);
    draft.in_some_style(rng)
}

pub fn comments(rng: &mut Rng) -> Vec<Vec<u8>> {
    let count = rng.pick(&[0, 0, 1, 3]);
    (0..count).map(|_| comment(rng)).collect()
}

/// Anything behind the letter, but for a line's end.
pub fn comment(rng: &mut Rng) -> Vec<u8> {
    let starts: &[&[u8]] = &[b"c", b"c ", b"c a comment", b"cnf 1 1", b"c p cnf 1 1", b"c\r", b"c 1 0", b"c\0", b"cc"];
    let mut comment = rng.pick(starts).to_vec();
    if rng.percent(20) {
        comment.extend(rng.bytes(20).iter().filter(|&&byte| byte != b'\n'));
    }
    comment
}

pub fn digits(number: impl ToString) -> Vec<u8> {
    number.to_string().into_bytes()
}

impl Draft {
    pub fn of(question: &Question) -> Draft {
        let problem = vec![b"p".to_vec(), b"cnf".to_vec(), digits(question.variables), digits(question.clauses.len())];
        let ended = |numbers: &[i32]| numbers.iter().chain(&[0]).map(digits).collect::<Vec<_>>();
        let mut lines = vec![problem];
        for set in &question.sets {
            let letter = if set.forall { b"a" } else { b"e" };
            lines.push([vec![letter.to_vec()], ended(&set.atoms)].concat());
        }
        lines.extend(question.clauses.iter().map(|clause| ended(clause)));
        Draft { comments: Vec::new(), lines, sets: question.sets.len() }
    }

    pub fn in_some_style(&self, rng: &mut Rng) -> Vec<u8> {
        let any_blanks = rng.percent(60);
        self.text(any_blanks.then_some(rng))
    }

    /// One space between words; with random numbers, any blanks there and at the lines' ends.
    fn text(&self, mut rng: Option<&mut Rng>) -> Vec<u8> {
        let mut blanks = |least: usize| -> Vec<u8> {
            match &mut rng {
                Some(rng) => (0..rng.between(least, 2)).map(|_| rng.pick(b"  \t")).collect(),
                None => vec![b' '; least],
            }
        };
        let mut text: Vec<u8> = self.comments.iter().flat_map(|comment| [comment, &b"\n"[..]].concat()).collect();
        for line in &self.lines {
            text.extend(blanks(0));
            for (place, word) in line.iter().enumerate() {
                text.extend(blanks(usize::from(place > 0)));
                text.extend(word);
            }
            text.extend(blanks(0));
            text.push(b'\n');
        }
        text
    }
}
