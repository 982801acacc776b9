//! The count of checks, the first failures in words, and what the runs met.

use crate::evaluator::form::{Form, LINE};
use crate::evaluator::normal::{normal, same_tree};
use crate::evaluator::question::{self, Cause};
use crate::evaluator::sheet::{self, named, Refusal};
use crate::evaluator::text::{self, Reading};
use crate::evaluator::truth::reached;
use crate::evaluator::Call;

/// Reports beyond these are counted only.
const MOST_REPORTS: usize = 5;

#[derive(Default)]
pub struct Tally {
    pub passed: u64,
    pub failed: u64,
    /// Each with its run's number.
    reports: Vec<(u64, String)>,
    pub met: Met,
}

impl Tally {
    pub fn check(&mut self, run: u64, holds: bool, report: impl FnOnce() -> String) {
        if holds {
            self.passed += 1;
            return;
        }
        self.failed += 1;
        if self.reports.len() < MOST_REPORTS {
            self.reports.push((run, report()));
        }
    }

    pub fn add(&mut self, other: Tally) {
        self.passed += other.passed;
        self.failed += other.failed;
        self.reports.extend(other.reports);
        self.met.add(&other.met);
    }

    /// Prints the first failures of a group.
    pub fn tell(&mut self, group: &str) {
        self.reports.sort();
        for (run, report) in self.reports.drain(..).take(MOST_REPORTS) {
            println!("FAILED {group}, run {run}: {report}");
        }
    }
}

/// The numbers that a call or a line is refused by; a text has two more.
const REFUSALS: [u8; 19] = [2, 3, 4, 5, 6, 7, 8, 9, 22, 23, 10, 11, 12, 13, 14, 15, 16, 17, 24];
/// What only a text is refused by.
const TEXT_REFUSALS: [u8; 2] = [1, 29];

/// How often what is to come up came up in the expected answers: for each form of sheets, in the converter's texts, and
/// in questions.
#[derive(Default)]
pub struct Met {
    narrow: MetOfForm,
    wide: MetOfForm,
    /// Texts given to the converter, in the order of their ends' list.
    widened: [u64; WIDENED.len()],
    /// Texts of questions, in the order of their ends' list.
    ends: [u64; ENDS.len()],
}

/// Each refusal, each kind of question with each verdict, entries of desks other than 0, random texts of each case and
/// ending and with each refusal.
#[derive(Default)]
struct MetOfForm {
    /// In the order of the numbers' list.
    refusals: [u64; REFUSALS.len()],
    text_refusals: [u64; TEXT_REFUSALS.len()],
    /// TAKE BACK and READ of an entry by a desk other than 0.
    desks: [u64; 2],
    questions: Questions,
    /// Those on sheets with gauges, in the order of the states' list.
    gauges: [Questions; GAUGES.len()],
    /// Texts with no letter, capitals, lower case, both; with no ending, 0A, 0D 0A, both. Each refused and accepted.
    texts: [[u64; 2]; 8],
    /// Texts given to the writer of normal sheets, and pairs of them, in the order of the names' list.
    normal: [u64; NORMAL.len()],
    /// What is above a narrow sheet: the words of ASK and WHY, the word of a no, the place of a refusal, of one by 22,
    /// and of one by 23, and a frame named in a normal sheet.
    above: [u64; 7],
}

/// ASK no and yes, WHY no and yes, each with word 0 and with another.
type Questions = [u64; QUESTIONS.len()];
const QUESTIONS: [&str; 8] = [
    "ASK no, word 0",
    "ASK no",
    "ASK yes, word 0",
    "ASK yes",
    "WHY no, mask 0",
    "WHY no",
    "WHY yes, mask 0",
    "WHY yes",
];
const NO_WITH_WORD: usize = 1;

/// What a sheet's gauges are when a question comes, if it has any.
const GAUGES: [&str; 3] = ["a gauge not entered", "each open gauge entered", "no gauge open"];
const NOT_ENTERED: usize = 0;
const ENTERED: usize = 1;
const NONE_OPEN: usize = 2;

/// How the text of a question ends, and its name.
const ENDS: [(Option<Cause>, &str); 6] = [
    (None, "a question taken"),
    (Some(Cause::Text), "a question refused by 18 for its text"),
    (Some(Cause::Variables), "a question refused by 19 for its variables"),
    (Some(Cause::Frames), "a question refused by 19 for its frames"),
    (Some(Cause::AlwaysTrue), "a question refused by 18 as always true"),
    (Some(Cause::AlwaysFalse), "a question refused by 18 as always false"),
];

/// How the text given to the converter ends.
const WIDENED: [&str; 5] = [
    "a text widened",
    "a text not widened for a line's shape",
    "a text not widened for a line of the other form",
    "a text not widened for its sheet",
    "a wide text not widened",
];

/// What the writer of normal sheets meets: in an accepted sheet, in a text that it refuses, in two sheets.
const NORMAL: [&str; 9] = [
    "a sheet with equal frames",
    "a sheet with frames that nothing reaches",
    "a sheet that is normal already",
    "a normal sheet with a gauge",
    "a text without a normal sheet for a line's shape",
    "a text without a normal sheet for a line of the other form",
    "a text without a normal sheet for its sheet",
    "two sheets of one formula",
    "two sheets of two formulas",
];

const ABOVE: [&str; 7] = [
    "ASK with a word above 32 bits",
    "WHY with a mask above 32 bits",
    "ASK no with a word above 32 bits",
    "a place above 255",
    "a place above 255 of 22",
    "a place above 255 of 23",
    "a normal sheet that names a frame above 255",
];

impl Met {
    fn of(&mut self, form: Form) -> &mut MetOfForm {
        match form {
            Form::Narrow => &mut self.narrow,
            Form::Wide => &mut self.wide,
        }
    }

    pub fn note(&mut self, call: Call, expected: &Result<Vec<u8>, Refusal>) {
        let met = self.of(call.form);
        match expected {
            Err(refusal) => met.note_refusal(refusal.number, refusal.place),
            Ok(answers) => {
                let sheet = sheet::check(call.form, call.sheet).expect("an accepted sheet");
                let mut entered = 0;
                for (line, answer) in call.script.chunks_exact(LINE).zip(answers.chunks_exact(call.form.answer())) {
                    let gauges = match sheet.gauges & sheet.open {
                        _ if sheet.gauges == 0 => None,
                        0 => Some(NONE_OPEN),
                        open => Some(if open & !entered == 0 { ENTERED } else { NOT_ENTERED }),
                    };
                    met.note_answer(line[0], answer, gauges);
                    match (answer[0], line[0]) {
                        (0, 0x10) => entered |= 1 << line[1],
                        (0, 0x11) => entered &= !(1 << answer[1]),
                        _ => {}
                    }
                }
            }
        }
    }

    /// Notes a text by its letters, by its endings, and by what it is refused by.
    pub fn note_text(&mut self, text: &[u8]) {
        let Reading { form, parts } = text::read(text);
        self.of(form).note_text(text, parts.err().map(|refusal| refusal.number));
    }

    /// Notes a text that the converter is given.
    pub fn note_widened(&mut self, text: &[u8]) {
        let place = match (text::read(text).form, text::widened_parts(text)) {
            (Form::Wide, _) => 4,
            (_, Ok(_)) => 0,
            (_, Err(Refusal { number: 1, .. })) => 1,
            (_, Err(Refusal { number: 29, .. })) => 2,
            _ => 3,
        };
        self.widened[place] += 1;
    }

    /// Notes a text that the writer of normal sheets is given.
    pub fn note_normal(&mut self, text: &[u8]) {
        let Reading { form, parts } = text::read(text);
        let written = parts.and_then(|(sheet, _)| Ok((normal(form, &sheet)?, sheet)));
        let met = self.of(form);
        match written {
            Ok((normal, sheet)) => met.note_normal(form, &sheet, &normal),
            Err(Refusal { number: 1, .. }) => met.normal[4] += 1,
            Err(Refusal { number: 29, .. }) => met.normal[5] += 1,
            Err(_) => met.normal[6] += 1,
        }
    }

    /// Notes two accepted sheets that are not the same bytes.
    pub fn note_pair(&mut self, form: Form, one: &[u8], other: &[u8]) {
        let place = if same_tree(form, one, other) { 7 } else { 8 };
        self.of(form).normal[place] += u64::from(one != other);
    }

    /// Notes the text of a question.
    pub fn note_question(&mut self, text: &[u8]) {
        let cause = question::sheet(text).err();
        let place = ENDS.iter().position(|(end, _)| *end == cause).expect("a listed end");
        self.ends[place] += 1;
    }

    fn add(&mut self, other: &Met) {
        self.narrow.add(&other.narrow);
        self.wide.add(&other.wide);
        add(&mut self.widened, &other.widened);
        add(&mut self.ends, &other.ends);
    }

    /// What came up fewer than so many times, of all that can.
    pub fn lacks(&self, least: u64) -> Vec<String> {
        let mut lacks = Lacks { least, found: Vec::new() };
        for (form, met) in [("narrow", &self.narrow), ("wide", &self.wide)] {
            let mut of_form = Lacks { least, found: Vec::new() };
            met.lacks(&mut of_form);
            lacks.found.extend(of_form.found.iter().map(|lack| format!("{form}: {lack}")));
        }
        lacks.among(&ABOVE, &self.wide.above);
        lacks.among(&WIDENED, &self.widened);
        lacks.among(&ENDS.map(|(_, name)| name), &self.ends);
        lacks.found
    }
}

impl MetOfForm {
    fn note_refusal(&mut self, number: u8, place: u16) {
        let listed = REFUSALS.iter().position(|&listed| listed == number).expect("a listed refusal");
        self.refusals[listed] += 1;
        for (place_above, of) in [(3, true), (4, number == 22), (5, number == 23)] {
            self.above[place_above] += u64::from(place > 255 && of);
        }
    }

    /// Notes an accepted sheet and its normal sheet.
    fn note_normal(&mut self, form: Form, sheet: &[u8], normal: &[u8]) {
        let reached = reached(&sheet::check(form, sheet).expect("an accepted sheet").frames);
        let reached = reached.iter().filter(|&&reached| reached).count();
        let frames = |sheet: &[u8]| sheet.len() / form.frame();
        let fields: Vec<[u16; 4]> = normal.chunks_exact(form.frame()).map(|frame| form.fields(frame)).collect();
        let met = [
            frames(normal) < reached,
            reached < frames(sheet),
            normal == sheet,
            fields.iter().any(|fields| fields[0] == 0x07),
        ];
        add(&mut self.normal, &met.map(u64::from));
        self.above[6] += u64::from(fields.iter().flat_map(|&fields| named(fields)).any(|frame| frame > 255));
    }

    /// Notes the answer to a line of this kind, given with this state of the sheet's gauges.
    fn note_answer(&mut self, kind: u8, answer: &[u8], gauges: Option<usize>) {
        let word = answer[2..].iter().fold(0, |word, &byte| word << 8 | u64::from(byte));
        match (answer[0], kind) {
            (0, 0x11 | 0x12) => self.desks[usize::from(kind - 0x11)] += u64::from(word >= 256),
            (0, 0x13 | 0x14) => {
                let which = usize::from(kind - 0x13);
                let question = 4 * which + 2 * usize::from(answer[1]) + usize::from(word != 0);
                self.questions[question] += 1;
                if let Some(state) = gauges {
                    self.gauges[state][question] += 1;
                }
                let above = u64::from(word > u32::MAX.into());
                self.above[which] += above;
                self.above[2] += u64::from(question == NO_WITH_WORD) * above;
            }
            (0, _) => {}
            (number, _) => self.note_refusal(number, 0),
        }
    }

    fn note_text(&mut self, text: &[u8], refusal: Option<u8>) {
        let letters = [text.iter().any(u8::is_ascii_uppercase), text.iter().any(u8::is_ascii_lowercase)];
        let lines = text.iter().filter(|&&byte| byte == b'\n').count();
        let carriage_returns = text.windows(2).filter(|pair| pair == b"\r\n").count();
        let endings = [carriage_returns < lines, carriage_returns > 0];
        for (start, [one, other]) in [(0, letters), (4, endings)] {
            self.texts[start + usize::from(one) + 2 * usize::from(other)][usize::from(refusal.is_none())] += 1;
        }
        if let Some(place) = TEXT_REFUSALS.iter().position(|&listed| Some(listed) == refusal) {
            self.text_refusals[place] += 1;
        }
    }

    fn add(&mut self, other: &MetOfForm) {
        add(&mut self.refusals, &other.refusals);
        add(&mut self.text_refusals, &other.text_refusals);
        add(&mut self.desks, &other.desks);
        add(&mut self.questions, &other.questions);
        add(self.gauges.as_flattened_mut(), other.gauges.as_flattened());
        add(self.texts.as_flattened_mut(), other.texts.as_flattened());
        add(&mut self.normal, &other.normal);
        add(&mut self.above, &other.above);
    }

    /// A no has a word only if a gauge is not entered. Texts without a letter or an ending are not asked for.
    fn lacks(&self, lacks: &mut Lacks) {
        lacks.among(&REFUSALS.map(|number| format!("refusal {number}")), &self.refusals);
        lacks.among(&TEXT_REFUSALS.map(|number| format!("a text refused by {number}")), &self.text_refusals);
        let of_desk = ["TAKE BACK", "READ"].map(|name| format!("{name} of an entry by a desk other than 0"));
        lacks.among(&of_desk, &self.desks);
        lacks.among(&QUESTIONS, &self.questions);
        for (state, counts) in self.gauges.iter().enumerate() {
            let mut names = QUESTIONS.map(|name| format!("{name}, with {}", GAUGES[state]));
            if state != NOT_ENTERED {
                names[NO_WITH_WORD].clear();
            }
            lacks.among(&names, counts);
        }
        let names = ["", "capitals", "lower case", "both cases", "", "0A", "0D 0A", "both endings"];
        for (name, counts) in names.iter().zip(&self.texts).filter(|(name, _)| !name.is_empty()) {
            lacks.among(&["refused", "accepted"].map(|outcome| format!("a text of {name} {outcome}")), counts);
        }
        lacks.among(&NORMAL, &self.normal);
    }
}

fn add(counts: &mut [u64], more: &[u64]) {
    counts.iter_mut().zip(more).for_each(|(count, more)| *count += more);
}

/// What came up fewer than so many times, in words.
struct Lacks {
    least: u64,
    found: Vec<String>,
}

impl Lacks {
    /// Adds those of the named counts that are too small; what has no name is not asked for.
    fn among(&mut self, names: &[impl AsRef<str>], counts: &[u64]) {
        for (name, &count) in names.iter().zip(counts) {
            if count < self.least && !name.as_ref().is_empty() {
                self.found.push(format!("{} {count} times", name.as_ref()));
            }
        }
    }
}
