//! Random accepted sheets of several shapes.

use super::draft::Draft;
use crate::evaluator::form::Form;
use crate::rng::Rng;

/// The most frames and variables of a sheet. Its solver and its truth table take time by these.
#[derive(Clone, Copy)]
pub struct Size {
    pub frames: usize,
    pub variables: usize,
}

pub const SMALL: Size = Size { frames: 14, variables: 4 };
pub const MIDDLE: Size = Size { frames: 50, variables: 8 };
pub const LARGE: Size = Size { frames: 200, variables: 12 };
/// For wide sheets alone: with frames named by both bytes of a field, and as many as there may be.
pub const LARGER: Size = Size { frames: 700, variables: 12 };
pub const LARGEST: Size = Size { frames: 3000, variables: 12 };

/// A sheet without gauges.
pub fn sheet(rng: &mut Rng, form: Form, size: Size) -> Vec<u8> {
    let frames = upper(rng, size.frames);
    if frames == 1 {
        return single(rng, form, 0);
    }
    let count = upper(rng, size.variables);
    let variables = variables(rng, form, count);
    let mut draft = Draft::new(form, frames, 0);
    shaped(rng, &mut draft, &variables);
    finish(rng, &mut draft, &variables);
    draft.bytes
}

/// A sheet with gauges among its variables, or with one apart from them, or both. The one apart is named by a frame that
/// is seldom reached: the first, or the last but one.
pub fn with_gauges(rng: &mut Rng, form: Form, size: Size) -> Vec<u8> {
    let frames = upper(rng, size.frames);
    if frames == 1 {
        return single(rng, form, u64::MAX);
    }
    let count = upper(rng, size.variables);
    let variables = variables(rng, form, count);
    let unused: Vec<u8> = (0..form.variables()).filter(|variable| !variables.contains(variable)).collect();
    let apart = if frames > 2 && rng.percent(25) { Some(rng.pick(&unused)) } else { None };
    let mut gauges = apart.map_or(0, |variable| 1 << variable);
    if apart.is_none() || rng.percent(60) {
        gauges |= some_of(rng, &variables);
    }
    let mut draft = Draft::new(form, frames - usize::from(apart.is_some()), gauges);
    let first = rng.percent(50);
    if let (Some(variable), true) = (apart, first) {
        draft.input(variable);
    }
    if rng.percent(40) {
        by_gauges(rng, &mut draft, &variables);
    } else {
        shaped(rng, &mut draft, &variables);
    }
    if let (Some(variable), false) = (apart, first) {
        draft.input(variable);
    }
    finish(rng, &mut draft, &variables);
    draft.bytes
}

/// The mask of one of the variables, of a few, or of all.
pub fn some_of(rng: &mut Rng, variables: &[u8]) -> u64 {
    let count = match rng.below(10) {
        0..=4 => 1,
        5..=8 => rng.between(1, variables.len()),
        _ => variables.len(),
    };
    let mut chosen = variables.to_vec();
    rng.shuffle(&mut chosen);
    chosen[..count].iter().fold(0, |mask, variable| mask | 1 << variable)
}

fn shaped(rng: &mut Rng, draft: &mut Draft, variables: &[u8]) {
    match rng.below(10) {
        0..=4 => mixed(rng, draft, variables),
        5..=6 => nested(rng, draft, variables),
        7..=8 => clauses(rng, draft, variables),
        _ => doubled(rng, draft, variables),
    }
}

/// 1 to the most, the upper numbers more often.
fn upper(rng: &mut Rng, most: usize) -> usize {
    rng.between(1, most).max(rng.between(1, most))
}

/// A sheet with two quantified frames that say whether the number of set variables is odd, and whether it is even. Both
/// at once never holds, but a search finds that out by solving them under nearly every setting, which should make more
/// records than the tables take. One setting makes the sheet true all the same. Some or none of the variables are gauges.
pub fn table_filling(rng: &mut Rng, form: Form) -> Vec<u8> {
    let variables = variables(rng, form, 12);
    let (open, bound) = variables.split_at(10);
    let gauges = if rng.percent(50) { some_of(rng, &open[..3]) } else { 0 };
    let mut draft = Draft::new(form, 200, gauges);
    let inputs: Vec<usize> = open.iter().map(|&variable| draft.input(variable)).collect();
    let parity = inputs[1..].iter().fold(inputs[0], |parity, &input| draft.differ(parity, input));
    let first = draft.input(bound[0]);
    let or = draft.or(parity, first);
    let odd = draft.quantifier(true, or, bound[0], 1);
    let second = draft.input(bound[1]);
    let not = draft.not(parity);
    let and = draft.and(not, second);
    let even = draft.quantifier(false, and, bound[1], 1);
    let mut setting = inputs[0];
    for &input in &inputs[1..] {
        let literal = if rng.percent(20) { draft.not(input) } else { input };
        setting = draft.and(setting, literal);
    }
    let both = draft.and(odd, even);
    draft.or(both, setting);
    draft.bytes
}

fn single(rng: &mut Rng, form: Form, gauges: u64) -> Vec<u8> {
    let mut draft = Draft::new(form, 1, gauges);
    if rng.percent(30) {
        draft.never();
    } else {
        draft.input(rng.below(form.variables().into()) as u8);
    }
    draft.bytes
}

/// Distinct variables, in random order: the lowest, the highest, next to each other, or anywhere. Those of a wide sheet
/// are often of both halves of a word.
fn variables(rng: &mut Rng, form: Form, count: usize) -> Vec<u8> {
    let all = usize::from(form.variables());
    let first = match rng.below(4) {
        0 => 0,
        1 => all - count,
        2 if form == Form::Wide => 32 - rng.below(count),
        _ => rng.below(all + 1 - count),
    };
    let mut variables: Vec<u8> = (first as u8..(first + count) as u8).collect();
    if rng.percent(35) {
        variables = (0..form.variables()).collect();
        rng.shuffle(&mut variables);
        variables.truncate(count);
    }
    rng.shuffle(&mut variables);
    variables
}

/// The last frame: usable, and reaching much of the rest.
fn finish(rng: &mut Rng, draft: &mut Draft, variables: &[u8]) {
    let (left, right) = (draft.some_usable(rng), draft.some_usable(rng));
    let (Some(left), Some(right)) = (left, right) else {
        draft.never();
        return;
    };
    let free = variables.iter().copied().find(|&variable| draft.unbound(variable));
    match (rng.below(30), free) {
        (0, _) => draft.never(),
        (1, Some(variable)) => draft.input(variable),
        (2..=8, _) => draft.not(left.max(right)),
        (9..=16, _) => match draft.some_range(rng, draft.open(left)) {
            Some((first, count)) => draft.quantifier(rng.percent(50), left, first, count),
            None => draft.not(left),
        },
        _ => draft.gate(rng, left, right),
    };
}

/// Frames of all kinds in any order, with frames named several times, named twice by one frame, and not reached.
fn mixed(rng: &mut Rng, draft: &mut Draft, variables: &[u8]) {
    for &variable in variables {
        if draft.room() > 2 {
            draft.input(variable);
        }
    }
    while draft.room() > 1 {
        let Some((left, right)) = draft.some_usable(rng).zip(draft.some_usable(rng)) else {
            draft.never();
            continue;
        };
        match rng.below(100) {
            0..=37 => draft.gate(rng, left, right),
            38..=49 => draft.not(left),
            50..=61 if draft.room() > 5 => draft.differ(left, right),
            62..=76 => quantified(rng, draft, left),
            77..=82 => draft.gate(rng, left, left),
            83..=88 => {
                let (left, right) = (draft.some_frame(rng), draft.some_frame(rng));
                draft.gate(rng, left, right)
            }
            89..=91 => idle(rng, draft, variables),
            92 => draft.never(),
            93..=95 => draft.input(rng.pick(variables)),
            _ => draft.or(left, right),
        };
    }
}

/// A quantifier of one of the frame's open variables and perhaps others, if there is one to bind.
fn quantified(rng: &mut Rng, draft: &mut Draft, frame: usize) -> usize {
    match draft.some_range(rng, draft.open(frame)) {
        Some((first, count)) => draft.quantifier(rng.percent(50), frame, first, count),
        None => draft.not(frame),
    }
}

/// A quantifier that binds a variable outside the sheet's INPUT frames, over any frame.
fn idle(rng: &mut Rng, draft: &mut Draft, variables: &[u8]) -> usize {
    let frame = draft.some_frame(rng);
    let unused: Vec<u8> =
        (0..draft.form.variables()).filter(|v| !variables.contains(v) && draft.bindable(*v)).collect();
    if unused.is_empty() {
        return draft.not(frame);
    }
    draft.quantifier(rng.percent(50), frame, rng.pick(&unused), 1)
}

/// A function of all variables, then one quantifier around the other, with other frames between them.
fn nested(rng: &mut Rng, draft: &mut Draft, variables: &[u8]) {
    let mut frame = matrix(rng, draft, variables);
    let free = rng.below(variables.len() + 1);
    let mut forall = rng.percent(50);
    for &variable in &variables[free..] {
        if draft.room() < 10 {
            break;
        }
        if draft.bindable(variable) {
            let (first, count) = draft.some_range(rng, 1 << variable).unwrap_or((variable, 1));
            frame = draft.quantifier(forall, frame, first, count);
            forall = forall != rng.percent(80);
        }
        frame = between(rng, draft, variables, frame);
    }
}

/// The frame, or its NOT, or joined with an INPUT of a variable that is not bound yet; at most seven frames.
fn between(rng: &mut Rng, draft: &mut Draft, variables: &[u8], frame: usize) -> usize {
    let variable = rng.pick(variables);
    match rng.below(4) {
        0 => draft.not(frame),
        1 if draft.unbound(variable) => {
            let literal = draft.literal(rng, variable);
            draft.differ(frame, literal)
        }
        2 if draft.unbound(variable) => {
            let literal = draft.literal(rng, variable);
            draft.gate(rng, frame, literal)
        }
        _ => frame,
    }
}

/// A function of the variables in turn that seldom settles early.
fn matrix(rng: &mut Rng, draft: &mut Draft, variables: &[u8]) -> usize {
    let mut frame = draft.input(variables[0]);
    for &variable in &variables[1..] {
        if draft.room() < 8 {
            break;
        }
        let literal = draft.literal(rng, variable);
        frame = if rng.percent(60) { draft.differ(frame, literal) } else { draft.gate(rng, frame, literal) };
    }
    frame
}

/// Clauses of up to three literals under quantifiers.
fn clauses(rng: &mut Rng, draft: &mut Draft, variables: &[u8]) {
    let mut literals = Vec::new();
    for &variable in variables {
        if draft.room() > 4 {
            let input = draft.input(variable);
            literals.extend([input, draft.not(input)]);
        }
    }
    let prefix = rng.below(variables.len() + 1);
    let mut all = literals.last().copied();
    while all.is_some() && draft.room() > 4 + prefix {
        let mut clause = rng.pick(&literals);
        for _ in 0..rng.below(3) {
            let literal = rng.pick(&literals);
            clause = draft.or(clause, literal);
        }
        all = all.map(|frame| draft.and(frame, clause));
    }
    let Some(mut frame) = all else {
        draft.never();
        return;
    };
    for _ in 0..prefix {
        if draft.room() > 1 {
            frame = quantified(rng, draft, frame);
        }
    }
}

/// A frame of the other variables for each setting of up to three gauges, chosen by these: ASK is yes if each frame can be
/// made true. Without room for that, or without gauges or others, frames of all kinds.
fn by_gauges(rng: &mut Rng, draft: &mut Draft, variables: &[u8]) {
    let (gauges, others): (Vec<u8>, Vec<u8>) = variables.iter().partition(|&&variable| draft.gauge(variable));
    let chosen = |levels: usize| 2 * levels + 3 * ((1 << levels) - 1) + 1;
    let literals_room = draft.room().saturating_sub(2 * others.len());
    let levels = (1..=gauges.len().min(3)).rev().find(|&levels| chosen(levels) < literals_room);
    let (Some(levels), false) = (levels, others.is_empty()) else {
        mixed(rng, draft, variables);
        return;
    };
    let mut literals = Vec::new();
    for &variable in &others {
        let input = draft.input(variable);
        literals.extend([input, draft.not(input)]);
    }
    let mut frames = Vec::new();
    for _ in 0..1 << levels {
        let mut frame = rng.pick(&literals);
        for _ in 0..rng.below(4) {
            if draft.room() > chosen(levels) {
                let literal = rng.pick(&literals);
                frame = if rng.percent(60) { draft.and(frame, literal) } else { draft.or(frame, literal) };
            }
        }
        frames.push(frame);
    }
    for &gauge in &gauges[..levels] {
        let set = draft.input(gauge);
        let clear = draft.not(set);
        frames = frames.chunks_exact(2).map(|pair| draft.chosen(set, pair[0], clear, pair[1])).collect();
    }
}

/// Frames that name the one before twice: the unfolded formula has up to two to the number of frames parts.
fn doubled(rng: &mut Rng, draft: &mut Draft, variables: &[u8]) {
    let mut before = draft.input(variables[0]);
    let mut frame = before;
    while draft.room() > 1 {
        let next = match rng.below(16) {
            0 => draft.not(frame),
            1 if draft.room() > 8 => {
                let variable = rng.pick(variables);
                let literal = draft.literal(rng, variable);
                if draft.unbound(variable) {
                    draft.differ(frame, literal)
                } else {
                    draft.not(frame)
                }
            }
            2 if rng.percent(25) => quantified(rng, draft, frame),
            3..=5 if draft.open(before) & !draft.open(frame) == 0 => draft.gate(rng, before, frame),
            6 if draft.room() > 5 => {
                let negated = draft.not(frame);
                let literal = draft.gate(rng, negated, negated);
                draft.gate(rng, frame, literal)
            }
            _ => draft.gate(rng, frame, frame),
        };
        (before, frame) = (frame, next);
    }
}
