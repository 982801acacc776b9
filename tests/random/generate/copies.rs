//! Other sheets for an accepted one: of the same formula, and with something changed.

use super::damage::frames;
use crate::evaluator::form::Form;
use crate::evaluator::sheet::{self, named, naming, Kind, Sheet};
use crate::evaluator::truth::reached;
use crate::rng::Rng;

/// An accepted sheet of the same formula: its frames in another order and some of them more than once, some of those that
/// nothing reaches left out, and others put in. No quantifier comes twice, and no variable is used in a new way.
pub fn copy(rng: &mut Rng, form: Form, sheet: &[u8]) -> Vec<u8> {
    let old = frames(form, sheet);
    let checked = sheet::check(form, sheet).expect("an accepted sheet");
    let last = old.len() - 1;
    let mut left = copies(rng, &old, &checked);
    let mut turns: Vec<usize> = (0..last).flat_map(|frame| vec![frame; left[frame]]).collect();
    rng.shuffle(&mut turns);
    let mut strays =
        Strays { form, room: form.most_frames() - 1 - turns.len(), percent: 0, uses: Uses::of(&checked, &old) };
    strays.percent = rng.pick(&[0, 0, 5, 30, 100]);
    let mut new: Vec<[u16; 4]> = Vec::new();
    let mut numbers = Numbers(vec![Vec::new(); old.len()]);
    for turn in turns {
        // What a frame names comes first, either side before the other.
        let mut path = if left[turn] > 0 { vec![turn] } else { Vec::new() };
        while let Some(&frame) = path.last() {
            let missing: Vec<u16> = named(old[frame]).into_iter().filter(|&side| numbers.lacks(side)).collect();
            if missing.is_empty() {
                path.pop();
                left[frame] -= 1;
                let fields = naming(old[frame], |side| numbers.some(rng, side));
                numbers.0[frame].push(new.len() as u16);
                new.push(fields);
                new.extend(strays.some(rng, new.len()));
            } else {
                path.push(rng.pick(&missing).into());
            }
        }
    }
    new.push(naming(old[last], |side| numbers.some(rng, side)));
    new.into_iter().flat_map(|frame| form.bytes(frame)).collect()
}

/// The new numbers of each old frame, those that were named before the others.
struct Numbers(Vec<Vec<u16>>);

impl Numbers {
    fn lacks(&self, frame: u16) -> bool {
        self.0[usize::from(frame)].is_empty()
    }

    /// One of the frame's numbers, more often one that was not named for long.
    fn some(&mut self, rng: &mut Rng, frame: u16) -> u16 {
        let numbers = &mut self.0[usize::from(frame)];
        let place = if rng.percent(75) { numbers.len() - 1 } else { rng.below(numbers.len()) };
        let number = numbers.remove(place);
        numbers.insert(0, number);
        number
    }
}

/// How often each frame is to come; all together, with the last one, they are no more than there may be.
fn copies(rng: &mut Rng, old: &[[u16; 4]], sheet: &Sheet) -> Vec<usize> {
    let mut copies = reached(&sheet.frames).into_iter().map(usize::from).collect::<Vec<_>>();
    let unreached = rng.pick(&[0, 50, 100]);
    for frame in (0..old.len()).rev() {
        if copies[frame] == 0 && rng.percent(unreached) {
            copies[frame] = 1;
        }
        if copies[frame] == 1 {
            named(old[frame]).into_iter().for_each(|side| copies[usize::from(side)] = 1);
        }
    }
    let mut room = sheet.form.most_frames() - copies.iter().sum::<usize>();
    let twice = rng.pick(&[0, 10, 50, 100]);
    for frame in 0..old.len() - 1 {
        let quantifier = matches!(sheet.frames[frame], Kind::Exists { .. } | Kind::Forall { .. });
        while copies[frame] > 0 && copies[frame] < 4 && room > 0 && !quantifier && rng.percent(twice) {
            copies[frame] += 1;
            room -= 1;
            if rng.percent(60) {
                break;
            }
        }
    }
    copies
}

/// Frames that nothing but others of them names.
struct Strays {
    form: Form,
    room: usize,
    percent: usize,
    uses: Uses,
}

/// What variables are used as, by masks.
struct Uses {
    open: u64,
    inputs: u64,
    gauges: u64,
    bound: u64,
}

impl Uses {
    fn of(sheet: &Sheet, frames: &[[u16; 4]]) -> Uses {
        let (mut inputs, mut bound) = (0, 0);
        for (kind, fields) in sheet.frames.iter().zip(frames) {
            match kind {
                Kind::Input { variable } if fields[0] == 0x01 => inputs |= 1 << variable,
                Kind::Exists { binds, .. } | Kind::Forall { binds, .. } => bound |= binds.mask(),
                _ => {}
            }
        }
        Uses { open: sheet.open, inputs, gauges: sheet.gauges, bound }
    }
}

impl Strays {
    /// A frame, or none, behind so many.
    fn some(&mut self, rng: &mut Rng, before: usize) -> Option<[u16; 4]> {
        if self.room == 0 || !rng.percent(self.percent) {
            return None;
        }
        self.room -= 1;
        let Uses { open, inputs, gauges, bound } = self.uses;
        let (one, other) = (rng.below(before) as u16, rng.below(before) as u16);
        let stray = match rng.below(10) {
            0 => self.unused(rng, gauges).map(|variable| {
                self.uses.inputs |= 1 << variable;
                [0x01, variable, 0, 0]
            }),
            1 => self.unused(rng, inputs | bound).map(|variable| {
                self.uses.gauges |= 1 << variable;
                [0x07, variable, 0, 0]
            }),
            2 => self.unused(rng, open | gauges | bound).map(|variable| {
                self.uses.bound |= 1 << variable;
                [rng.pick(&[0x05, 0x06]), one, variable, 1]
            }),
            3 => None,
            4..=5 => Some([0x02, one, 0, 0]),
            _ => Some([rng.pick(&[0x03, 0x04]), one, other, 0]),
        };
        Some(stray.unwrap_or([0x00, 0, 0, 0]))
    }

    /// A variable outside the mask.
    fn unused(&self, rng: &mut Rng, mask: u64) -> Option<u16> {
        let variables: Vec<u16> =
            (0..self.form.variables().into()).filter(|variable| mask >> variable & 1 == 0).collect();
        if variables.is_empty() {
            None
        } else {
            Some(rng.pick(&variables))
        }
    }
}

/// The sheet with something changed in one frame, most often a reached one, or in all frames of a variable: mostly of
/// another formula. It is accepted, or there is none.
pub fn changed(rng: &mut Rng, form: Form, sheet: &[u8]) -> Option<Vec<u8>> {
    let old = frames(form, sheet);
    let reached = reached(&sheet::check(form, sheet).expect("an accepted sheet").frames);
    (0..20).find_map(|_| {
        let place = rng.below(old.len());
        if !reached[place] && rng.percent(80) {
            return None;
        }
        let sheet: Vec<u8> = change(rng, form, &old, place).into_iter().flat_map(|frame| form.bytes(frame)).collect();
        sheet::check(form, &sheet).is_ok().then_some(sheet)
    })
}

/// A gauge becomes an input, or an input a gauge; an input has another variable; the sides of a gate change places; a kind
/// becomes the other one; a quantifier binds others; another frame is named.
fn change(rng: &mut Rng, form: Form, old: &[[u16; 4]], place: usize) -> Vec<[u16; 4]> {
    let mut frames = old.to_vec();
    let [k, a, b, c] = frames[place];
    let variable = rng.below(form.variables().into()) as u16;
    let earlier = rng.below(place.max(1)) as u16;
    frames[place] = match (k, rng.below(6)) {
        (0x00, _) => [0x01, variable, 0, 0],
        (0x01 | 0x07, 0..=3) => {
            let uses = frames.iter_mut().filter(|frame| matches!(frame[0], 0x01 | 0x07) && frame[1] == a);
            uses.for_each(|frame| frame[0] ^= 0x01 ^ 0x07);
            frames[place]
        }
        (0x01 | 0x07, _) => [k, variable, b, c],
        (0x03 | 0x04, 0..=1) => [k, b, a, c],
        (0x03 | 0x04, 2) => [k ^ 0x03 ^ 0x04, a, b, c],
        (0x03 | 0x04, 3) => [k, a, earlier, c],
        (0x05 | 0x06, 0..=1) => [k ^ 0x05 ^ 0x06, a, b, c],
        (0x05 | 0x06, 2) => [k, a, b, c + 1],
        (0x05 | 0x06, 3) => [k, a, variable, 1],
        _ => [k, earlier, b, c],
    };
    frames
}
