//! Sheet frames, their open variables and gauges (documents/02-change-requests.md), and the refusals 6 to 11, 22 and 23.

use super::form::Form;

#[derive(Clone, Copy, Debug, PartialEq, Eq)]
pub struct Refusal {
    pub number: u8,
    pub place: u16,
}

/// An INPUT is of kind 01 or 07: a gauge has the same truth and open variable.
#[derive(Clone, Copy, Debug)]
pub enum Kind {
    Never,
    Input { variable: u8 },
    Not { frame: usize },
    And { left: usize, right: usize },
    Or { left: usize, right: usize },
    Exists { frame: usize, binds: Range },
    Forall { frame: usize, binds: Range },
}

/// The variables `first .. first + count`.
#[derive(Clone, Copy, Debug)]
pub struct Range {
    pub first: u8,
    pub count: u8,
}

impl Range {
    pub fn variables(self) -> std::ops::Range<u8> {
        self.first..self.first + self.count
    }

    /// Bit k is variable k.
    pub fn mask(self) -> u64 {
        self.variables().fold(0, |mask, variable| mask | 1 << variable)
    }
}

/// An accepted sheet.
pub struct Sheet {
    pub form: Form,
    pub frames: Vec<Kind>,
    /// The variables open in the last frame.
    pub open: u64,
    /// The variables that a 07 frame names, reached or not.
    pub gauges: u64,
}

/// Frame by frame 6 to 9, 22, 23 and 10, then 11. The sheet has whole frames, at least one and not too many.
pub fn check(form: Form, sheet: &[u8]) -> Result<Sheet, Refusal> {
    let mut frames = Vec::new();
    let mut open = Vec::new();
    let mut uses = Uses::default();
    for (number, frame) in sheet.chunks_exact(form.frame()).enumerate() {
        let refused = |cause| Refusal { number: cause, place: number as u16 };
        let fields = form.fields(frame);
        let kind = decode(form, number, fields).map_err(refused)?;
        let own = Uses::of(fields[0], kind);
        if let Some(cause) = uses.clash(&own) {
            return Err(refused(cause));
        }
        uses.add(&own);
        open.push(open_variables(kind, &open));
        frames.push(kind);
    }
    let last = frames.len() - 1;
    if open[last] & uses.bound != 0 {
        return Err(Refusal { number: 11, place: last as u16 });
    }
    Ok(Sheet { form, frames, open: open[last], gauges: uses.gauges })
}

/// What frames use variables as: the masks of those named by 01, named by 07, and bound.
#[derive(Default)]
struct Uses {
    inputs: u64,
    gauges: u64,
    bound: u64,
}

impl Uses {
    /// Of one frame, K and the kind.
    fn of(k: u16, kind: Kind) -> Uses {
        match (k, kind) {
            (0x07, Kind::Input { variable }) => Uses { gauges: 1 << variable, ..Uses::default() },
            (_, Kind::Input { variable }) => Uses { inputs: 1 << variable, ..Uses::default() },
            (_, Kind::Exists { binds, .. } | Kind::Forall { binds, .. }) => {
                Uses { bound: binds.mask(), ..Uses::default() }
            }
            _ => Uses::default(),
        }
    }

    /// The first of 22, 23, 10 that a frame meets with those before it.
    fn clash(&self, frame: &Uses) -> Option<u8> {
        if frame.inputs & self.gauges != 0 || frame.gauges & self.inputs != 0 {
            Some(22)
        } else if frame.gauges & self.bound != 0 || frame.bound & self.gauges != 0 {
            Some(23)
        } else if frame.bound & self.bound != 0 {
            Some(10)
        } else {
            None
        }
    }

    fn add(&mut self, frame: &Uses) {
        self.inputs |= frame.inputs;
        self.gauges |= frame.gauges;
        self.bound |= frame.bound;
    }
}

/// The frame's kind with its fields, or the first of 6, 7, 8, 9.
fn decode(form: Form, number: usize, [k, a, b, c]: [u16; 4]) -> Result<Kind, u8> {
    let spare = match k {
        0x00 => a | b | c,
        0x01 | 0x02 | 0x07 => b | c,
        0x03 | 0x04 => c,
        0x05 | 0x06 => 0,
        _ => return Err(6),
    };
    if spare != 0 {
        return Err(7);
    }
    let names_a = (0x02..=0x06).contains(&k) && usize::from(a) >= number;
    let names_b = (k == 0x03 || k == 0x04) && usize::from(b) >= number;
    if names_a || names_b {
        return Err(8);
    }
    let variables = u16::from(form.variables());
    let range_broken = match k {
        0x01 | 0x07 => a >= variables,
        0x05 | 0x06 => !(1..=variables).contains(&c) || u32::from(b) + u32::from(c) > u32::from(variables),
        _ => false,
    };
    if range_broken {
        return Err(9);
    }
    let (frame, left, right) = (usize::from(a), usize::from(a), usize::from(b));
    let binds = Range { first: b as u8, count: c as u8 };
    Ok(match k {
        0x00 => Kind::Never,
        0x01 | 0x07 => Kind::Input { variable: a as u8 },
        0x02 => Kind::Not { frame },
        0x03 => Kind::And { left, right },
        0x04 => Kind::Or { left, right },
        0x05 => Kind::Exists { frame, binds },
        _ => Kind::Forall { frame, binds },
    })
}

/// `open` holds the open variables of all earlier frames.
pub fn open_variables(kind: Kind, open: &[u64]) -> u64 {
    match kind {
        Kind::Never => 0,
        Kind::Input { variable } => 1 << variable,
        Kind::Not { frame } => open[frame],
        Kind::And { left, right } | Kind::Or { left, right } => open[left] | open[right],
        Kind::Exists { frame, binds } | Kind::Forall { frame, binds } => open[frame] & !binds.mask(),
    }
}

/// The frames that a frame names by its fields, A's first.
pub fn named(fields: [u16; 4]) -> Vec<u16> {
    match fields {
        [0x02 | 0x05 | 0x06, a, _, _] => vec![a],
        [0x03 | 0x04, a, b, _] => vec![a, b],
        _ => Vec::new(),
    }
}

/// The fields with another number for each frame that they name, A's first.
pub fn naming(fields: [u16; 4], mut number: impl FnMut(u16) -> u16) -> [u16; 4] {
    match fields {
        [k @ (0x02 | 0x05 | 0x06), a, b, c] => [k, number(a), b, c],
        [k @ (0x03 | 0x04), a, b, c] => [k, number(a), number(b), c],
        _ => fields,
    }
}
