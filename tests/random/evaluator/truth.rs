//! The truth table of a sheet's last frame over the variables that it reaches, and ASK and WHY read from it.

use super::sheet::{Kind, Range, Sheet};
use super::words::ascending;

/// More would need tables of more than 8 KiB a frame.
const MOST_VARIABLES: usize = 16;

/// Bit i of a table, counted through its words, is the frame's value under setting i: bit p of i is the p-th variable.
type Table = Vec<u64>;

pub struct Truth {
    /// The variables open in the last frame.
    pub open: u64,
    /// The variables that a 07 frame names, reached or not.
    gauges: u64,
    /// The reached ones, ascending.
    variables: Vec<u8>,
    last: Table,
}

impl Truth {
    pub fn of(sheet: &Sheet) -> Truth {
        let reached = reached(&sheet.frames);
        let variables = reached_variables(&sheet.frames, &reached);
        assert!(variables.len() <= MOST_VARIABLES, "a sheet of {} variables", variables.len());
        let mut tables: Vec<Table> = Vec::new();
        for (kind, reached) in sheet.frames.iter().zip(reached) {
            let table = if reached { table(*kind, &tables, &variables) } else { Vec::new() };
            tables.push(table);
        }
        Truth { open: sheet.open, gauges: sheet.gauges, variables, last: tables.pop().unwrap() }
    }

    /// ASK: the verdict and the word. It is yes if, whatever the gauges not entered are, there is a word; that of a yes
    /// has them at 0, and that of a no is their smallest setting for which there is none.
    pub fn ask(&self, entered: u64, values: u64) -> (bool, u64) {
        let gauges = self.gauges & self.open & !entered;
        let smallest = |setting: u64| self.smallest(entered | gauges, values | setting);
        match ascending(gauges).find(|&setting| smallest(setting).is_none()) {
            Some(failing) => (false, failing),
            None => (true, smallest(0).expect("there is one for every setting")),
        }
    }

    /// The smallest word that agrees with the values on the mask, makes the last frame true and is 0 off its open
    /// variables.
    fn smallest(&self, mask: u64, values: u64) -> Option<u64> {
        ascending(self.open & !mask).map(|others| values | others).find(|&word| self.value(word))
    }

    /// WHY: ASK's verdict and the mask of what is left.
    pub fn why(&self, entered: u64, values: u64) -> (bool, u64) {
        if self.gauges != 0 {
            return self.why_of_entries(entered, values);
        }
        let (verdict, word) = self.ask(entered, values);
        let (mut left, values) = if verdict { (self.open, word) } else { (entered, values) };
        for variable in (0..64).rev() {
            let dropped = left & !(1 << variable);
            if dropped != left && self.always(dropped, values, verdict) {
                left = dropped;
            }
        }
        (verdict, left)
    }

    /// All settings that agree with the values on the mask give the last frame that truth.
    fn always(&self, mask: u64, values: u64, truth: bool) -> bool {
        ascending(self.open & !mask).all(|others| self.value(values & mask | others) == truth)
    }

    /// WHY on a sheet with a 07 frame: of the entries alone, and a dropped one stays entered, with either value.
    fn why_of_entries(&self, entered: u64, values: u64) -> (bool, u64) {
        let verdict = self.ask(entered, values).0;
        let mut left = entered;
        for variable in (0..64).rev() {
            let kept = left & !(1 << variable);
            let same = |others: u64| self.ask(entered, values & kept | others).0 == verdict;
            if kept != left && ascending(entered & !kept).all(same) {
                left = kept;
            }
        }
        (verdict, left)
    }

    /// Whether the last frame is true under some settings and false under others.
    pub fn varies(&self) -> bool {
        let is = |bits: u64| self.last.iter().all(|&word| word == bits);
        !is(0) && !is(u64::MAX)
    }

    /// The last frame's value under a setting.
    fn value(&self, setting: u64) -> bool {
        let bits = self.variables.iter().enumerate();
        let index = bits.fold(0, |index, (position, variable)| index | (setting >> variable & 1) << position);
        self.last[index as usize / 64] >> (index % 64) & 1 == 1
    }
}

/// Which frames the last one names, directly or through others, itself included.
pub fn reached(frames: &[Kind]) -> Vec<bool> {
    let mut reached = vec![false; frames.len()];
    *reached.last_mut().unwrap() = true;
    for number in (0..frames.len()).rev() {
        if !reached[number] {
            continue;
        }
        match frames[number] {
            Kind::Never | Kind::Input { .. } => {}
            Kind::Not { frame } | Kind::Exists { frame, .. } | Kind::Forall { frame, .. } => reached[frame] = true,
            Kind::And { left, right } | Kind::Or { left, right } => {
                reached[left] = true;
                reached[right] = true;
            }
        }
    }
    reached
}

/// The variables of the reached INPUT frames, ascending. Any other variable changes no reached frame's value.
fn reached_variables(frames: &[Kind], reached: &[bool]) -> Vec<u8> {
    let mut variables = Vec::new();
    for (kind, &reached) in frames.iter().zip(reached) {
        if let (Kind::Input { variable }, true) = (*kind, reached) {
            variables.push(variable);
        }
    }
    variables.sort_unstable();
    variables.dedup();
    variables
}

fn table(kind: Kind, tables: &[Table], variables: &[u8]) -> Table {
    let words = (1usize << variables.len()).div_ceil(64);
    match kind {
        Kind::Never => vec![0; words],
        Kind::Input { variable } => {
            let position = variables.iter().position(|&v| v == variable).unwrap();
            (0..words).map(|word| input_word(position, word)).collect()
        }
        Kind::Not { frame } => tables[frame].iter().map(|word| !word).collect(),
        Kind::And { left, right } => combine(&tables[left], &tables[right], |x, y| x & y),
        Kind::Or { left, right } => combine(&tables[left], &tables[right], |x, y| x | y),
        Kind::Exists { frame, binds } => quantify(&tables[frame], variables, binds, |x, y| x | y),
        Kind::Forall { frame, binds } => quantify(&tables[frame], variables, binds, |x, y| x & y),
    }
}

/// In the table of the variable at a position below 6 every word is the same; above, whole words alternate.
fn input_word(position: usize, word: usize) -> u64 {
    if position < 6 {
        (0..64).fold(0, |bits, index: u64| bits | (index >> position & 1) << index)
    } else if word >> (position - 6) & 1 == 1 {
        u64::MAX
    } else {
        0
    }
}

fn combine(left: &Table, right: &Table, gate: fn(u64, u64) -> u64) -> Table {
    left.iter().zip(right).map(|(&x, &y)| gate(x, y)).collect()
}

/// One bound variable after the other: a table with itself, the variable flipped.
fn quantify(table: &Table, variables: &[u8], binds: Range, gate: fn(u64, u64) -> u64) -> Table {
    let mut table = table.clone();
    for (position, variable) in variables.iter().enumerate() {
        if binds.variables().contains(variable) {
            table = combine(&table, &flipped(&table, position), gate);
        }
    }
    table
}

/// The value under setting i moves to the setting that differs from i at the position.
fn flipped(table: &Table, position: usize) -> Table {
    if position >= 6 {
        return (0..table.len()).map(|word| table[word ^ 1 << (position - 6)]).collect();
    }
    let set = input_word(position, 0);
    let shift = 1 << position;
    table.iter().map(|word| (word & set) >> shift | (word & !set) << shift).collect()
}
