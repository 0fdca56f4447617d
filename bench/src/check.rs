//! Before timing: every contender must come to the same end on every loop, with breakpoints too, and load every list and
//! every pair of lists to the same memory.

use crate::breakpoints::Breakpoints;
use crate::contender::{Contender, CONTENDERS};
use crate::layout::{Bench, PROGRAM};
use crate::lists::Lists;
use crate::loader::LOADERS;
use crate::loops::{Loop, LENGTHS};
use crate::pairs::{self, Pairs};
use crate::state::{RanTo, State};
use midesk::Breakpoint;

const TURNS: u32 = 500;

/// A loop, and the breakpoints that it runs with; none where the call is the one without.
struct Case<'a> {
    which: Loop,
    length: usize,
    points: Option<&'a [Breakpoint]>,
}

/// What a run leaves.
struct End {
    answer: RanTo,
    state: State,
    memory: Vec<u8>,
}

impl Case<'_> {
    fn end(&self, contender: Contender, n: u64) -> End {
        let mut bench = Bench::new(self.which, self.length);
        let mut state = bench.start(TURNS);
        let answer = contender.run_with(&mut bench.memory, &mut state, n, self.points);
        End { answer, state, memory: bench.memory }
    }

    /// Runs of at most `n` steps, which must answer this.
    fn check(&self, n: u64, answer: RanTo) -> Result<(), String> {
        let Case { which, length, points } = self;
        let with = if points.is_some() { " with breakpoints" } else { "" };
        let name = format!("{}{with}, memory {length}", which.name());
        let reference = self.end(Contender::Model, n);
        if reference.answer != answer {
            return Err(format!("{name}: the model answers {:?}, not {answer:?}", reference.answer));
        }
        for contender in CONTENDERS {
            if let Some(what) = difference(&reference, &self.end(contender, n)) {
                return Err(format!("{name}: model and {} differ: {what}", contender.name()));
            }
        }
        Ok(())
    }

    /// To the end, and to a place in the middle of a turn.
    fn check_unheld(&self) -> Result<(), String> {
        let all = self.which.steps(TURNS);
        for n in [u64::MAX, all / 2 + 1] {
            self.check(n, Ok((n.min(all), None)))?;
        }
        Ok(())
    }
}

fn difference(a: &End, b: &End) -> Option<String> {
    if a.answer != b.answer {
        return Some(format!("answer {:?} and {:?}", a.answer, b.answer));
    }
    if a.state != b.state {
        return Some(format!("state\n  {:X?}\nand\n  {:X?}", a.state, b.state));
    }
    let at = a.memory.iter().zip(&b.memory).position(|(x, y)| x != y)?;
    Some(format!("memory at {at:X}h: {:02X}h and {:02X}h", a.memory[at], b.memory[at]))
}

pub fn check(which: Loop, length: usize) -> Result<(), String> {
    Case { which, length, points: None }.check_unheld()
}

/// With the list, and with one whose last breakpoint is at the loop's first command: armed, it holds the run before the
/// second turn.
pub fn check_breakpoints(which: Loop, kind: Breakpoints) -> Result<(), String> {
    let mut points = kind.points(which.kind);
    Case { which, length: LENGTHS[0], points: Some(&points) }.check_unheld()?;
    if let Some(last) = points.last_mut() {
        last.r15 = PROGRAM;
    }
    let case = Case { which, length: LENGTHS[0], points: Some(&points) };
    match points.iter().rposition(|point| point.armed) {
        Some(place) => case.check(u64::MAX, Ok((which.commands_per_turn(), Some(place)))),
        None => case.check_unheld(),
    }
}

/// Loads the lists of a kind, one after the other, into a memory of each length.
pub fn check_lists(kind: Lists) -> Result<(), String> {
    let lists = kind.lists();
    for length in LENGTHS {
        let mut left: [Vec<u8>; LOADERS.len()] = LOADERS.map(|_| (0..length).map(|at| at as u8).collect());
        for list in &lists {
            for (loader, memory) in LOADERS.iter().zip(&mut left) {
                loader.load(memory, &list.bytes).map_err(|number| {
                    format!("{}, memory {length}: {} refuses a list by {number}", kind.name(), loader.name())
                })?;
            }
            if left.iter().any(|memory| *memory != left[0]) {
                return Err(format!("{}, memory {length}: proved and plain leave different bytes", kind.name()));
            }
        }
    }
    Ok(())
}

/// Loads the pairs of a kind, one after the other.
pub fn check_pairs(kind: Pairs) -> Result<(), String> {
    let mut left: [Vec<u8>; LOADERS.len()] = LOADERS.map(|_| (0..pairs::LENGTH).map(|at| at as u8).collect());
    for [first, second] in &kind.pairs() {
        for (loader, memory) in LOADERS.iter().zip(&mut left) {
            let mut scratch = vec![0xFF; pairs::LENGTH];
            loader
                .load_both(memory, &first.bytes, &second.bytes, &mut scratch)
                .map_err(|number| format!("{}: {} refuses a pair by {number}", kind.name(), loader.name()))?;
            if scratch.iter().any(|byte| *byte != 0) {
                return Err(format!("{}: {} leaves a scratch that is not all zeros", kind.name(), loader.name()));
            }
        }
        if left.iter().any(|memory| *memory != left[0]) {
            return Err(format!("{}: proved and plain leave different bytes of a pair", kind.name()));
        }
    }
    Ok(())
}
