//! Coverage of breakpoints (request F-3): what the stored cases reach. The tables are in
//! `breakpoint_table.rs`.
//!
//! What a run does at a breakpoint is judged here once more by the words of the request, and
//! compared with the model's answer.

use crate::breakpoints;
use crate::case::Call;
use crate::checks::{self, Broken};
use crate::cover::{add, Counts};
use crate::desk;
use crate::entry;
use crate::fetch_table::way;
use crate::map::{lookup, Reason, Virtual};
use crate::notes::{Note, Notes};
use crate::state::*;

/// What can refuse a run to breakpoints, in the order in which it is tried.
pub const TRIED: [u32; 7] = [1, 2, 3, 4, 5, 7, 20];

#[derive(Default)]
pub struct Breakpoints {
    /// What becomes of a run where R15 equals a breakpoint, and kernel mode.
    pub met: Counts<(&'static str, bool)>,
    /// Place of the one that holds, and how many there are.
    pub places: Counts<(&'static str, &'static str)>,
    /// How many there are, and how the run ends.
    pub ends: Counts<(&'static str, &'static str)>,
    /// How R15 came to the one that holds.
    pub ways: Counts<&'static str>,
    /// What the step would be that is held.
    pub before: Counts<&'static str>,
    /// A level that is pending where R15 equals an armed one, and what that means.
    pub levels: Counts<(u32, &'static str)>,
    /// What lists contain, besides the one that holds or without one.
    pub lists: Counts<&'static str>,
    /// Bit in which alone an armed one differs from R15.
    pub bits: Counts<u32>,
    /// Armed ones that a run passes.
    pub misses: Counts<&'static str>,
    pub steps: Counts<&'static str>,
    /// What refuses, and what is broken, that included.
    pub orders: Counts<(u32, u32)>,
    /// What refuses more than 64, and whether 0 steps are asked for.
    pub many: Counts<(u32, bool)>,
    /// What comes after a hold.
    pub after: Counts<&'static str>,
    /// The list of the call before, where it was held; and whether a request came since.
    last: Option<(Vec<Breakpoint>, bool)>,
}

/// A run to breakpoints: what is asked for.
pub struct Asked<'a> {
    pub n: u32,
    pub points: &'a [Breakpoint],
}

fn place_name(place: u32) -> &'static str {
    match place {
        0 => "0",
        1 => "1",
        62 => "62",
        63 => "63",
        _ => "2 to 61",
    }
}

fn number_name(count: usize) -> &'static str {
    match count {
        0 => "0",
        1 => "1",
        2 => "2",
        3..=62 => "3 to 62",
        63 => "63",
        64 => "64",
        65 => "65",
        _ => "66 to 70",
    }
}

/// Counts `what` if it is so.
fn say(counts: &mut Counts<&'static str>, what: &'static str, so: bool) {
    if so {
        add(counts, what);
    }
}

impl Breakpoints {
    /// A case begins.
    pub fn begins(&mut self) {
        self.last = None;
    }

    /// Counts what a call is after a hold.
    pub fn called(&mut self, call: &Call) {
        let Some((points, requested)) = self.last.take() else { return };
        let what = match call {
            Call::RunTo(_, again) if requested && *again == points => "a request, then the same list",
            Call::RunTo(_, again) if *again == points => "the same list",
            Call::RunTo(..) => "another list",
            Call::Run(_) => "a run",
            Call::Step => "a step",
            Call::Request(_) => "a request",
            _ => return,
        };
        add(&mut self.after, what);
        if let Call::Request(_) = call {
            self.last = Some((points, true));
        }
    }

    /// Judges a run and counts what refuses it.
    pub fn judged(&mut self, state: &State, memory: &[u8], asked: &Asked) -> Result<(), Broken> {
        let bytes = memory.len() as u64;
        let tried = [
            checks::length(bytes),
            checks::system_block(bytes, state.system_block),
            checks::control_block(bytes, state.control_block),
            checks::map(bytes, state.map_base, state.map_length),
            checks::status_and_pending(state),
            checks::running(state),
            breakpoints::few(asked.points),
        ];
        let broken: Vec<Broken> = tried.into_iter().filter_map(Result::err).collect();
        let Some(first) = broken.first() else { return Ok(()) };
        for other in &broken {
            add(&mut self.orders, (first.number, other.number));
        }
        if asked.points.len() > 64 {
            add(&mut self.many, (first.number, asked.n == 0));
        }
        let end = if first.number == 20 { "refused by 20" } else { "refused before 20" };
        add(&mut self.ends, (number_name(asked.points.len()), end));
        Err(*first)
    }

    /// Counts a moment of a run: before its step number `done` (from 0), or at its end. Gives
    /// whether the run is held there.
    pub fn moment(&mut self, asked: &Asked, done: u32, state: &State) -> bool {
        let equal =
            |armed: bool| asked.points.iter().any(|point| point.armed == armed && point.r15 == state.registers[PC]);
        let due = entry::interrupt(state).is_some();
        let above = state.highest_pending().is_some_and(|level| level > state.level());
        let what = if !equal(true) && !equal(false) {
            return false;
        } else if !equal(true) {
            "an off one alone"
        } else if state.stopped() {
            "stopped there"
        } else if asked.n == 0 {
            "no step asked for"
        } else if done == 0 && due {
            "before the first step, interrupt due"
        } else if done == 0 {
            "before the first step"
        } else if done == asked.n {
            "after the last step asked for"
        } else if due {
            "interrupt due"
        } else if state.pending == 0 {
            "held, nothing pending"
        } else if above {
            "held, a level above the status level pending"
        } else {
            "held, only others pending"
        };
        add(&mut self.met, (what, state.kernel()));
        let held = what.starts_with("held");
        if held || what == "interrupt due" {
            self.pending(state);
        }
        held
    }

    /// The levels that are pending at an armed breakpoint.
    fn pending(&mut self, state: &State) {
        for level in (1..16).filter(|level| state.pending >> level & 1 == 1) {
            let what = if state.kernel() {
                "kernel mode"
            } else if entry::interrupt(state) == Some(level) {
                "entered"
            } else if level == state.level() {
                "equal to the status level"
            } else if level < state.level() {
                "below the status level"
            } else {
                continue;
            };
            add(&mut self.levels, (level, what));
        }
    }

    /// Counts the armed ones that don't equal R15 before a step that is made.
    pub fn passed(&mut self, asked: &Asked, state: &State, memory: &[u8], after: &State) {
        let r15 = state.registers[PC];
        let real = lookup(state, memory, Virtual(r15), Reason::Read).map(|real| real.0);
        let next = after.registers[PC];
        for value in asked.points.iter().filter(|point| point.armed && point.r15 != r15).map(|point| point.r15) {
            let change = value ^ r15;
            if change.count_ones() == 1 {
                add(&mut self.bits, change.trailing_zeros());
            }
            let misses = &mut self.misses;
            say(misses, "one above R15", value == r15.wrapping_add(1));
            say(misses, "one below R15", r15 == value.wrapping_add(1));
            say(misses, "inside the command", value > r15 && value < next && next - r15 < 20);
            say(misses, "equal in the low 8 bits", change & 0xFF == 0);
            say(misses, "equal in the low 16 bits", change & 0xFFFF == 0);
            say(misses, "equal in the low 24 bits", change & 0x00FF_FFFF == 0);
            say(misses, "equal in the high 16 bits", change >> 16 == 0);
            say(misses, "0", value == 0);
            say(misses, "FFFFFFFFh", value == u32::MAX);
            say(misses, "the real address in user mode", !state.kernel() && real == Ok(value));
        }
    }

    /// Counts a run that isn't refused: its answer, the memory it left, and how its last step led to R15.
    pub fn ended(&mut self, asked: &Asked, start: &State, answer: &RanTo, memory: &[u8], way: &'static str) {
        let Asked { n, points } = *asked;
        let count = answer.count;
        let end = match answer.held {
            Some(_) => "held",
            None if answer.state.stopped() => "stopped",
            None if n == 0 => "0 steps",
            None => "all its steps",
        };
        add(&mut self.ends, (number_name(points.len()), end));
        let lists = &mut self.lists;
        let Some(place) = answer.held else {
            say(lists, "not held: all off", !points.is_empty() && points.iter().all(|point| !point.armed));
            say(lists, "not held: all armed", !points.is_empty() && points.iter().all(|point| point.armed));
            return;
        };
        self.last = Some((points.to_vec(), false));
        add(&mut self.places, (place_name(place), number_name(points.len())));
        let (before, after) = (&points[..place as usize], &points[place as usize + 1..]);
        let r15 = answer.state.registers[PC];
        let has = |some: &[Breakpoint], armed: bool, equal: bool| {
            some.iter().any(|point| point.armed == armed && (point.r15 == r15) == equal)
        };
        say(lists, "held: an equal one before it, off", has(before, false, true));
        say(lists, "held: another before it, armed", has(before, true, false));
        say(lists, "held: another before it, off", has(before, false, false));
        say(lists, "held: an equal one after it, armed", has(after, true, true));
        say(lists, "held: an equal one after it, off", has(after, false, true));
        say(lists, "held: another after it, armed", has(after, true, false));
        say(
            lists,
            "held: the only armed one of many",
            points.iter().filter(|point| point.armed).count() == 1 && place > 0,
        );
        say(lists, "held: all armed", points.iter().all(|point| point.armed));
        let steps = &mut self.steps;
        say(steps, "after 1 step", count == 1);
        say(steps, "after more steps", count > 1);
        say(steps, "one step before n", count + 1 == u64::from(n));
        say(steps, "n is FFFFFFFFh", n == u32::MAX);
        say(steps, "where it began, a round later", r15 == start.registers[PC] && count > 1);
        say(steps, "where it began, after 1 step", r15 == start.registers[PC] && count == 1);
        add(&mut self.ways, way);
        let mut memory = memory.to_vec();
        add(
            &mut self.before,
            match desk::step(&answer.state, &mut memory).event {
                Event::Plain => "done without an alarm",
                Event::Entry { cause: 1, .. } => "a system call",
                Event::Entry { .. } => "an alarm",
                Event::Stop(0) => "HALT",
                Event::Stop(16) => "stop 16",
                Event::Stop(_) => "a stop by an alarm",
            },
        );
        say(&mut self.before, "at 0", r15 == 0);
        say(&mut self.before, "at FFFFFFFFh", r15 == u32::MAX);
        let byte = lookup(&answer.state, &memory, Virtual(r15), Reason::Fetch);
        say(&mut self.before, "where no command can be fetched", byte.is_err());
    }
}

/// How a step led to the R15 after it.
pub fn step_way(before: &State, after: &State, event: &Event, notes: &Notes) -> &'static str {
    let fetched = notes.list().iter().find_map(|note| match note {
        Note::Command(byte) => Some(*byte),
        _ => None,
    });
    match (event, fetched) {
        (Event::Entry { cause: 1, .. }, _) => "a system call",
        (Event::Entry { cause: 17.., .. }, _) => "an interrupt",
        (Event::Entry { .. }, _) => "an alarm",
        (_, None) => "nothing",
        (_, Some(byte)) => match way(byte, before.registers[PC], after.registers[PC]) {
            name if name.starts_with('7') => "a jump",
            name => name,
        },
    }
}
