//! Counts what the stored cases reach. Runs are taken apart into their steps.

use crate::breakpoint_cover::{step_way, Asked, Breakpoints};
use crate::breakpoints::run_to;
use crate::case::{make, Call, Case};
use crate::checks::{self, Broken};
use crate::code::{Format, Role};
use crate::desk;
use crate::entry;
use crate::fetch_table::{Before, Fetches};
use crate::float_table::Floats;
use crate::joint_table::Joint;
use crate::list_table::Lists;
use crate::notes::{Note, Notes};
use crate::pair::Pair;
use crate::shift_table::Shifts;
use crate::state::*;
use crate::work::Part;
use std::collections::BTreeMap;

pub type Counts<K> = BTreeMap<K, u32>;

/// Outcome of a command besides alarms 8 to 15 and 21.
pub const FINE: u32 = 0;

#[derive(Default)]
pub struct Cover {
    /// Command byte (256: it couldn't be fetched), kernel mode, outcome.
    pub commands: Counts<(u16, bool, u32)>,
    /// Form, role, format, kernel mode, for operands that keep the rules.
    pub forms: Counts<(u8, Role, Format, bool)>,
    /// Broken rule, role, format, kernel mode.
    pub rules: Counts<(&'static str, Role, Format, bool)>,
    /// Form and whether x (true) or y (false) is 15.
    pub r15: Counts<(u8, bool)>,
    /// Number, part, kernel mode.
    pub alarms: Counts<(u32, Part, bool)>,
    pub crossings: Counts<Part>,
    pub entries: Counts<u32>,
    pub bad_entries: Counts<(u32, &'static str)>,
    pub stops: Counts<u32>,
    /// Number, kind of call, reason.
    pub refusals: Counts<(u32, &'static str, &'static str)>,
    /// Command byte and flags after it.
    pub flags: Counts<(u8, u32)>,
    /// Jump, flags, taken.
    pub jumps: Counts<(u8, u32, bool)>,
    /// Command byte that keeps flags, flags.
    pub kept: Counts<(u8, u32)>,
    pub shifts: Shifts,
    pub fetches: Fetches,
    pub floats: Floats,
    pub resumes: Counts<&'static str>,
    /// Level and what became of it.
    pub levels: Counts<(u32, &'static str)>,
    pub runs: Counts<&'static str>,
    pub requests: Counts<(u32, &'static str)>,
    pub lists: Lists,
    pub joint: Joint,
    pub breakpoints: Breakpoints,
}

pub fn add<K: Ord>(counts: &mut Counts<K>, key: K) {
    *counts.entry(key).or_insert(0) += 1;
}

/// The loads of a case so far.
struct Loads {
    /// Bytes of the memory that they put.
    put: Vec<bool>,
    /// Whether the last one loaded; nothing again after a run.
    last: Option<bool>,
    /// Whether it was one of two lists.
    two: bool,
}

fn kind(call: &Call) -> &'static str {
    match call {
        Call::Step => "step",
        Call::Run(_) => "run",
        Call::Request(_) => "request",
        Call::Fresh { .. } => "fresh",
        Call::Load(_) => "load",
        Call::LoadBoth(_) => "load both",
        Call::RunTo(..) => "run to",
    }
}

impl Cover {
    fn refused(&mut self, broken: Broken, call: &Call) {
        add(&mut self.refusals, (broken.number, kind(call), broken.reason));
    }

    /// Makes a step that isn't refused, and counts.
    fn step(&mut self, before: &State, memory: &mut [u8]) -> (State, Event, Notes) {
        let mut notes = Notes::kept();
        let seen = Before::of(before, memory);
        let answer = desk::step_noting(&mut notes, before, memory);
        self.stepped(before, &answer.state, &answer.event, notes.list());
        self.fetches.stepped(before, &seen, &answer.state, notes.list(), memory);
        self.floats.stepped(before, notes.list());
        (answer.state, answer.event, notes)
    }

    fn stepped(&mut self, before: &State, after: &State, event: &Event, notes: &[Note]) {
        let kernel = before.kernel();
        let interrupted = entry::interrupt(before);
        for level in 1..16 {
            if before.pending >> level & 1 == 1 {
                let fate = if kernel {
                    "waits in kernel mode"
                } else if interrupted == Some(level) && *event == Event::Stop(16) {
                    "stop 16"
                } else if interrupted == Some(level) {
                    "entered"
                } else if level == before.level() {
                    "equal to the status level"
                } else if level < before.level() {
                    "below the status level"
                } else {
                    "waits for a higher one"
                };
                add(&mut self.levels, (level, fate));
            }
        }
        match event {
            Event::Entry { cause, .. } => add(&mut self.entries, *cause),
            Event::Stop(number) => add(&mut self.stops, *number),
            Event::Plain => {}
        }
        let mut byte = 256;
        let mut outcome = FINE;
        let mut values = (0, 0);
        for note in notes {
            match note {
                Note::Command(fetched) => byte = u16::from(*fetched),
                Note::Operand { form, x, y, role, format, broken } => match broken {
                    Some(rule) => add(&mut self.rules, (rule, *role, *format, kernel)),
                    None => {
                        add(&mut self.forms, (*form, *role, *format, kernel));
                        if *x == 15 {
                            add(&mut self.r15, (*form, true));
                        }
                        if *y == 15 {
                            add(&mut self.r15, (*form, false));
                        }
                    }
                },
                Note::Values { first, second } => values = (*first, *second),
                Note::Numbers { .. } => {}
                Note::Alarm { number, part } => {
                    outcome = *number;
                    add(&mut self.alarms, (*number, *part, kernel));
                }
                Note::Lookup { .. } => {}
                Note::Crossing(part) => add(&mut self.crossings, *part),
                Note::Resume(reason) => add(&mut self.resumes, *reason),
                Note::BadEntry { cause, reason } => add(&mut self.bad_entries, (*cause, *reason)),
            }
        }
        if interrupted.is_some() {
            return;
        }
        add(&mut self.commands, (byte, kernel, outcome));
        if byte < 256 && outcome == FINE {
            self.flags(byte as u8, before, after, event);
            if byte == 0x60 {
                self.shifts.shifted(values, before.status, after.status);
            }
        }
    }

    fn flags(&mut self, byte: u8, before: &State, after: &State, event: &Event) {
        let old = before.status & FLAGS;
        let new = after.status & FLAGS;
        match byte {
            0x70..=0x78 => {
                let taken = crate::arith::taken(byte, before.status);
                add(&mut self.jumps, (byte, old, taken));
            }
            0x00..=0x03 | 0x79 | 0x7A if *event != Event::Stop(16) => add(&mut self.kept, (byte, old)),
            0x10..=0x66 | 0x80..=0xA5 => add(&mut self.flags, (byte, new)),
            _ => {}
        }
    }

    /// Plays a case and counts.
    pub fn play(&mut self, case: &Case) {
        let mut memory = case.image.clone();
        let mut state = case.start;
        let mut loads = Loads { put: vec![false; memory.len()], last: None, two: false };
        self.fetches.begins();
        self.breakpoints.begins();
        for call in &case.calls {
            self.breakpoints.called(call);
            let judged = match call {
                Call::Step | Call::Run(_) => checks::of_step(&state, &memory),
                Call::Request(level) => checks::of_request(&state, *level),
                Call::Fresh { system, control, .. } => checks::of_fresh(memory.len() as u64, *system, *control),
                Call::Load(list) => self.load(&memory, list, &mut loads),
                Call::LoadBoth(pair) => self.load_both(&memory, pair, &mut loads),
                Call::RunTo(n, points) => self.breakpoints.judged(&state, &memory, &Asked { n: *n, points }),
            };
            match (judged, call) {
                (Err(broken), _) => {
                    self.refused(broken, call);
                    if *call == Call::Run(0) {
                        add(&mut self.runs, "of 0 steps, refused");
                    }
                    state = make(call, &state, &mut memory).state;
                }
                (Ok(()), Call::Step) => state = self.step(&state, &mut memory).0,
                (Ok(()), Call::Run(n)) => {
                    state = self.run(*n, &state, &mut memory);
                    match (loads.last.take(), loads.two) {
                        (Some(true), false) => add(&mut self.lists.calls, "a run after a load"),
                        (Some(false), false) => add(&mut self.lists.calls, "a run after a refused load"),
                        (Some(true), true) => add(&mut self.joint.calls, "a run after a pair"),
                        (Some(false), true) => add(&mut self.joint.calls, "a run after a refused pair"),
                        (None, _) => {}
                    }
                }
                (Ok(()), Call::RunTo(n, points)) => {
                    state = self.run_to(&Asked { n: *n, points }, &state, &mut memory);
                }
                (Ok(()), Call::Request(level)) => {
                    let fate = match (state.stopped(), state.pending >> level & 1 == 1) {
                        (true, _) => "stopped desk",
                        (false, true) => "pending already",
                        (false, false) => "new",
                    };
                    add(&mut self.requests, (*level, fate));
                    state = make(call, &state, &mut memory).state;
                }
                (Ok(()), Call::Fresh { .. } | Call::Load(_) | Call::LoadBoth(_)) => {
                    self.fetches.begins();
                    state = make(call, &state, &mut memory).state
                }
            }
        }
    }

    /// Counts a load and judges it.
    fn load(&mut self, memory: &[u8], list: &[u8], loads: &mut Loads) -> Result<(), Broken> {
        match (loads.last, loads.two) {
            (Some(true), false) => add(&mut self.lists.calls, "a load after a load"),
            (Some(false), false) => add(&mut self.lists.calls, "a load after a refused load"),
            (Some(true), true) => add(&mut self.joint.calls, "a load after a pair"),
            (Some(false), true) => add(&mut self.joint.calls, "a load after a refused pair"),
            (None, _) => {}
        }
        let judged = self.lists.load(memory, list, &mut loads.put);
        (loads.last, loads.two) = (Some(judged.is_ok()), false);
        judged
    }

    /// Counts a joint load and judges it.
    fn load_both(&mut self, memory: &[u8], pair: &Pair, loads: &mut Loads) -> Result<(), Broken> {
        match (loads.last, loads.two) {
            (Some(true), false) => add(&mut self.joint.calls, "a pair after a load"),
            (Some(true), true) => add(&mut self.joint.calls, "a pair after a pair"),
            (Some(false), true) => add(&mut self.joint.calls, "a pair after a refused pair"),
            _ => {}
        }
        let judged = self.joint.pair(memory, pair, &mut loads.put);
        (loads.last, loads.two) = (Some(judged.is_ok()), true);
        judged
    }

    fn run_to(&mut self, asked: &Asked, start: &State, memory: &mut [u8]) -> State {
        let answer = run_to(start, &mut memory.to_vec(), u64::from(asked.n), asked.points);
        let mut state = *start;
        let mut done = 0;
        let mut way = "nothing";
        let mut held = self.breakpoints.moment(asked, done, &state);
        while !held && done < asked.n && !state.stopped() {
            let old = memory.to_vec();
            let (after, event, notes) = self.step(&state, memory);
            self.breakpoints.passed(asked, &state, &old, &after);
            way = step_way(&state, &after, &event, &notes);
            state = after;
            done += 1;
            held = self.breakpoints.moment(asked, done, &state);
        }
        assert_eq!((answer.state, answer.count, answer.held.is_some()), (state, u64::from(done), held));
        self.breakpoints.ended(asked, start, &answer, memory, way);
        state
    }

    fn run(&mut self, n: u32, start: &State, memory: &mut [u8]) -> State {
        let mut state = *start;
        let mut entries = 0;
        let mut done = 0;
        while done < n && !state.stopped() {
            let (after, event, _) = self.step(&state, memory);
            if matches!(event, Event::Entry { .. }) {
                entries += 1;
            }
            state = after;
            done += 1;
        }
        add(
            &mut self.runs,
            match (n, done == n, state.stopped()) {
                (0, _, _) => "of 0 steps",
                (_, true, true) => "that stops in its last step",
                (_, true, false) => "that does all its steps",
                _ => "that stops earlier",
            },
        );
        if entries > 0 && !state.stopped() && done > entries {
            add(&mut self.runs, "that goes on over an entry");
        }
        state
    }
}
