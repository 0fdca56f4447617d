//! Plays a sequence on the model while it is made, and keeps it.

use super::*;
use crate::breakpoints::run_to;
use crate::case::{Call, Case};
use crate::checks;
use crate::desk;
use crate::gen::any_points::bounded;
use crate::joint;
use crate::load;

pub struct Session {
    pub memory: Vec<u8>,
    pub state: State,
    sequence: Sequence,
}

impl Session {
    pub fn new(family: &'static str, memory: Vec<u8>, state: StateBytes) -> Session {
        let sequence = Sequence { family, memory: memory.clone(), state, acts: Vec::new() };
        Session { memory, state: unpacked(&state), sequence }
    }

    pub fn finish(self) -> Sequence {
        self.sequence
    }

    /// What is kept so far.
    pub fn kept(&self) -> &Sequence {
        &self.sequence
    }

    pub fn calls(&self) -> usize {
        self.sequence.calls()
    }

    /// Whether a step would be taken.
    pub fn ready(&self) -> bool {
        checks::of_step(&self.state, &self.memory).is_ok()
    }

    /// Makes a call and keeps what it left.
    pub fn call(&mut self, act: Act) {
        let before = self.memory.clone();
        let mut scratch = After::AsBefore;
        let (answer, steps, state) = match act {
            Act::Fresh { system, control, start } => {
                let answer = desk::fresh(self.memory.len() as u64, system, control, start);
                (u64::from(answer.refusal), 0, answer.state)
            }
            Act::Step => {
                let answer = desk::step(&self.state, &mut self.memory);
                let (kind, number) = match (answer.refusal, answer.event) {
                    (0, Event::Plain) => (0, 0),
                    (0, Event::Entry { cause, .. }) => (2, cause),
                    (0, Event::Stop(number)) => (3, number),
                    (refusal, _) => (1, refusal),
                };
                (kind << 32 | u64::from(number), 0, answer.state)
            }
            Act::Run(n) => {
                let answer = desk::run(&self.state, &mut self.memory, n);
                (u64::from(answer.refusal), answer.count, answer.state)
            }
            Act::Request(level) => {
                let answer = desk::request(&self.state, level);
                (u64::from(answer.refusal), 0, answer.state)
            }
            Act::Load(ref list) => {
                let answer = load::load(&mut self.memory, list);
                (u64::from(answer), 0, self.state)
            }
            Act::LoadBoth(ref pair) => {
                let (answer, after) = pair.load(joint::load_both, &mut self.memory);
                scratch = after;
                (u64::from(answer), 0, self.state)
            }
            Act::RunTo { n, ref points } => {
                let answer = run_to(&self.state, &mut self.memory, n, points);
                let (kind, number) = match (answer.refusal, answer.held) {
                    (0, None) => (0, 0),
                    (0, Some(place)) => (4, place),
                    (refusal, _) => (1, refusal),
                };
                (kind << 32 | u64::from(number), answer.count, answer.state)
            }
            _ => panic!("no call"),
        };
        let changes = changes(&before, &self.memory);
        let left = Left { answer, steps, state: packed(&state), changes, scratch };
        self.state = unpacked(&left.state);
        self.sequence.acts.push((act, Some(left)));
    }

    /// A run of n steps, or of at most `most` where the desk would go on longer.
    pub fn run(&mut self, n: u64, most: u64) {
        let mut memory = self.memory.clone();
        let tried = desk::run(&self.state, &mut memory, n.min(most));
        let goes_on = tried.refusal == 0 && !tried.state.stopped();
        self.call(Act::Run(if goes_on { n.min(most) } else { n }));
    }

    /// A run to breakpoints of n steps, or of at most `most` where nothing would end it earlier.
    pub fn run_to(&mut self, n: u64, most: u64, points: Vec<Breakpoint>) {
        let n = bounded(&self.state, &self.memory, n, most, &points);
        self.call(Act::RunTo { n, points });
    }

    pub fn put_state(&mut self, bytes: StateBytes) {
        self.state = unpacked(&bytes);
        self.sequence.acts.push((Act::State(bytes), None));
    }

    /// Sets the state, with something changed.
    pub fn edit(&mut self, change: impl FnOnce(&mut State)) {
        let mut state = self.state;
        change(&mut state);
        self.put_state(packed(&state));
    }

    /// Makes the memory be `new`, which is as long.
    pub fn put_memory(&mut self, new: &[u8]) {
        for change in changes(&self.memory, new) {
            self.memory[change.at as usize..][..change.bytes.len()].copy_from_slice(&change.bytes);
            self.sequence.acts.push((Act::Memory { at: change.at, bytes: change.bytes }, None));
        }
    }

    pub fn put_length(&mut self, length: u32) {
        self.memory.resize(length as usize, 0);
        self.sequence.acts.push((Act::Length(length), None));
    }

    /// Begins with a case of the generator.
    pub fn of_case(family: &'static str, case: &Case) -> Session {
        let mut session = Session::new(family, case.image.clone(), packed(&case.start));
        for call in &case.calls {
            session.call(match call {
                Call::Step => Act::Step,
                Call::Run(n) => Act::Run(u64::from(*n)),
                Call::Request(level) => Act::Request(*level),
                Call::Fresh { system, control, start } => {
                    Act::Fresh { system: *system, control: *control, start: *start }
                }
                Call::Load(list) => Act::Load(list.clone()),
                Call::LoadBoth(pair) => Act::LoadBoth(pair.clone()),
                Call::RunTo(n, points) => Act::RunTo { n: u64::from(*n), points: points.clone() },
            });
        }
        session
    }
}
