//! A case: a memory image, a start state, calls, and what comes out.

use crate::breakpoints;
use crate::desk;
use crate::joint;
use crate::load;
use crate::pair::{After, LoadBoth, Pair};
use crate::state::*;

#[derive(Clone, PartialEq, Eq, Debug)]
pub enum Call {
    Step,
    Run(u32),
    Request(u32),
    /// Makes a fresh desk for the case's memory; the calls go on with it.
    Fresh {
        system: u32,
        control: u32,
        start: u32,
    },
    /// Loads a list into the case's memory; the state takes no part.
    Load(Vec<u8>),
    /// Loads two lists together into the case's memory; the state takes no part.
    LoadBoth(Pair),
    /// A run of so many steps to breakpoints.
    RunTo(u32, Vec<Breakpoint>),
}

/// Bytes `first`, `first + add`, ... (modulo 256) from an address on.
#[derive(Clone, Copy, PartialEq, Eq, Debug)]
pub struct Ramp {
    pub at: u32,
    pub length: u16,
    pub first: u8,
    pub add: u8,
}

#[derive(Clone, PartialEq, Eq, Debug)]
pub struct Case {
    /// Ramps over zeros, in order; where they differ, `image` rules.
    pub ramps: Vec<Ramp>,
    pub image: Vec<u8>,
    pub start: State,
    pub calls: Vec<Call>,
}

/// What one call gave. `event` is `Plain`, `count` 0, `held` `None` and `scratch` `AsBefore` where
/// they don't apply.
#[derive(Clone, Copy, PartialEq, Eq, Debug)]
pub struct Outcome {
    pub refusal: u32,
    pub state: State,
    pub event: Event,
    pub count: u32,
    pub held: Option<u32>,
    pub scratch: After,
}

#[derive(Clone, PartialEq, Eq, Debug)]
pub struct Expected {
    pub outcomes: Vec<Outcome>,
    pub memory: Vec<u8>,
}

/// The seven calls of the model or of a wrong copy of it.
#[derive(Clone, Copy)]
pub struct Desk {
    pub fresh: fn(u64, u32, u32, u32) -> Answered,
    pub step: fn(&State, &mut [u8]) -> Stepped,
    pub run: fn(&State, &mut [u8], u64) -> Ran,
    pub request: fn(&State, u32) -> Answered,
    pub load: fn(&mut [u8], &[u8]) -> u32,
    pub load_both: LoadBoth,
    pub run_to: fn(&State, &mut [u8], u64, &[Breakpoint]) -> RanTo,
}

pub const MODEL: Desk = Desk {
    fresh: desk::fresh,
    step: desk::step,
    run: desk::run,
    request: desk::request,
    load: load::load,
    load_both: joint::load_both,
    run_to: breakpoints::run_to,
};

impl Desk {
    /// Makes one call.
    pub fn make(&self, call: &Call, state: &State, memory: &mut [u8]) -> Outcome {
        let event = Event::Plain;
        let plain = Outcome { refusal: 0, state: *state, event, count: 0, held: None, scratch: After::AsBefore };
        let answered = |answer: Answered| Outcome { refusal: answer.refusal, state: answer.state, ..plain };
        match call {
            Call::Step => {
                let answer = (self.step)(state, memory);
                Outcome { refusal: answer.refusal, state: answer.state, event: answer.event, ..plain }
            }
            Call::Run(n) => {
                let answer = (self.run)(state, memory, u64::from(*n));
                Outcome { refusal: answer.refusal, state: answer.state, count: answer.count as u32, ..plain }
            }
            Call::Request(level) => answered((self.request)(state, *level)),
            Call::Fresh { system, control, start } => {
                answered((self.fresh)(memory.len() as u64, *system, *control, *start))
            }
            Call::Load(list) => Outcome { refusal: (self.load)(memory, list), ..plain },
            Call::LoadBoth(pair) => {
                let (refusal, scratch) = pair.load(self.load_both, memory);
                Outcome { refusal, scratch, ..plain }
            }
            Call::RunTo(n, points) => {
                let RanTo { refusal, state, count, held } = (self.run_to)(state, memory, u64::from(*n), points);
                Outcome { refusal, state, count: count as u32, held, ..plain }
            }
        }
    }
}

/// Makes one call of the model.
pub fn make(call: &Call, state: &State, memory: &mut [u8]) -> Outcome {
    MODEL.make(call, state, memory)
}

/// Plays a case from its start.
pub fn play(case: &Case) -> Expected {
    let mut memory = case.image.clone();
    let mut state = case.start;
    let mut outcomes = Vec::new();
    for call in &case.calls {
        let outcome = make(call, &state, &mut memory);
        state = outcome.state;
        outcomes.push(outcome);
    }
    Expected { outcomes, memory }
}
