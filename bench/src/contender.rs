//! The desks that are compared, behind one call for runs without breakpoints and one for runs with them.

use crate::state::{RanTo, State};
use crate::{plain, proved};
use midesk::Breakpoint;

#[derive(Clone, Copy, PartialEq, Eq, Debug)]
pub enum Contender {
    Proved,
    Bytewise,
    Word,
    Model,
}

pub const CONTENDERS: [Contender; 4] = [Contender::Proved, Contender::Bytewise, Contender::Word, Contender::Model];

impl Contender {
    pub fn name(self) -> &'static str {
        match self {
            Contender::Proved => "proved",
            Contender::Bytewise => "bytewise",
            Contender::Word => "word",
            Contender::Model => "model",
        }
    }

    pub fn named(name: &str) -> Option<Contender> {
        CONTENDERS.into_iter().find(|c| c.name() == name)
    }

    /// At most `n` steps: their count, or the number of the refusal.
    pub fn run(self, memory: &mut [u8], state: &mut State, n: u64) -> Result<u64, u32> {
        match self {
            Contender::Proved => proved::run(memory, state, n),
            Contender::Bytewise => plain::run::<false>(memory, state, n),
            Contender::Word => plain::run::<true>(memory, state, n),
            Contender::Model => run_model(memory, state, n),
        }
    }

    /// At most `n` steps, with breakpoints.
    pub fn run_to(self, memory: &mut [u8], state: &mut State, n: u64, points: &[Breakpoint]) -> RanTo {
        match self {
            Contender::Proved => proved::run_to(memory, state, n, points),
            Contender::Bytewise => plain::run_to::<false>(memory, state, n, points),
            Contender::Word => plain::run_to::<true>(memory, state, n, points),
            Contender::Model => run_model_to(memory, state, n, points),
        }
    }

    /// At most `n` steps: with breakpoints where there is a list, be it empty, else by the call without.
    pub fn run_with(self, memory: &mut [u8], state: &mut State, n: u64, points: Option<&[Breakpoint]>) -> RanTo {
        match points {
            Some(points) => self.run_to(memory, state, n, points),
            None => Ok((self.run(memory, state, n)?, None)),
        }
    }
}

fn run_model(memory: &mut [u8], state: &mut State, n: u64) -> Result<u64, u32> {
    let ran = model::desk::run(&state.to_model(), memory, n);
    *state = State::from_model(&ran.state);
    match ran.refusal {
        0 => Ok(ran.count),
        number => Err(number),
    }
}

fn run_model_to(memory: &mut [u8], state: &mut State, n: u64, points: &[Breakpoint]) -> RanTo {
    let points: Vec<_> =
        points.iter().map(|point| model::state::Breakpoint { r15: point.r15, armed: point.armed }).collect();
    let ran = model::breakpoints::run_to(&state.to_model(), memory, n, &points);
    *state = State::from_model(&ran.state);
    match ran.refusal {
        0 => Ok((ran.count, ran.held.map(|place| place as usize))),
        number => Err(number),
    }
}
