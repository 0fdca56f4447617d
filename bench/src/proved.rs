//! The proved desk, through the safe crate over the archive.

use crate::state::{RanTo, State};
use midesk::{Breakpoint, Desk, Refusal, RunEnd};
use model::sequences::{packed, unpacked};

/// What a call on the desk of this state answers, or the number of the refusal.
fn on_desk<T>(state: &mut State, call: impl FnOnce(&mut Desk) -> Result<T, Refusal>) -> Result<T, u32> {
    let mut desk = Desk::from_bytes(packed(&state.to_model()));
    let answer = call(&mut desk);
    *state = State::from_model(&unpacked(&desk.to_bytes()));
    answer.map_err(|refusal| refusal.number())
}

/// At most `n` steps: their count, or the number of the refusal.
pub fn run(memory: &mut [u8], state: &mut State, n: u64) -> Result<u64, u32> {
    on_desk(state, |desk| desk.run(memory, n))
}

/// At most `n` steps, with breakpoints.
pub fn run_to(memory: &mut [u8], state: &mut State, n: u64, points: &[Breakpoint]) -> RanTo {
    let (steps, end) = on_desk(state, |desk| desk.run_to(memory, n, points))?;
    match end {
        RunEnd::Ended => Ok((steps, None)),
        RunEnd::Held { place } => Ok((steps, Some(place))),
        other => panic!("a run ends in a way that is not known: {other:?}"),
    }
}
