//! Runs with breakpoints: before each step but the first, the list is searched.

use super::{entry, step};
use crate::state::{RanTo, State, RUNNING};
use midesk::Breakpoint;

const MOST_BREAKPOINTS: usize = 64;

/// The number of the refusal.
const BREAKPOINTS: u32 = 20;

/// At most `n` steps, up to an armed breakpoint.
#[inline(never)]
pub fn run_to<const ONE_LOOKUP: bool>(memory: &mut [u8], desk: &mut State, n: u64, points: &[Breakpoint]) -> RanTo {
    entry::refusal(memory, desk)?;
    if points.len() > MOST_BREAKPOINTS {
        return Err(BREAKPOINTS);
    }
    let mut steps = 0;
    while steps < n && desk.stopped == RUNNING {
        if steps > 0 {
            if let Some(place) = held(desk, points) {
                return Ok((steps, Some(place)));
            }
        }
        step::<ONE_LOOKUP, true>(memory, desk);
        steps += 1;
    }
    Ok((steps, None))
}

/// The place of the first armed breakpoint at R15, unless an interrupt is due.
fn held(desk: &State, points: &[Breakpoint]) -> Option<usize> {
    let place = points.iter().position(|point| point.armed && point.r15 == desk.registers[15])?;
    entry::interrupt(desk).is_none().then_some(place)
}
