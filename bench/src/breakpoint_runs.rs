//! Runs with breakpoints, measured as the loops are: in each part of a round every desk that is compared has a slice, so
//! that the ratios are those of one round.

use crate::breakpoints::Breakpoints;
use crate::contender::Contender;
use crate::layout::Bench;
use crate::loops::{Loop, LENGTHS};
use crate::measure::{commands_of_slice, in_turn, slice, Speeds, SLICES};
use midesk::Breakpoint;

/// A desk, and the list that it runs with; none where the call is the one without breakpoints.
pub type Way = (Contender, Option<Breakpoints>);

/// What the ratios are taken to.
pub const RUN: Way = (Contender::Proved, None);

/// The proved desk without breakpoints and with each list, then plain Rust with the lists that it is shown for.
fn ways(kinds: &[Breakpoints]) -> Vec<Way> {
    let plain = kinds.iter().filter(|kind| kind.beside_plain().is_some());
    let proved = kinds.iter().map(|kind| (Contender::Proved, Some(*kind)));
    [RUN].into_iter().chain(proved).chain(plain.map(|kind| (Contender::Word, Some(*kind)))).collect()
}

/// What was measured of a loop.
pub struct MeasuredBreakpoints {
    pub which: Loop,
    pub kinds: Vec<Breakpoints>,
    /// With the speeds by round.
    pub ways: Vec<(Way, Speeds)>,
}

impl MeasuredBreakpoints {
    pub fn speeds(&self, way: Way) -> &[f64] {
        let found = self.ways.iter().find(|(other, _)| *other == way);
        &found.expect("every way of the table is measured").1
    }
}

/// A loop that is being measured.
pub struct BreakpointTrack {
    bench: Bench,
    /// By way.
    lists: Vec<Option<Vec<Breakpoint>>>,
    /// Commands of a slice, by way.
    counts: Vec<u64>,
    pub measured: MeasuredBreakpoints,
}

impl BreakpointTrack {
    pub fn new(which: Loop, kinds: &[Breakpoints]) -> Result<BreakpointTrack, String> {
        let mut bench = Bench::new(which, LENGTHS[0]);
        let (mut lists, mut counts) = (vec![], vec![]);
        let ways = ways(kinds);
        for (contender, kind) in &ways {
            let list = kind.map(|kind| kind.points(which.kind));
            counts.push(commands_of_slice(&mut bench, *contender, list.as_deref())?);
            lists.push(list);
        }
        let ways = ways.into_iter().map(|way| (way, vec![])).collect();
        let measured = MeasuredBreakpoints { which, kinds: kinds.to_vec(), ways };
        Ok(BreakpointTrack { bench, lists, counts, measured })
    }

    pub fn round(&mut self, round: usize) -> Result<(), String> {
        let ways = &mut self.measured.ways;
        let mut seconds = vec![0.0; ways.len()];
        for part in 0..SLICES {
            for i in in_turn(ways.len(), part, round) {
                let (contender, _) = ways[i].0;
                seconds[i] += slice(&mut self.bench, contender, self.lists[i].as_deref(), self.counts[i])?;
            }
        }
        for (i, (_, speeds)) in ways.iter_mut().enumerate() {
            speeds.push((SLICES as u64 * self.counts[i]) as f64 / seconds[i]);
        }
        Ok(())
    }
}
