//! Rounds of slices: in each round every desk runs every loop in each of its memories for a while, with the simulators
//! between, every loader loads the lists and the pairs of lists of every kind, and the loops run with breakpoints, so
//! that what else the machine does falls on all alike. Ratios are taken within a round of a loop or a kind, which lasts
//! less than a second.

use crate::breakpoint_runs::{BreakpointTrack, MeasuredBreakpoints};
use crate::breakpoints::Breakpoints;
use crate::clock;
use crate::contender::{Contender, CONTENDERS};
use crate::layout::Bench;
use crate::lists::{List, Lists};
use crate::loader::{Loader, LOADERS};
use crate::loops::{Loop, LENGTHS};
use crate::pairs::{self, Pair, Pairs};
use crate::simh::Vax;
use midesk::Breakpoint;
use std::time::{Duration, Instant};

/// Where the number of rounds is not given: the time after which none begins, and how many there are at least.
const TIME: Duration = Duration::from_secs(165);
const LEAST_ROUNDS: usize = 8;

/// CPU seconds of a slice of a desk or a loader. A round has three of them in each memory, with the simulators between.
const SLICE: f64 = 0.02;
pub const SLICES: usize = 3;
/// CPU seconds of a slice of a simulator: longer, for its start-up is taken off. A round has one for each.
const SLICE_SIMH: f64 = 0.15;

/// Commands a second, or bytes put, or calls.
pub type Speeds = Vec<f64>;

/// What was measured of a loop.
pub struct Measured {
    pub which: Loop,
    /// By length of the memory, contender and round.
    pub desks: Vec<[Speeds; CONTENDERS.len()]>,
    /// By simulator and round; empty where the loop has no program for the VAX.
    pub simulators: Vec<Speeds>,
}

/// What was measured of the lists of a kind.
pub struct MeasuredLists {
    pub kind: Lists,
    /// By length of the memory (`LENGTHS`), loader and round.
    pub loaders: [[Speeds; LOADERS.len()]; LENGTHS.len()],
}

/// What was measured of the pairs of a kind.
pub struct MeasuredPairs {
    pub kind: Pairs,
    /// By loader and round.
    pub loaders: [Speeds; LOADERS.len()],
}

/// What is to be measured.
pub struct Wanted {
    pub loops: Vec<Loop>,
    pub lists: Vec<Lists>,
    pub pairs: Vec<Pairs>,
    /// The loops that run with breakpoints, and the lists that they run with.
    pub breakpoint_loops: Vec<Loop>,
    pub breakpoints: Vec<Breakpoints>,
}

/// All that was measured.
pub struct Results {
    pub loops: Vec<Measured>,
    pub lists: Vec<MeasuredLists>,
    pub pairs: Vec<MeasuredPairs>,
    pub breakpoints: Vec<MeasuredBreakpoints>,
}

/// The places of so many contenders in the order of a part of a round: another one begins each time.
pub fn in_turn(contenders: usize, part: usize, round: usize) -> impl Iterator<Item = usize> {
    (0..contenders).map(move |i| (i + part + round) % contenders)
}

/// A loop that is being measured.
struct Track {
    /// By length of the memory.
    benches: Vec<Bench>,
    /// Commands of a slice, by contender.
    counts: [u64; CONTENDERS.len()],
    vaxes: Vec<Vax>,
    measured: Measured,
}

/// CPU seconds of so many commands, with breakpoints where there is a list.
pub fn slice(
    bench: &mut Bench,
    contender: Contender,
    points: Option<&[Breakpoint]>,
    count: u64,
) -> Result<f64, String> {
    let mut state = bench.start(u32::MAX);
    let before = clock::thread();
    let answer = contender.run_with(&mut bench.memory, &mut state, count, points);
    let seconds = clock::thread() - before;
    if answer != Ok((count, None)) {
        return Err(format!("{} {}: {answer:?} for {count} steps", contender.name(), bench.which.name()));
    }
    Ok(seconds)
}

/// The commands of a slice.
pub fn commands_of_slice(
    bench: &mut Bench,
    contender: Contender,
    points: Option<&[Breakpoint]>,
) -> Result<u64, String> {
    const FIRST: u64 = 50_000;
    let seconds = slice(bench, contender, points, FIRST)?;
    Ok((FIRST as f64 * SLICE / seconds) as u64)
}

impl Track {
    fn new(which: Loop, simulators: &[&'static str]) -> Result<Track, String> {
        let mut benches: Vec<Bench> = which.lengths().iter().map(|length| Bench::new(which, *length)).collect();
        let mut counts = [0; CONTENDERS.len()];
        for (count, contender) in counts.iter_mut().zip(CONTENDERS) {
            *count = commands_of_slice(&mut benches[0], contender, None)?;
        }
        let mut vaxes = vec![];
        for simulator in simulators {
            vaxes.extend(Vax::new(simulator, which, SLICE_SIMH)?);
        }
        let desks = benches.iter().map(|_| Default::default()).collect();
        let measured = Measured { which, desks, simulators: vec![vec![]; vaxes.len()] };
        Ok(Track { benches, counts, vaxes, measured })
    }

    fn round(&mut self, round: usize) -> Result<(), String> {
        let mut seconds = vec![[0.0; CONTENDERS.len()]; self.benches.len()];
        for part in 0..SLICES {
            for i in in_turn(CONTENDERS.len(), part, round) {
                for (bench, seconds) in self.benches.iter_mut().zip(&mut seconds) {
                    seconds[i] += slice(bench, CONTENDERS[i], None, self.counts[i])?;
                }
            }
            if let Some(vax) = self.vaxes.get(part) {
                self.measured.simulators[part].push(vax.speed()?);
            }
        }
        for (desks, seconds) in self.measured.desks.iter_mut().zip(seconds) {
            for (i, speeds) in desks.iter_mut().enumerate() {
                speeds.push((SLICES as u64 * self.counts[i]) as f64 / seconds[i]);
            }
        }
        Ok(())
    }
}

/// Lists that are being measured.
struct ListTrack {
    lists: Vec<List>,
    /// By length.
    memories: [Vec<u8>; LENGTHS.len()],
    /// Loads of a slice, by loader.
    counts: [usize; LOADERS.len()],
    measured: MeasuredLists,
}

/// So many loads, of the lists in turn: the CPU seconds, and the bytes put.
pub fn loads(memory: &mut [u8], loader: Loader, lists: &[List], count: usize) -> Result<(f64, usize), String> {
    let loaded = || lists.iter().cycle().take(count);
    let before = clock::thread();
    for list in loaded() {
        let answer = loader.load(memory, &list.bytes);
        answer.map_err(|number| format!("{} refuses a list by {number}", loader.name()))?;
    }
    let seconds = clock::thread() - before;
    Ok((seconds, loaded().map(|list| list.put).sum()))
}

impl ListTrack {
    fn new(kind: Lists) -> Result<ListTrack, String> {
        const FIRST: usize = 64;
        let lists = kind.lists();
        let mut memories = LENGTHS.map(|length| vec![0; length]);
        let mut counts = [0; LOADERS.len()];
        for (count, loader) in counts.iter_mut().zip(LOADERS) {
            // First in every memory without looking at the clock, so that their pages are there.
            for memory in &mut memories {
                loads(memory, loader, &lists, FIRST)?;
            }
            let (seconds, _) = loads(&mut memories[0], loader, &lists, FIRST)?;
            *count = (FIRST as f64 * SLICE / seconds) as usize + 1;
        }
        Ok(ListTrack { lists, memories, counts, measured: MeasuredLists { kind, loaders: Default::default() } })
    }

    fn round(&mut self, round: usize) -> Result<(), String> {
        let mut sums = [[(0.0, 0); LOADERS.len()]; LENGTHS.len()];
        for part in 0..SLICES {
            for i in in_turn(LOADERS.len(), part, round) {
                for (memory, sums) in self.memories.iter_mut().zip(&mut sums) {
                    let (seconds, put) = loads(memory, LOADERS[i], &self.lists, self.counts[i])?;
                    sums[i] = (sums[i].0 + seconds, sums[i].1 + put);
                }
            }
        }
        for (loaders, sums) in self.measured.loaders.iter_mut().zip(sums) {
            for (speeds, (seconds, put)) in loaders.iter_mut().zip(sums) {
                speeds.push(put as f64 / seconds);
            }
        }
        Ok(())
    }
}

/// Pairs that are being measured.
struct PairTrack {
    pairs: Vec<Pair>,
    memory: Vec<u8>,
    scratch: Vec<u8>,
    /// Calls of a slice, by loader.
    counts: [usize; LOADERS.len()],
    measured: MeasuredPairs,
}

/// So many calls, of the pairs in turn: the CPU seconds, and the bytes put.
pub fn calls(
    memory: &mut [u8],
    scratch: &mut [u8],
    loader: Loader,
    pairs: &[Pair],
    count: usize,
) -> Result<(f64, usize), String> {
    let loaded = || pairs.iter().cycle().take(count);
    let before = clock::thread();
    for [first, second] in loaded() {
        let answer = loader.load_both(memory, &first.bytes, &second.bytes, scratch);
        answer.map_err(|number| format!("{} refuses a pair by {number}", loader.name()))?;
    }
    let seconds = clock::thread() - before;
    Ok((seconds, loaded().flatten().map(|list| list.put).sum()))
}

impl PairTrack {
    fn new(kind: Pairs) -> Result<PairTrack, String> {
        const FIRST: usize = 4;
        let pairs = kind.pairs();
        let (mut memory, mut scratch) = (vec![0; pairs::LENGTH], vec![0; pairs::LENGTH]);
        let mut counts = [0; LOADERS.len()];
        for (count, loader) in counts.iter_mut().zip(LOADERS) {
            // First without looking at the clock, so that the pages are there.
            calls(&mut memory, &mut scratch, loader, &pairs, FIRST)?;
            let (seconds, _) = calls(&mut memory, &mut scratch, loader, &pairs, FIRST)?;
            *count = (FIRST as f64 * SLICE / seconds) as usize + 1;
        }
        Ok(PairTrack { pairs, memory, scratch, counts, measured: MeasuredPairs { kind, loaders: Default::default() } })
    }

    fn round(&mut self, round: usize) -> Result<(), String> {
        let mut sums = [0.0; LOADERS.len()];
        for part in 0..SLICES {
            for i in in_turn(LOADERS.len(), part, round) {
                sums[i] += calls(&mut self.memory, &mut self.scratch, LOADERS[i], &self.pairs, self.counts[i])?.0;
            }
        }
        for (i, speeds) in self.measured.loaders.iter_mut().enumerate() {
            speeds.push((SLICES * self.counts[i]) as f64 / sums[i]);
        }
        Ok(())
    }
}

/// So many rounds, or as many as there is time for.
pub fn measure(wanted: &Wanted, simulators: &[&'static str], rounds: Option<usize>) -> Result<Results, String> {
    let begin = Instant::now();
    clock::stay();
    let mut tracks = vec![];
    for which in &wanted.loops {
        tracks.push(Track::new(*which, simulators)?);
    }
    let mut list_tracks = vec![];
    for kind in &wanted.lists {
        list_tracks.push(ListTrack::new(*kind)?);
    }
    let mut pair_tracks = vec![];
    for kind in &wanted.pairs {
        pair_tracks.push(PairTrack::new(*kind)?);
    }
    let mut breakpoint_tracks = vec![];
    for which in &wanted.breakpoint_loops {
        breakpoint_tracks.push(BreakpointTrack::new(*which, &wanted.breakpoints)?);
    }
    let mut round = 0;
    while rounds.map_or(round < LEAST_ROUNDS || begin.elapsed() < TIME, |rounds| round < rounds) {
        for track in &mut tracks {
            track.round(round)?;
        }
        for track in &mut list_tracks {
            track.round(round)?;
        }
        for track in &mut pair_tracks {
            track.round(round)?;
        }
        for track in &mut breakpoint_tracks {
            track.round(round)?;
        }
        round += 1;
    }
    Ok(Results {
        loops: tracks.into_iter().map(|track| track.measured).collect(),
        lists: list_tracks.into_iter().map(|track| track.measured).collect(),
        pairs: pair_tracks.into_iter().map(|track| track.measured).collect(),
        breakpoints: breakpoint_tracks.into_iter().map(|track| track.measured).collect(),
    })
}
