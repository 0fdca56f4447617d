//! The desk against the model, in one process: the generator's cases, random sequences of calls, valid and damaged,
//! random load lists, random pairs of lists, and random runs to breakpoints. MIDESK_SEED, MIDESK_FIRST and MIDESK_COUNT
//! choose other random sequences: the seed, the first one's index, how many; MIDESK_LISTS_FIRST and MIDESK_LISTS_COUNT
//! other sequences of lists, 10 lists in each; with PAIRS for LISTS, of pairs, about 10 in each; with POINTS, of runs to
//! breakpoints, 10 in each.
//!
//! A sequence that differs is named by the command that writes it alone, to be used in `model`.

use midesk::{Breakpoint, Desk, Event, RunEnd};
use model::pair::{After, Pair};
use model::sequences::{lists, pairs, points, random, Act, Sequence};
use model::state;

const BESIDE: usize = 64;
const FILL: u8 = 0xA5;

/// A memory, a list or a scratch with filled bytes before and after it.
struct Lent {
    bytes: Vec<u8>,
    length: usize,
}

impl Lent {
    fn new(memory: &[u8]) -> Lent {
        let mut bytes = vec![FILL; memory.len() + 2 * BESIDE];
        bytes[BESIDE..BESIDE + memory.len()].copy_from_slice(memory);
        Lent { bytes, length: memory.len() }
    }

    fn memory(&mut self) -> &mut [u8] {
        &mut self.bytes[BESIDE..BESIDE + self.length]
    }

    fn untouched(&self) -> bool {
        let (before, after) = (&self.bytes[..BESIDE], &self.bytes[BESIDE + self.length..]);
        before.iter().chain(after).all(|byte| *byte == FILL)
    }
}

fn step_number(answer: Result<Event, midesk::Refusal>) -> u64 {
    let (kind, number) = match answer {
        Ok(Event::Done) => (0, 0),
        Err(refusal) => (1, refusal.number()),
        Ok(Event::Entered(cause)) => (2, cause),
        Ok(Event::Stopped(number)) => (3, number),
        Ok(event) => panic!("an event that the model does not have: {event:?}"),
    };
    kind << 32 | u64::from(number)
}

fn run_number(answer: Result<RunEnd, midesk::Refusal>) -> u64 {
    let (kind, number) = match answer {
        Ok(RunEnd::Ended) => (0, 0),
        Err(refusal) => (1, u64::from(refusal.number())),
        Ok(RunEnd::Held { place }) => (4, place as u64),
        Ok(end) => panic!("an end that the model does not have: {end:?}"),
    };
    kind << 32 | number
}

/// Answer and steps of a run to breakpoints. They are lent between others, which hold the desk where it is; `None`
/// where one of them has changed.
fn run_to(desk: &mut Desk, memory: &mut [u8], n: u64, points: &[state::Breakpoint]) -> Option<(u64, u64)> {
    let beside = [Breakpoint { r15: desk.register(15), armed: true }; 2];
    let between: Vec<_> = points.iter().map(|point| Breakpoint { r15: point.r15, armed: point.armed }).collect();
    let all = [&beside, between.as_slice(), &beside].concat();
    let lent = all.clone();
    let answer = desk.run_to(memory, n, &lent[beside.len()..][..points.len()]);
    let steps = answer.map_or(0, |(steps, _)| steps);
    (lent == all).then_some((run_number(answer.map(|(_, end)| end)), steps))
}

fn refusal_number<T>(answer: &Result<T, midesk::Refusal>) -> u64 {
    answer.as_ref().map_or_else(|refusal| u64::from(refusal.number()), |_| 0)
}

/// Replays a sequence; `Err` says where it differs.
fn replay(sequence: &Sequence) -> Result<(), String> {
    let mut expected = sequence.memory.clone();
    let mut lent = Lent::new(&expected);
    let mut desk = Desk::from_bytes(sequence.state);
    for (i, (act, left)) in sequence.acts.iter().enumerate() {
        let mut steps = 0;
        let mut lists_kept = true;
        let mut scratch_right = true;
        let answer = match act {
            Act::Fresh { system, control, start } => {
                let made = Desk::fresh(lent.memory(), *system, *control, *start);
                let answer = refusal_number(&made);
                // When refused there is no desk; the model's is all zero, stopped with the number.
                desk = made.unwrap_or_else(|_| Desk::from_bytes(left.as_ref().unwrap().state));
                answer
            }
            Act::Step => step_number(desk.step(lent.memory())),
            Act::Run(n) => {
                let answer = desk.run(lent.memory(), *n);
                steps = answer.unwrap_or(0);
                refusal_number(&answer)
            }
            Act::Request(level) => refusal_number(&desk.request(*level)),
            Act::Load(list) => {
                let mut bytes = Lent::new(list);
                let answer = refusal_number(&midesk::load(lent.memory(), bytes.memory()));
                lists_kept = bytes.memory() == list && bytes.untouched();
                answer
            }
            Act::LoadBoth(Pair { first, second, scratch }) => {
                let (mut one, mut two, mut notes) = (Lent::new(first), Lent::new(second), Lent::new(&scratch.bytes()));
                // Equal lists are lent as one and the same.
                let one_bytes: &[u8] = one.memory();
                let two_bytes = if first == second { one_bytes } else { two.memory() };
                let answer = midesk::load_both(lent.memory(), one_bytes, two_bytes, notes.memory());
                lists_kept = one.memory() == first && two.memory() == second && one.untouched() && two.untouched();
                scratch_right = notes.untouched()
                    && match left.as_ref().expect("a call leaves something").scratch {
                        After::AsBefore => notes.memory() == scratch.bytes(),
                        After::Zeros => notes.memory().iter().all(|byte| *byte == 0),
                        After::Other => false,
                    };
                refusal_number(&answer)
            }
            Act::RunTo { n, points } => {
                let ran = run_to(&mut desk, lent.memory(), *n, points);
                lists_kept = ran.is_some();
                let (answer, made) = ran.unwrap_or_default();
                steps = made;
                answer
            }
            Act::State(bytes) => {
                desk = Desk::from_bytes(*bytes);
                continue;
            }
            Act::Memory { at, bytes } => {
                expected[*at as usize..][..bytes.len()].copy_from_slice(bytes);
                lent.memory()[*at as usize..][..bytes.len()].copy_from_slice(bytes);
                continue;
            }
            Act::Length(length) => {
                expected.resize(*length as usize, 0);
                lent = Lent::new(&expected);
                continue;
            }
        };
        let left = left.as_ref().expect("a call leaves something");
        for change in &left.changes {
            expected[change.at as usize..][..change.bytes.len()].copy_from_slice(&change.bytes);
        }
        let what = if answer != left.answer {
            format!("answer {answer:X}h, the model's {:X}h", left.answer)
        } else if steps != left.steps {
            format!("{steps} steps, the model's {}", left.steps)
        } else if desk.to_bytes() != left.state {
            format!("{desk:?}, the model's {:?}", Desk::from_bytes(left.state))
        } else if lent.memory() != expected {
            "the memory".to_string()
        } else if !lent.untouched() {
            "a byte beside the memory".to_string()
        } else if !lists_kept {
            "a list, or a byte beside it".to_string()
        } else if !scratch_right {
            "the scratch, or a byte beside it".to_string()
        } else {
            continue;
        };
        return Err(format!("{} sequence, act {i}, {act:?}: {what}", sequence.family));
    }
    Ok(())
}

fn number(name: &str, otherwise: u64) -> u64 {
    std::env::var(name).map_or(otherwise, |text| text.parse().expect("a number"))
}

/// Replays them all and prints how many differ. The model's program and arguments `writer` write them from number
/// `first` on.
fn replay_all(what: &str, writer: &str, first: usize, sequences: impl Iterator<Item = Sequence>) {
    let (mut count, mut calls, mut differ) = (0, 0, 0);
    for sequence in sequences {
        if let Err(difference) = replay(&sequence) {
            if differ < 5 {
                let number = first + count;
                eprintln!("cargo run --release --bin {writer} only {number}: {difference}");
            }
            differ += 1;
        }
        count += 1;
        calls += sequence.calls();
    }
    println!("{what}: {count} sequences, {calls} calls: {differ} differ");
    assert_eq!(differ, 0, "{what} differ from the model");
}

#[test]
fn cases_of_the_generator() {
    replay_all("cases of the generator", "sequences -- 1 0", 0, random::stored().into_iter());
}

#[test]
fn random_sequences() {
    let seed = number("MIDESK_SEED", 1);
    let from = number("MIDESK_FIRST", 6000) as u32;
    let to = from + number("MIDESK_COUNT", 6000) as u32;
    let first = random::stored().len() + (random::LOADS + from) as usize;
    let sequences = (from..to).map(|index| random::sequence(seed, index));
    replay_all("random sequences", &format!("sequences -- {seed} {to}"), first, sequences);
}

#[test]
fn random_loads() {
    let seed = number("MIDESK_SEED", 1);
    let sequences = (0..random::LOADS).map(|index| random::loads(seed, index));
    replay_all("random loads", &format!("sequences -- {seed} 0"), random::stored().len(), sequences);
}

/// Replays 2,000 sequences that this program of the model writes.
fn replay_of(program: &str, sequence: fn(u64, u32) -> Sequence) {
    let chosen = |what: &str, otherwise| number(&format!("MIDESK_{}_{what}", program.to_uppercase()), otherwise) as u32;
    let seed = number("MIDESK_SEED", 1);
    let from = chosen("FIRST", 20000);
    let to = from + chosen("COUNT", 2000);
    let sequences = (from..to).map(|index| sequence(seed, index));
    replay_all(&format!("random {program}"), &format!("{program} -- {seed} {to}"), from as usize, sequences);
}

#[test]
fn random_lists() {
    replay_of("lists", lists::sequence);
}

#[test]
fn random_pairs() {
    replay_of("pairs", pairs::sequence);
}

#[test]
fn random_points() {
    replay_of("points", points::sequence);
}
