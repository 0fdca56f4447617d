//! Random load lists: sequences of loads, one after another on one memory.

use super::acts::bad_length;
use super::session::Session;
use super::*;
use crate::gen::any_list::any_list;
use crate::gen::family_rng;
use crate::rng::Rng;

/// How many lists a sequence has.
pub const LOADS: usize = 10;

/// The numbers behind sequence number `index` of a seed and a family, as `random::sequence` has its own.
pub fn numbers(seed: u64, family: &str, index: u32) -> Rng {
    let mut rng = Rng::new(seed ^ family_rng(family).next());
    Rng::new(rng.next() ^ u64::from(index) << 20)
}

/// Loads alone, into small memories: sequence number `index` of a seed.
pub fn sequence(seed: u64, index: u32) -> Sequence {
    let rng = &mut numbers(seed, "lists", index);
    let length = if rng.chance(5) { bad_length(rng) } else { small_length(rng) };
    let mut session = begin(rng, "lists", length);
    while session.calls() < LOADS {
        load(&mut session, rng);
    }
    session.finish()
}

pub fn small_length(rng: &mut Rng) -> u32 {
    512 * (1 + rng.below(8))
}

/// A memory of random bytes, or of zeros where it is large; and any state, which no load looks at.
pub fn begin(rng: &mut Rng, family: &'static str, length: u32) -> Session {
    let large = length > 1 << 20;
    let memory = (0..length).map(|_| if large { 0 } else { rng.word() as u8 }).collect();
    Session::new(family, memory, std::array::from_fn(|_| rng.word() as u8))
}

/// Loads any list.
pub fn load(session: &mut Session, rng: &mut Rng) {
    let list = any_list(rng, session.memory.len() as u32);
    session.call(Act::Load(list));
}
