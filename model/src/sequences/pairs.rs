//! Random pairs of load lists: sequences of joint loads, one after another on one memory.

use super::acts::{bad_length, block, code, LONGEST, MOST};
use super::lists::{numbers, small_length};
use super::session::Session;
use super::*;
use crate::gen::any_pair::{any_pair, any_scratch};
use crate::gen::pair_programs::{cut, dealt};
use crate::rng::Rng;

/// How many pairs a sequence has; fewer on the greatest memories.
pub const PAIRS: usize = 10;
pub const FEW: usize = 3;

/// From this length on a memory is large: zeros, but for some frames.
const LARGE: u32 = 8_192;

/// Joint loads alone: sequence number `index` of a seed.
pub fn sequence(seed: u64, index: u32) -> Sequence {
    let rng = &mut numbers(seed, "pairs", index);
    let length = match rng.below(1_000) {
        0..=39 => bad_length(rng),
        40..=779 => small_length(rng),
        780..=989 => 512 * (9 + rng.below(88)),
        990..=997 => 512 * (97 + rng.below(1_952)),
        _ => LONGEST - 512 + 512 * rng.below(3),
    };
    let state = std::array::from_fn(|_| rng.word() as u8);
    let mut session = Session::new("pairs", memory(rng, length), state);
    while session.calls() < if length > 1 << 20 { FEW } else { PAIRS } {
        load_both(&mut session, rng);
    }
    session.finish()
}

/// Random bytes; in a large memory the first frame, the last one and a few others.
fn memory(rng: &mut Rng, length: u32) -> Vec<u8> {
    let mut memory = vec![0; length as usize];
    let mut frames = vec![(0, length)];
    if length >= LARGE {
        frames =
            [0, length - 512].into_iter().chain((0..4).map(|_| rng.below(length - 512))).map(|at| (at, 512)).collect();
    }
    for (at, size) in frames {
        for byte in &mut memory[at as usize..(at + size) as usize] {
            *byte = rng.word() as u8;
        }
    }
    memory
}

/// Loads any pair.
pub fn load_both(session: &mut Session, rng: &mut Rng) {
    let pair = any_pair(rng, session.memory.len() as u32, true);
    session.call(Act::LoadBoth(pair));
}

/// Commands that come in two lists and are then run.
pub fn program(session: &mut Session, rng: &mut Rng, known: &[u8]) {
    let length = session.memory.len() as u32;
    let at = rng.below(length + 1);
    let bytes = code(rng, known, length.max(1));
    let all = cut(rng, at, &bytes);
    let [first, second] = dealt(rng, all);
    session.call(Act::LoadBoth(Pair { first, second, scratch: any_scratch(rng, length) }));
    let (system, control) = (block(rng, length, 256), block(rng, length, 80));
    session.call(Act::Fresh { system, control, start: at });
    let n = u64::from(rng.below(9));
    session.run(n, MOST);
}
