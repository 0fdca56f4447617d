//! Random sequences, valid and damaged.

use super::acts::*;
use super::session::Session;
use super::*;
use crate::asm;
use crate::gen::layout::{layout, Layout};
use crate::gen::list_programs::parts;
use crate::gen::refusals::{any_level, good_state};
use crate::gen::walks::{any_kinds, noise_case, prepare, walk};
use crate::gen::{all, known_bytes};
use crate::map::DATA;
use crate::rng::Rng;

/// The generator's own cases.
pub fn stored() -> Vec<Sequence> {
    let mut list = Vec::new();
    for (family, cases) in all() {
        list.extend(cases.iter().map(|case| Session::of_case(family, case).finish()));
    }
    list
}

/// Sequence number `index` of a seed.
pub fn sequence(seed: u64, index: u32) -> Sequence {
    let mut rng = Rng::new(seed);
    let mut rng = Rng::new(rng.next() ^ u64::from(index) << 20);
    let rng = &mut rng;
    if index % 400 == 399 {
        return large(rng);
    }
    match rng.below(100) {
        0..=19 => walked(rng),
        20..=31 => noise(rng),
        32..=64 => programs(rng),
        65..=74 => floats::commands(rng),
        75..=89 => damaged(rng),
        _ => freshes(rng),
    }
}

/// How many sequences of loads there are of a seed.
pub const LOADS: u32 = 600;

/// Number `index` of them: random lists into memories of any length, now and then
/// pairs of them, and commands that come as a list or two and are then run.
pub fn loads(seed: u64, index: u32) -> Sequence {
    let rng = &mut lists::numbers(seed, "loads", index);
    let known = known_bytes();
    let length = match rng.below(20) {
        0 => bad_length(rng),
        1 | 2 => 512 * (9 + rng.below(120)),
        3 if index % 8 == 7 => LONGEST - 512 + 512 * rng.below(3),
        _ => lists::small_length(rng),
    };
    let mut session = lists::begin(rng, "loads", length);
    for _ in 0..lists::LOADS {
        match rng.below(100) {
            0..=11 => pairs::load_both(&mut session, rng),
            12..=17 => pairs::program(&mut session, rng, &known),
            _ => {}
        }
        if rng.chance(75) {
            lists::load(&mut session, rng);
            continue;
        }
        let at = rng.below(length + 1);
        let bytes = code(rng, &known, length.max(1));
        let commands = parts(rng, &[(at, bytes)]);
        session.call(Act::Load(asm::list(&commands)));
        let (system, control) = (block(rng, length, 256), block(rng, length, 80));
        session.call(Act::Fresh { system, control, start: at });
        let n = u64::from(rng.below(9));
        session.run(n, MOST);
    }
    session.finish()
}

fn walked(rng: &mut Rng) -> Sequence {
    let case = walk(rng, &known_bytes());
    let mut session = Session::of_case("walk", &case);
    tail(&mut session, rng);
    session.finish()
}

fn noise(rng: &mut Rng) -> Sequence {
    let round = rng.below(2);
    let case = noise_case(rng, round);
    let mut session = Session::of_case("noise", &case);
    tail(&mut session, rng);
    session.finish()
}

/// Lays commands where the desk is about to run them, for n steps, and the
/// entries of the system block that they need.
fn lay(session: &mut Session, desk: &mut Layout, bytes: &[u8], n: u64) {
    if session.memory.len() != desk.maker.memory.len() || !session.ready() {
        return;
    }
    desk.maker.take(&session.memory, session.state);
    for i in 0..n {
        if i > 0 {
            desk.maker.silent_step();
        }
        prepare(desk, bytes);
        if desk.maker.state.stopped() {
            break;
        }
    }
    let memory = desk.maker.image().to_vec();
    session.put_memory(&memory);
}

/// A long program in both modes under a map of any kind, with interrupts,
/// runs, stops and going on after them.
fn programs(rng: &mut Rng) -> Sequence {
    let bytes = known_bytes();
    let kinds = any_kinds(rng);
    let shared = rng.chance(70);
    let mut desk = layout(Rng::new(rng.next()), &kinds, shared);
    desk.maker.bad_entries = 4;
    let mut state = desk.maker.state;
    if rng.chance(35) {
        state.status |= KERNEL;
    }
    if rng.chance(25) {
        state.pending = rng.word() as u16 & rng.word() as u16 & 0xFFFE;
    }
    if rng.chance(12) {
        // A map that ends early, or an empty one.
        state.map_length = rng.below(state.map_length + 1);
    }
    desk.maker.begin(state);
    desk.registers();
    desk.aim();
    let mut session = Session::new("program", desk.maker.memory.clone(), packed(&desk.maker.state));
    let target = 8 + rng.below(28) as usize;
    while session.calls() < target {
        if session.state.stopped() && rng.chance(75) {
            go_on(&mut session, rng);
        }
        match rng.below(40) {
            0..=3 => session.call(Act::Request(any_level(rng))),
            4..=9 => {
                let n = u64::from(rng.below(8));
                lay(&mut session, &mut desk, &bytes, n);
                session.run(n, MOST);
            }
            10 => {
                let n = count(rng);
                session.run(n, MOST);
            }
            11 => scribble(&mut session, rng, &bytes),
            12 => detour(&mut session, rng),
            13..=22 => {
                let n = u64::from(2 + rng.below(10));
                lay(&mut session, &mut desk, &bytes, n);
                any_run_to(&mut session, rng);
            }
            _ => {
                lay(&mut session, &mut desk, &bytes, 1);
                session.call(Act::Step);
            }
        }
    }
    session.finish()
}

/// Damaged states one after another, with a good one between.
fn damaged(rng: &mut Rng) -> Sequence {
    let known = known_bytes();
    let length = if rng.chance(25) { bad_length(rng) } else { 512 * (1 + rng.below(5)) };
    let filled = rng.below(3);
    let memory = (0..length).map(|_| if filled > 0 { rng.word() as u8 } else { 0 }).collect();
    let mut good = good_state(rng, length);
    good.registers[PC] = rng.below(length + 1);
    let first = if rng.chance(50) { packed(&good) } else { damage(rng, &good, length) };
    let mut session = Session::new("damaged", memory, first);
    for _ in 0..2 + rng.below(6) {
        for _ in 0..1 + rng.below(3) {
            any_call(&mut session, rng);
        }
        if rng.chance(30) {
            scribble(&mut session, rng, &known);
        }
        let bytes = if rng.chance(40) { packed(&good) } else { damage(rng, &good, length) };
        session.put_state(bytes);
    }
    any_call(&mut session, rng);
    session.finish()
}

/// Fresh desks, good and bad, over lengths good and bad, each run a little.
fn freshes(rng: &mut Rng) -> Sequence {
    let known = known_bytes();
    let length = if rng.chance(25) { bad_length(rng) } else { 512 * (1 + rng.below(8)) };
    let memory = vec![0; length as usize];
    let before: StateBytes = std::array::from_fn(|_| rng.word() as u8);
    let mut session = Session::new("fresh", memory, before);
    for _ in 0..1 + rng.below(4) {
        any_fresh(&mut session, rng);
        for _ in 0..1 + rng.below(5) {
            if rng.chance(60) {
                scribble(&mut session, rng, &known);
            }
            any_call(&mut session, rng);
            if session.state.stopped() && rng.chance(40) {
                go_on(&mut session, rng);
            }
        }
    }
    session.finish()
}

/// The greatest memory, or one that is too long, used near its end.
fn large(rng: &mut Rng) -> Sequence {
    let known = known_bytes();
    let length = match rng.below(4) {
        0 => LONGEST + 512,
        1 => LONGEST - 512 * rng.below(3),
        _ => LONGEST,
    };
    let mut session = Session::new("large", vec![0; length as usize], [0; STATE_BYTES]);
    let end = length - 512;
    let system = rng.pick(&[0, length - 256, length - 336]);
    let control = rng.pick(&[1024, length - 80]);
    session.call(Act::Fresh { system, control, start: end + rng.below(200) });
    for round in 0..8 {
        if session.state.stopped() {
            let again = rng.chance(70);
            session.edit(|state| {
                state.mark = Mark::Running;
                state.registers[PC] = end + 40 * round;
                if again {
                    state.status |= KERNEL;
                }
            });
        }
        let mut memory = session.memory.clone();
        lay_bytes(&mut memory, session.state.registers[PC], &code(rng, &known, length));
        if rng.chance(30) {
            // User mode under a map of the last frames, one of them past the memory.
            let base = length - 1024;
            for page in 0..4 {
                let data = if rng.chance(15) { DATA } else { 0 };
                let entry = 0xC000_0000 | data | (length / 512 - 2 + page);
                memory[(base + 4 * page) as usize..][..4].copy_from_slice(&entry.to_be_bytes());
            }
            session.put_memory(&memory);
            let place = 512 + rng.below(600);
            session.edit(|state| {
                state.status &= !KERNEL;
                (state.map_base, state.map_length) = (base, 4);
                state.registers[PC] = place;
            });
        } else {
            session.put_memory(&memory);
        }
        match rng.below(10) {
            0..=5 => session.call(Act::Step),
            6 | 7 => any_run_to(&mut session, rng),
            _ => {
                let n = u64::from(rng.below(6));
                session.run(n, MOST);
            }
        }
    }
    session.finish()
}
