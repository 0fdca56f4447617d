//! Programs that come in two load lists and are run.

use super::family_rng;
use super::list_programs::{addition, parts, user_parts, Parts};
use super::lists::desk;
use super::pairs::together;
use super::shuffle;
use crate::asm::*;
use crate::case::{Call, Case};
use crate::load::Command::*;
use crate::rng::Rng;

/// Deals parts to two lists; some go to both.
fn deal(rng: &mut Rng, all: Parts) -> [Parts; 2] {
    let mut two = [Vec::new(), Vec::new()];
    for part in all {
        let to = rng.below(5);
        for (i, parts) in two.iter_mut().enumerate() {
            if to == 4 || to % 2 == i as u32 {
                parts.push(part.clone());
            }
        }
    }
    two
}

/// Cuts bytes into parts of a few bytes each, which may overlap by one.
pub fn cut(rng: &mut Rng, at: u32, bytes: &[u8]) -> Parts {
    let mut all = Vec::new();
    let mut from = 0;
    while from < bytes.len() {
        let to = (from + 1 + rng.below(12) as usize).min(bytes.len());
        let start = from - usize::from(from > 0 && rng.chance(30));
        all.push((at + start as u32, bytes[start..to].to_vec()));
        from = to;
    }
    all
}

/// Two lists that together put these parts.
pub fn dealt(rng: &mut Rng, all: Parts) -> [Vec<u8>; 2] {
    let [first, second] = deal(rng, all);
    [list(&parts(rng, &first)), list(&parts(rng, &second))]
}

/// Programs that are loaded and then run; pairs that load and refused ones between runs.
pub fn programs() -> Vec<Case> {
    let mut rng = family_rng("both programs");
    let rng = &mut rng;
    let mut cases = Vec::new();
    let fresh = Call::Fresh { system: 0, control: 256, start: 512 };
    for round in 0..12 {
        let code = addition(rng);
        let mut maker = desk(rng, 1024);
        let all = cut(rng, 512, &code);
        let [first, second] = dealt(rng, all);
        let call = together(rng, 1024, first, second);
        maker.call(call);
        maker.call(fresh.clone());
        maker.call(Call::Run(10));
        // Another value for the first command, half of it from each list, or a refused pair.
        let [p, q, r, s] = rng.word().to_be_bytes();
        let mut first = list(&[Move(515), Byte(p), Byte(q), Byte(r)]);
        let mut second = list(&[Move(517), Byte(if round % 4 == 1 { !r } else { r }), Byte(s)]);
        match round % 4 {
            2 => drop(first.pop()),
            3 => second.push(0),
            _ => {}
        }
        let call = together(rng, 1024, first, second);
        maker.call(call);
        maker.call(fresh.clone());
        for _ in 0..2 {
            maker.call(Call::Step);
        }
        maker.call(Call::Run(7));
        cases.push(maker.finish());
    }
    for round in 0..6 {
        cases.push(user_program(rng, round));
    }
    cases
}

/// A kernel, its blocks and a user program from two lists; between the steps another pair changes a
/// command that is yet to run.
fn user_program(rng: &mut Rng, round: u32) -> Case {
    let (mut all, user) = user_parts(rng);
    all.extend(cut(rng, 2048, &user));
    shuffle(rng, &mut all);
    let mut maker = desk(rng, 3072);
    let [first, second] = dealt(rng, all);
    let call = together(rng, 3072, first, second);
    maker.call(call);
    maker.call(Call::Fresh { system: 0, control: 256, start: 512 });
    if round % 2 == 1 {
        maker.call(Call::Step);
        maker.call(Call::Step);
        // The second command now stores into the read-only page: alarm 11.
        let bytes = command(0x12, &[register(3), absolute(0x200)]);
        let all = cut(rng, 2048 + 13, &bytes);
        let [first, second] = dealt(rng, all);
        let call = together(rng, 3072, first.clone(), second.clone());
        maker.call(call);
        maker.call(Call::Step);
        let call = together(rng, 3072, first[1..].to_vec(), second);
        maker.call(call);
        maker.call(Call::Run(4));
    } else {
        maker.call(Call::Run(10));
    }
    maker.finish()
}
