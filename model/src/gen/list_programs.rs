//! Programs that come as load lists and are run.

use super::family_rng;
use super::lists::desk;
use crate::asm::*;
use crate::case::{Call, Case};
use crate::load::Command::{self, *};
use crate::rng::Rng;
use crate::state::*;

/// Parts of a program with their addresses.
pub type Parts = Vec<(u32, Vec<u8>)>;

/// Parts of a program, each with its own address, in pieces of all kinds.
pub fn parts(rng: &mut Rng, parts: &[(u32, Vec<u8>)]) -> Vec<Command> {
    let mut commands = Vec::new();
    for (at, bytes) in parts {
        commands.push(Move(*at));
        let mut left = &bytes[..];
        while !left.is_empty() {
            let same = left.iter().take_while(|byte| **byte == left[0]).count();
            let (piece, size) = match left {
                [a, b, c, d, ..] if same < 4 && rng.chance(70) => (Four([*a, *b, *c, *d]), 4),
                [a, ..] if same > 1 || rng.chance(20) => (Copies(same as u16, *a), same),
                _ => (Byte(left[0]), 1),
            };
            commands.push(piece);
            left = &left[size..];
        }
    }
    commands
}

/// A program that adds two numbers, stores the sum and halts.
pub fn addition(rng: &mut Rng) -> Vec<u8> {
    let [a, b] = [rng.word(), rng.below(1_000)];
    let x = 1 + rng.below(12) as u8;
    let code = [
        command(0x12, &[immediate(a), register(x)]),
        command(0x42, &[immediate(b), register(x)]),
        command(0x12, &[register(x), absolute(0x300)]),
        vec![0],
    ];
    code.concat()
}

/// Programs that are loaded and then run; loads and refused loads between runs.
pub fn programs() -> Vec<Case> {
    let mut rng = family_rng("load programs");
    let rng = &mut rng;
    let mut cases = Vec::new();
    let fresh = Call::Fresh { system: 0, control: 256, start: 512 };
    for round in 0..12 {
        let code = addition(rng);
        let mut maker = desk(rng, 1024);
        let commands = parts(rng, &[(512, code)]);
        maker.call(Call::Load(list(&commands)));
        maker.call(fresh.clone());
        maker.call(Call::Run(10));
        // Another value is loaded into the first command; the program runs again, or the list is refused.
        let mut other = vec![Move(515), Four(rng.word().to_be_bytes())];
        if round % 3 == 1 {
            other.extend([Move(1024), Byte(0)]);
        }
        let mut bytes = list(&other);
        if round % 3 == 2 {
            bytes.push(0);
        }
        maker.call(Call::Load(bytes));
        maker.call(fresh.clone());
        for _ in 0..2 {
            maker.call(Call::Step);
        }
        maker.call(Call::Run(7));
        cases.push(maker.finish());
    }
    for round in 0..6 {
        cases.push(user_program(rng, round));
    }
    cases
}

/// What a kernel and a user program of two pages need in memory, the second one without commands,
/// and the program's commands, which go to 2048: it stores a value, reads one from the second page
/// and calls the system, which halts.
pub fn user_parts(rng: &mut Rng) -> (Parts, Vec<u8>) {
    let entries: Vec<u8> = (0..32).flat_map(|i| [0x600 + 8 * i, KERNEL]).flat_map(u32::to_be_bytes).collect();
    let map: Vec<u8> = [0xC000_0004u32, 0xA000_0005].into_iter().flat_map(u32::to_be_bytes).collect();
    let mut block = vec![0; 80];
    block[72..].copy_from_slice(&[384u32.to_be_bytes(), 2u32.to_be_bytes()].concat());
    let user = [
        command(0x12, &[immediate(rng.word()), absolute(0x100)]),
        command(0x12, &[absolute(0x200), register(3)]),
        command(3, &[register(3)]),
    ];
    let parts = vec![
        (0, entries),
        (256, block),
        (384, map),
        (512, command(5, &[absolute(256)])),
        (0x600, vec![0; 256]),
        (2560, rng.word().to_be_bytes().to_vec()),
    ];
    (parts, user.concat())
}

/// A kernel, its blocks and a user program, all from one list; between the steps another list changes a command that is
/// yet to run.
fn user_program(rng: &mut Rng, round: u32) -> Case {
    let (mut list_parts, user) = user_parts(rng);
    list_parts.insert(5, (2048, user));
    super::shuffle(rng, &mut list_parts);
    let mut maker = desk(rng, 3072);
    let commands = parts(rng, &list_parts);
    maker.call(Call::Load(list(&commands)));
    maker.call(Call::Fresh { system: 0, control: 256, start: 512 });
    if round % 2 == 1 {
        maker.call(Call::Step);
        maker.call(Call::Step);
        // The second command now stores into the read-only page: alarm 11.
        let bytes = command(0x12, &[register(3), absolute(0x200)]);
        let commands = parts(rng, &[(2048 + 13, bytes)]);
        maker.call(Call::Load(list(&commands)));
        maker.call(Call::Step);
        maker.call(Call::Load(list(&commands)[1..].to_vec()));
        maker.call(Call::Run(4));
    } else {
        maker.call(Call::Run(10));
    }
    maker.finish()
}
