//! Where the operands of floating commands may stand: registers, forms, pages, and the alarms of each.

use crate::plain;
use crate::trial::{operand, value, Place, Trial, LENGTH, START};

/// F: D has the next byte.
const ADD: u8 = 0x80;
const ADD3: u8 = 0x84;
const MOVE: u8 = 0xA0;
const CMP: u8 = 0xA4;

const N: u32 = 8;

/// 1, 2, 3 and -2 as F and as D, by the place of the kind: 0 for F, 1 for D.
const ONE: [u64; 2] = [0x3F80_0000, 0x3FF0_0000_0000_0000];
const TWO: [u64; 2] = [0x4000_0000, 0x4000_0000_0000_0000];
const THREE: [u64; 2] = [0x4040_0000, 0x4008_0000_0000_0000];
const MINUS_TWO: [u64; 2] = [0xC000_0000, 0xC000_0000_0000_0000];

/// A number whose bytes differ, below zero as F and as D.
const BYTES: u64 = 0x8123_4567_89AB_CDEF;

fn bytes_of(size: usize) -> u64 {
    BYTES >> (64 - 8 * size)
}

/// All known floating commands: whether an operand is written, for each.
fn commands() -> impl Iterator<Item = (u8, usize, &'static [bool])> {
    (0x80..=0xA5).filter(|code| code % 4 < 2).map(|code| {
        let written: &[bool] = match code {
            0xA0 | 0xA1 => &[false, true],
            0xA4 | 0xA5 => &[false, false],
            _ if code & 4 == 0 => &[false, true],
            _ => &[false, false, true],
        };
        (code, if code % 4 == 0 { 4 } else { 8 }, written)
    })
}

/// Alarm 14 for each command, each operand and each register in form 2; and for form 1.
#[test]
fn form_rules() {
    for (code, size, written) in commands() {
        for place in 0..written.len() {
            let others = [0x800, 0x810, 0x820].map(|address| Place::At(address).operand());
            let with = |operand| {
                let mut operands = others[..written.len()].to_vec();
                operands[place] = operand;
                Trial::new(code, &operands).in_both_modes()
            };
            let alarm = |before: &Trial, what| {
                before.must_leave(&before.alarmed(14, place as u32 + 1), (code, place, what));
            };
            for x in 0..16 {
                for before in with(Place::Register(x).operand()) {
                    if x as usize + size / 4 > 15 {
                        alarm(&before, x);
                    } else {
                        before.must_be_quiet((code, place, x));
                    }
                }
            }
            for before in with(value(0)) {
                if size == 8 || written[place] {
                    alarm(&before, 16);
                } else {
                    before.must_be_quiet((code, place));
                }
            }
            // Fields that a form does not use, forms 7 and 8 with R15, and a form that there is not.
            for wrong in [
                operand(0, 1, 0, 0x800),
                operand(1, 0, 1, 0),
                operand(2, 1, 1, 0),
                operand(2, 1, 0, 1),
                operand(3, 1, 1, 0x800),
                operand(5, 1, 1, 0x800),
                operand(7, 15, 0, 0),
                operand(8, 15, 0, 0),
                operand(8, 1, 0, 1),
                operand(9, 0, 0, 0),
            ] {
                for before in with(wrong) {
                    alarm(&before, 17);
                }
            }
        }
    }
}

#[test]
fn unknown_bytes() {
    let known: Vec<u8> = commands().map(|(code, ..)| code).collect();
    assert_eq!(known.len(), 20);
    for code in 0x80..=0xFF {
        assert_eq!(plain::covers(code), known.contains(&code), "{code:02X}h");
        if !known.contains(&code) {
            for before in Trial::new(code, &[]).in_both_modes() {
                before.must_leave(&before.alarmed(12, u32::from(code)), code);
            }
        }
    }
}

/// MOVE from each register and to it: the others stay.
#[test]
fn registers() {
    for (j, size) in [(0, 4), (1, 8)] {
        for x in 0..=15 - (size / 4) as u8 {
            let (register, memory) = (Place::Register(x), Place::At(0x800));
            for (from, to) in [(register, memory), (memory, register)] {
                let mut before = Trial::new(MOVE + j, &[from.operand(), to.operand()]);
                before.state.registers[..15].copy_from_slice(&std::array::from_fn::<u32, 15, _>(|i| 0x1111 * i as u32));
                before.set(from, size, bytes_of(size));
                for before in before.in_both_modes() {
                    let mut after = before.done(N);
                    after.set(to, size, bytes_of(size));
                    before.must_leave(&after, (from, to));
                }
            }
        }
    }
}

/// Forms 3 to 8, with L: 3 there and -2 in R4 give 1.
#[test]
fn forms() {
    for (j, size) in [(0, 4), (1, 8)] {
        let long = size as u32;
        for (form, x, y, z, address, left) in [
            (3, 1, 0, 0x100, 0x800, 0x700),
            (3, 15, 0, 0x400, START + 7 + 0x400, START),
            (4, 1, 2, 0x100, 0x800 + 3 * long, 0x700),
            (5, 1, 0, 0x200, 0x840, 0x700),
            (6, 1, 2, 0x200, 0x840 + 3 * long, 0x700),
            (7, 1, 0, 0, 0x700 - long, 0x700 - long),
            (8, 1, 0, 0, 0x700, 0x700 + long),
        ] {
            let mut before = Trial::new(
                ADD3 + j,
                &[operand(form, x, y, z), Place::Register(4).operand(), Place::Register(6).operand()],
            );
            before.state.registers[1] = 0x700;
            before.state.registers[2] = 3;
            before.put(0x900, &0x840u32.to_be_bytes());
            before.set(Place::At(address), size, THREE[j as usize]);
            before.set(Place::Register(4), size, MINUS_TWO[j as usize]);
            for before in before.in_both_modes() {
                let mut after = before.done(0);
                after.set(Place::Register(6), size, ONE[j as usize]);
                if x == 1 {
                    after.state.registers[1] = left;
                }
                before.must_leave(&after, (j, form, x));
            }
        }
    }
}

/// An update in forms 7 and 8 steps once; the operands step one after the other.
#[test]
fn steps() {
    for (j, size) in [(0, 4), (1, 8)] {
        let long = size as u32;
        for (form, first, second, left) in
            [(7, 0x800 - long, 0x800 - 2 * long, 0x800 - 2 * long), (8, 0x800, 0x800 + long, 0x800 + 2 * long)]
        {
            let mut before = Trial::new(ADD + j, &[operand(form, 1, 0, 0), operand(form, 1, 0, 0)]);
            before.state.registers[1] = 0x800;
            before.set(Place::At(first), size, ONE[j as usize]);
            before.set(Place::At(second), size, TWO[j as usize]);
            for before in before.in_both_modes() {
                let mut after = before.done(0);
                after.set(Place::At(second), size, THREE[j as usize]);
                after.state.registers[1] = left;
                before.must_leave(&after, (j, form));
            }
        }
        // The destination is the register that the first operand raises.
        let mut before = Trial::new(MOVE + j, &[operand(8, 1, 0, 0), Place::Register(1).operand()]);
        before.state.registers[1] = 0x800;
        before.set(Place::At(0x800), size, bytes_of(size));
        let mut after = before.done(N);
        after.set(Place::Register(1), size, bytes_of(size));
        before.must_leave(&after, j);
        // An alarm undoes the step.
        let mut before = Trial::new(MOVE + j, &[operand(8, 1, 0, 0), Place::At(0x900).operand()]);
        before.state.registers[1] = 0x800;
        before.map(4, 0);
        before.must_leave(&before.alarmed(9, 0x800), j);
    }
}

/// The page before this address and the page after it, which lie in frames that do not adjoin.
const BORDER: u32 = 9 * 512;
const BEFORE: u32 = 5;
const AFTER: u32 = 12;

/// A trial with such pages, the second entry with these bits beside its frame.
fn bordered(code: u8, operands: &[[u8; 6]], entry: u32) -> Trial {
    let mut trial = Trial::new(code, operands);
    trial.map(BORDER / 512 - 1, 0xC000_0000 | BEFORE);
    trial.map(BORDER / 512, entry | AFTER);
    trial
}

/// A number so many bytes before the border.
fn set_over(trial: &mut Trial, before: usize, size: usize, bits: u64) {
    let bytes = &bits.to_be_bytes()[8 - size..];
    let (low, high) = bytes.split_at(before.min(size));
    trial.put(512 * (BEFORE + 1) - before as u32, low);
    trial.put(512 * AFTER, high);
}

#[test]
fn over_pages() {
    let register = Place::Register(4);
    for (j, size) in [(0, 4), (1, 8)] {
        for before in 1..=8 {
            let place = Place::At(BORDER - before as u32);
            let over = size > before;
            let what = (j, before);

            // MOVE from there, be the second page one to write and fetch from, or neither.
            for entry in [0xC000_0000, 0xA000_0000] {
                let mut from = bordered(MOVE + j, &[place.operand(), register.operand()], entry);
                set_over(&mut from, before, size, bytes_of(size));
                let mut after = from.done(N);
                after.set(register, size, bytes_of(size));
                from.must_leave(&after, what);
            }
            // MOVE to there.
            let mut to = bordered(MOVE + j, &[register.operand(), place.operand()], 0xE000_0000);
            to.set(register, size, bytes_of(size));
            let mut after = to.done(N);
            set_over(&mut after, before, size, bytes_of(size));
            to.must_leave(&after, what);
            // An update.
            let mut update = bordered(ADD + j, &[register.operand(), place.operand()], 0xC000_0000);
            update.set(register, size, ONE[j as usize]);
            set_over(&mut update, before, size, TWO[j as usize]);
            let mut after = update.done(0);
            set_over(&mut after, before, size, THREE[j as usize]);
            update.must_leave(&after, what);
            if !over {
                continue;
            }

            // The second page is absent or damaged, or past the map.
            for (entry, length, alarm) in [(0, 16, 9), (0xC100_0000, 16, 10), (0xC000_0000, 9, 8)] {
                for operands in [[place, register], [register, place]] {
                    for code in [ADD + j, MOVE + j, CMP + j] {
                        let mut trial = bordered(code, &operands.map(Place::operand), entry);
                        trial.state.map_length = length;
                        trial.must_leave(&trial.alarmed(alarm, BORDER), (code, before, alarm));
                    }
                }
            }
            // It is not writable: nothing is written before the border either, and a step is undone.
            for code in [ADD + j, MOVE + j] {
                let mut trial = bordered(code, &[register.operand(), operand(8, 1, 0, 0)], 0x8000_0000);
                trial.state.registers[1] = BORDER - before as u32;
                trial.set(register, size, bytes_of(size));
                trial.must_leave(&trial.alarmed(11, BORDER), (code, before));
                // Nor is the first: its byte is the first to be tried.
                trial.map(BORDER / 512 - 1, 0x8000_0000 | BEFORE);
                trial.must_leave(&trial.alarmed(11, BORDER - before as u32), (code, before));
            }
        }
    }
}

/// In kernel mode the memory's end, and the highest addresses.
#[test]
fn past_memory() {
    let register = Place::Register(4);
    for (j, size) in [(0, 4), (1, 8)] {
        for back in 1..=8 {
            for operands in [[Place::At(LENGTH - back), register], [register, Place::At(LENGTH - back)]] {
                for code in [ADD + j, MOVE + j, CMP + j] {
                    let [_, before] = Trial::new(code, &operands.map(Place::operand)).in_both_modes();
                    if size as u32 > back {
                        before.must_leave(&before.alarmed(8, LENGTH), (code, back));
                    } else {
                        before.must_be_quiet((code, back));
                    }
                    let high = operands.map(|place| match place {
                        Place::At(_) => Place::At(0u32.wrapping_sub(back)),
                        register => register,
                    });
                    for before in Trial::new(code, &high.map(Place::operand)).in_both_modes() {
                        before.must_leave(&before.alarmed(8, 0u32.wrapping_sub(back)), (code, back));
                    }
                }
            }
        }
    }
}
