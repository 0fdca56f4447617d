//! Stored cases: one stream of bytes, every field highest byte first.
//!
//! File:
//!   8 bytes   "MIDESK01"
//!   u32       number of cases
//!   u32       number of cases at the front whose memory has at most 65,536
//!             bytes; the others follow them
//!   u32       greatest memory length
//!   u32       greatest number of calls in a case
//!   the cases, one after another
//!
//! Case:
//!   u32       bytes of the case after this field (to skip it)
//!   u32       memory length
//!   u16       number of fills; the memory is zeros, then the fills in order:
//!     u8        kind: 0 bytes, 1 ramp
//!     u32       address
//!     u16       length n, at least 1
//!     kind 0:   n bytes
//!     kind 1:   u8 first, u8 add; byte i is (first + i × add) modulo 256
//!   words     start state, as changes against words that are all zero
//!   u16       number of calls
//!   the calls:
//!     u8        kind: 0 step, 1 run, 2 level request, 3 fresh desk, 4 load,
//!               5 load both, 6 run to
//!     arguments: step none; run u32 n; request u32 level; fresh u32 system
//!               block, u32 control block, u32 start (its memory length is
//!               the case's); load u32 n, then the n bytes of the list; load
//!               both u32 n, then the n bytes of the first list, the same for
//!               the second, then the scratch before the call: u32 length (at
//!               most 65,536 if the memory has at most that), u8 first, u8 add;
//!               its byte i is (first + i × add) modulo 256; run to u32 n, then
//!               u32 number of breakpoints (at most 70), then for each u32 R15
//!               value, u8 armed: 0 no, 1 yes
//!     u8        refusal, 0 for none
//!     step only:
//!       u8      event: 0 nothing special (or refused), 1 entry, 2 stop
//!       entry:  u8 cause, then the 18 saved words (R0 to R15, status,
//!               argument) as changes against the registers and status
//!               before the call and 0
//!       stop:   u32 number
//!     run only: u32 count
//!     run to only: u32 count, then u8 held: 0 no, 1 yes
//!       held:   u32 place of the breakpoint, from 0
//!     load both only: u8 scratch afterwards: 0 as before the call, 1 all
//!               zeros; where it was all zeros before, or has no bytes, 1 if
//!               the refusal is 0 or 23, else 0
//!     words     state after the call, as changes against the one before
//!               (loads change none)
//!   u16       number of changed runs of the memory after the last call,
//!             against the image:
//!     u32       address
//!     u16       length n
//!     n bytes
//!
//! Changes of words: u32 mask, then one u32 for each bit set, from bit 0 (word
//! 0) upward: the new value of that word. The words of a state are those of
//! `words.rs`.

mod reading;

pub use reading::read;

use crate::case::*;
use crate::pair::*;
use crate::points;
use crate::state::*;
use crate::words::*;

pub const MAGIC: &[u8; 8] = b"MIDESK01";
pub const SMALL: usize = 65_536;
/// Unchanged bytes that a run may contain before a new run is cheaper.
const GAP: usize = 6;

fn u16_to(out: &mut Vec<u8>, value: usize) {
    assert!(value <= 0xFFFF);
    out.extend((value as u16).to_be_bytes());
}

fn u32_to(out: &mut Vec<u8>, value: u32) {
    out.extend(value.to_be_bytes());
}

fn list_to(out: &mut Vec<u8>, list: &[u8]) {
    u32_to(out, list.len() as u32);
    out.extend(list);
}

fn changes_to(out: &mut Vec<u8>, old: &[u32], new: &[u32]) {
    let mut mask = 0;
    for i in 0..new.len() {
        if old[i] != new[i] {
            mask |= 1 << i;
        }
    }
    u32_to(out, mask);
    for i in 0..new.len() {
        if old[i] != new[i] {
            u32_to(out, new[i]);
        }
    }
}

/// Places where `new` differs from `old`, as runs of at most 65,535 bytes.
fn runs(old: &[u8], new: &[u8]) -> Vec<(usize, usize)> {
    let mut list: Vec<(usize, usize)> = Vec::new();
    for i in 0..new.len() {
        if old[i] == new[i] {
            continue;
        }
        match list.last_mut() {
            Some((at, length)) if i <= *at + *length + GAP && i - *at < 0xFFFF => *length = i + 1 - *at,
            _ => list.push((i, 1)),
        }
    }
    list
}

/// Zeros with the ramps of a case.
fn ramped(case: &Case) -> Vec<u8> {
    let mut memory = vec![0; case.image.len()];
    for ramp in &case.ramps {
        fill_ramp(&mut memory, ramp);
    }
    memory
}

pub fn fill_ramp(memory: &mut [u8], ramp: &Ramp) {
    let mut byte = ramp.first;
    for i in 0..ramp.length as usize {
        memory[ramp.at as usize + i] = byte;
        byte = byte.wrapping_add(ramp.add);
    }
}

/// The 18 saved words that "nothing changed" stands for.
fn unsaved(before: &State) -> [u32; 18] {
    let mut words = [0; 18];
    words[..16].copy_from_slice(&before.registers);
    words[16] = before.status;
    words
}

fn case_to(out: &mut Vec<u8>, case: &Case, expected: &Expected) {
    u32_to(out, case.image.len() as u32);
    let base = ramped(case);
    let literal = runs(&base, &case.image);
    u16_to(out, case.ramps.len() + literal.len());
    for ramp in &case.ramps {
        out.push(1);
        u32_to(out, ramp.at);
        u16_to(out, ramp.length as usize);
        out.extend([ramp.first, ramp.add]);
    }
    for (at, length) in literal {
        out.push(0);
        u32_to(out, at as u32);
        u16_to(out, length);
        out.extend(&case.image[at..at + length]);
    }
    changes_to(out, &[0; WORDS], &words(&case.start));
    u16_to(out, case.calls.len());
    let mut before = case.start;
    for (call, outcome) in case.calls.iter().zip(&expected.outcomes) {
        match call {
            Call::Step => out.push(0),
            Call::Run(n) => {
                out.push(1);
                u32_to(out, *n);
            }
            Call::Request(level) => {
                out.push(2);
                u32_to(out, *level);
            }
            Call::Fresh { system, control, start } => {
                out.push(3);
                for word in [*system, *control, *start] {
                    u32_to(out, word);
                }
            }
            Call::Load(list) => {
                out.push(4);
                list_to(out, list);
            }
            Call::LoadBoth(Pair { first, second, scratch }) => {
                assert!(scratch.length as usize <= SMALL.max(case.image.len()));
                out.push(5);
                list_to(out, first);
                list_to(out, second);
                u32_to(out, scratch.length);
                out.extend([scratch.first, scratch.add]);
            }
            Call::RunTo(n, points) => {
                out.push(6);
                u32_to(out, *n);
                out.extend(points::bytes(points));
            }
        }
        out.push(outcome.refusal as u8);
        match call {
            Call::Step => match outcome.event {
                Event::Plain => out.push(0),
                Event::Entry { cause, saved } => {
                    out.extend([1, cause as u8]);
                    let saved: Vec<u32> =
                        saved.chunks(4).map(|b| u32::from_be_bytes([b[0], b[1], b[2], b[3]])).collect();
                    changes_to(out, &unsaved(&before), &saved);
                }
                Event::Stop(number) => {
                    out.push(2);
                    u32_to(out, number);
                }
            },
            Call::Run(_) => u32_to(out, outcome.count),
            Call::LoadBoth(_) => out.push(outcome.scratch.number()),
            Call::RunTo(..) => {
                u32_to(out, outcome.count);
                out.push(u8::from(outcome.held.is_some()));
                out.extend(outcome.held.into_iter().flat_map(u32::to_be_bytes));
            }
            _ => {}
        }
        changes_to(out, &words(&before), &words(&outcome.state));
        before = outcome.state;
    }
    let changed = runs(&case.image, &expected.memory);
    u16_to(out, changed.len());
    for (at, length) in changed {
        u32_to(out, at as u32);
        u16_to(out, length);
        out.extend(&expected.memory[at..at + length]);
    }
}

/// The whole file; small memories first.
pub fn write(cases: &[(Case, Expected)]) -> Vec<u8> {
    let mut out = MAGIC.to_vec();
    let small = |pair: &&(Case, Expected)| pair.0.image.len() <= SMALL;
    let large = |pair: &&(Case, Expected)| pair.0.image.len() > SMALL;
    u32_to(&mut out, cases.len() as u32);
    u32_to(&mut out, cases.iter().filter(small).count() as u32);
    u32_to(&mut out, cases.iter().map(|pair| pair.0.image.len()).max().unwrap_or(0) as u32);
    u32_to(&mut out, cases.iter().map(|pair| pair.0.calls.len()).max().unwrap_or(0) as u32);
    for (case, expected) in cases.iter().filter(small).chain(cases.iter().filter(large)) {
        let mut bytes = Vec::new();
        case_to(&mut bytes, case, expected);
        u32_to(&mut out, bytes.len() as u32);
        out.extend(bytes);
    }
    out
}
