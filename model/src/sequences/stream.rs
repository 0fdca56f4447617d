//! The stored form of sequences, every number highest byte first.
//!
//! File:
//!   8 bytes   "MISEQ001"
//!   u32       number of sequences
//!   the sequences, one after another
//!   4 bytes   "END."
//!
//! Sequence:
//!   u32       bytes of the sequence after this field
//!   u8        length of the family's name, then its letters
//!   u32       memory length
//!   changes   of the memory against that many zeros
//!   90 bytes  state
//!   u32       number of acts
//!   the acts, each with a u8 for its kind:
//!     0 fresh     u32 system block, u32 control block, u32 start; then u32 answer
//!     1 step      u64 answer (kind × 2^32 + number)
//!     2 run       u64 n; then u32 answer, u64 steps made
//!     3 request   u32 level; then u32 answer
//!     4 state     90 bytes that the caller puts into the state
//!     5 memory    changes that the caller makes in the memory
//!     6 length    u32 memory length from here on: cut, or longer by zeros
//!     7 load      u32 n, then the n bytes of the list; then u32 answer
//!     8 load both u32 n, then the n bytes of the first list; the same for the second; then the
//!                 scratch before the call: u32 length (at most 16,781,312), u8 first, u8 add; its
//!                 byte i is (first + i × add) modulo 256; then u32 answer; then u8 scratch
//!                 afterwards: 0 as before the call, 1 all zeros (where it was all zeros before,
//!                 or has no bytes, 1 if the answer is 0 or 23, else 0)
//!     9 run to    u64 n, u32 number of breakpoints (at most 70), for each u32 R15 value, u8 armed (0
//!                 or 1); then u64 answer (kind × 2^32 + number: kind 0 ended, number 0; 1 refused,
//!                 number of the refusal; 4 held, place of the breakpoint from 0), u64 steps made
//!   after 0 to 3 and 7 to 9: 90 bytes of state, and the changes of the memory by the call
//!
//! Changes:
//!   u32       number of places, each:
//!     u32       address
//!     u32       length n
//!     n bytes   what stands there afterwards

use super::*;
use crate::points;

pub const MAGIC: &[u8; 8] = b"MISEQ001";
pub const END: &[u8; 4] = b"END.";

fn u32_to(out: &mut Vec<u8>, value: u32) {
    out.extend(value.to_be_bytes());
}

fn u64_to(out: &mut Vec<u8>, value: u64) {
    out.extend(value.to_be_bytes());
}

fn list_to(out: &mut Vec<u8>, list: &[u8]) {
    u32_to(out, list.len() as u32);
    out.extend(list);
}

fn changes_to(out: &mut Vec<u8>, changes: &[Change]) {
    u32_to(out, changes.len() as u32);
    for change in changes {
        u32_to(out, change.at);
        u32_to(out, change.bytes.len() as u32);
        out.extend(&change.bytes);
    }
}

fn act_to(out: &mut Vec<u8>, act: &Act, left: Option<&Left>) {
    match act {
        Act::Fresh { system, control, start } => {
            out.push(0);
            for word in [*system, *control, *start] {
                u32_to(out, word);
            }
        }
        Act::Step => out.push(1),
        Act::Run(n) => {
            out.push(2);
            u64_to(out, *n);
        }
        Act::Request(level) => {
            out.push(3);
            u32_to(out, *level);
        }
        Act::State(bytes) => {
            out.push(4);
            out.extend(bytes);
        }
        Act::Memory { at, bytes } => {
            out.push(5);
            changes_to(out, &[Change { at: *at, bytes: bytes.clone() }]);
        }
        Act::Length(length) => {
            out.push(6);
            u32_to(out, *length);
        }
        Act::Load(list) => {
            out.push(7);
            list_to(out, list);
        }
        Act::LoadBoth(Pair { first, second, scratch }) => {
            out.push(8);
            list_to(out, first);
            list_to(out, second);
            u32_to(out, scratch.length);
            out.extend([scratch.first, scratch.add]);
        }
        Act::RunTo { n, points } => {
            out.push(9);
            u64_to(out, *n);
            out.extend(points::bytes(points));
        }
    }
    let Some(left) = left else { return };
    match act {
        Act::Step | Act::RunTo { .. } => u64_to(out, left.answer),
        _ => u32_to(out, left.answer as u32),
    }
    if let Act::Run(_) | Act::RunTo { .. } = act {
        u64_to(out, left.steps);
    }
    if let Act::LoadBoth(_) = act {
        out.push(left.scratch.number());
    }
    out.extend(left.state);
    changes_to(out, &left.changes);
}

/// The file's first bytes.
pub fn head(count: u32) -> Vec<u8> {
    let mut out = MAGIC.to_vec();
    u32_to(&mut out, count);
    out
}

/// One sequence, its length before it.
pub fn body(sequence: &Sequence) -> Vec<u8> {
    let mut out = vec![0; 4];
    out.push(sequence.family.len() as u8);
    out.extend(sequence.family.bytes());
    u32_to(&mut out, sequence.memory.len() as u32);
    changes_to(&mut out, &changes(&vec![0; sequence.memory.len()], &sequence.memory));
    out.extend(sequence.state);
    u32_to(&mut out, sequence.acts.len() as u32);
    for (act, left) in &sequence.acts {
        act_to(&mut out, act, left.as_ref());
    }
    let length = out.len() as u32 - 4;
    out[..4].copy_from_slice(&length.to_be_bytes());
    out
}
