//! What the cases and sequences with commands on floating numbers meet.

use crate::case::Call;
use crate::code::{decode, FloatOp, Format, Op};
use crate::desk::{run, step_noting};
use crate::exact::operate;
use crate::floats::Number;
use crate::gen::float_values::edges;
use crate::gen::{float_bytes, float_pairs};
use crate::notes::{Note, Notes};
use crate::sequences::*;
use crate::state::*;
use std::collections::{BTreeMap, BTreeSet};

/// Plays the steps of a sequence on the desk, with the remarks on each.
fn steps(sequence: &Sequence, mut seen: impl FnMut(&State, &State, &[Note])) {
    let mut memory = sequence.memory.clone();
    let mut state = sequence.state;
    for (act, left) in &sequence.acts {
        act.done(&mut memory, &mut state);
        let Some(left) = left else { continue };
        if *act == Act::Step {
            let mut notes = Notes::kept();
            let before = unpacked(&state);
            let stepped = step_noting(&mut notes, &before, &mut memory.clone());
            assert_eq!(packed(&stepped.state), left.state);
            seen(&before, &stepped.state, notes.list());
        }
        for change in &left.changes {
            memory[change.at as usize..][..change.bytes.len()].copy_from_slice(&change.bytes);
        }
        state = left.state;
    }
}

/// Every command with every outcome of its flags, every alarm, every way of rounding.
#[test]
fn floats_alone() {
    let (mut flags, mut alarms, mut ways) = (BTreeMap::new(), BTreeMap::new(), BTreeMap::new());
    for index in 0..400 {
        let sequence = floats::sequence(3, index);
        assert!(sequence == floats::sequence(3, index));
        steps(&sequence, |_, after, notes| {
            let mut fine = true;
            let mut command = None;
            for note in notes {
                match note {
                    Note::Command(byte) => command = Some(*byte),
                    Note::Alarm { number, .. } => {
                        fine = false;
                        *alarms.entry(*number).or_insert(0) += 1;
                    }
                    Note::Numbers { op, first, second } if float_bytes()[..16].contains(&command.unwrap()) => {
                        *ways.entry(operate(*op, *first, *second).1).or_insert(0) += 1;
                    }
                    _ => {}
                }
            }
            if let (Some(byte), true) = (command, fine) {
                *flags.entry((byte, after.status & FLAGS)).or_insert(0) += 1;
            }
        });
    }
    for byte in float_bytes() {
        let cmp = byte >= 0xA4;
        for wanted in [0, N, Z, V, N | V].into_iter().filter(|wanted| !cmp || *wanted != N | V) {
            assert!(flags.contains_key(&(byte, wanted)), "{byte:02X}h {wanted}: {flags:?}");
        }
    }
    let total: u32 = flags.values().sum();
    assert!(total > 15_000, "{total}");
    assert!([8, 9, 10, 11, 14].iter().all(|number| alarms.contains_key(number)), "{alarms:?}");
    assert!(ways.len() >= 20, "{ways:?}");
}

/// The random sequences of all kinds have these commands among the others.
#[test]
fn among_others() {
    let mut found = BTreeMap::new();
    for index in 0..400 {
        let sequence = random::sequence(3, index);
        steps(&sequence, |_, _, notes| {
            for note in notes {
                if let Note::Command(byte) = note {
                    if matches!(decode(*byte), Some(known) if matches!(known.op, Op::Float(_))) {
                        *found.entry((sequence.family, *byte)).or_insert(0) += 1;
                    }
                }
            }
        });
    }
    let count = |family: &str| found.iter().filter(|((its, _), _)| *its == family).map(|(_, n)| *n).sum::<u32>();
    for (family, least) in [("floats", 1_500), ("program", 40), ("walk", 40)] {
        assert!(count(family) > least, "{family}: {}", count(family));
    }
}

/// All pairs of the edges through each operation of each kind, each a step of its own; MOVE of all.
#[test]
fn all_pairs_of_the_edges() {
    let mut found = BTreeSet::new();
    for case in float_pairs::pairs().into_iter().chain(float_pairs::moves()) {
        let mut memory = case.image.clone();
        let mut state = case.start;
        for call in &case.calls {
            let Call::Run(n) = call else {
                let mut notes = Notes::kept();
                state = step_noting(&mut notes, &state, &mut memory).state;
                for note in notes.list() {
                    if let Note::Numbers { op, first, second } = note {
                        let second = if *op == FloatOp::Move { first } else { second };
                        found.insert((*op, *first, *second));
                    }
                }
                continue;
            };
            state = run(&state, &mut memory, u64::from(*n)).state;
        }
    }
    for format in [Format::F, Format::D] {
        let edges: Vec<Number> = edges(format).into_iter().map(|bits| Number::of(format, bits)).collect();
        assert_eq!(edges.iter().collect::<BTreeSet<_>>().len(), 53);
        for first in &edges {
            assert!(found.contains(&(FloatOp::Move, *first, *first)));
            for second in &edges {
                for op in [FloatOp::Add, FloatOp::Sub, FloatOp::Mult, FloatOp::Div, FloatOp::Cmp] {
                    assert!(found.contains(&(op, *first, *second)), "{op:?} {first:X?} {second:X?}");
                }
            }
        }
    }
}
