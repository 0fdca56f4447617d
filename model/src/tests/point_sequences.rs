//! Sequences of runs to breakpoints: their answers, and their stored form.

use super::breakpoints::standing;
use super::Bench;
use crate::breakpoints::run_to;
use crate::points::{armed, off, LONGEST};
use crate::sequences::session::Session;
use crate::sequences::*;
use crate::state::*;
use std::collections::BTreeMap;

#[test]
fn random_runs_have_every_answer() {
    let mut answers = BTreeMap::new();
    let mut lengths = BTreeMap::new();
    for index in 0..600 {
        let sequence = points::sequence(3, index);
        assert!(sequence == points::sequence(3, index));
        assert_eq!(sequence.calls(), points::RUNS);
        let mut memory = sequence.memory.clone();
        let mut state = sequence.state;
        for (act, left) in &sequence.acts {
            act.done(&mut memory, &mut state);
            let Some(left) = left else { continue };
            let Act::RunTo { n, points } = act else { panic!("another call") };
            let answer = run_to(&unpacked(&state), &mut memory, *n, points);
            let (kind, number) = (left.answer >> 32, left.answer as u32);
            assert_eq!(kind == 4, answer.held.is_some());
            assert_eq!(number, answer.held.unwrap_or(answer.refusal));
            assert_eq!((left.steps, left.state), (answer.count, packed(&answer.state)));
            state = left.state;
            assert!(points.len() <= LONGEST);
            *lengths.entry(points.len()).or_insert(0) += 1;
            // Held ones together.
            *answers.entry(if kind == 4 { (4, 0) } else { (kind, number) }).or_insert(0) += 1;
        }
    }
    let kinds: Vec<_> = answers.keys().copied().collect();
    assert_eq!(kinds, [(0, 0), (1, 1), (1, 2), (1, 3), (1, 4), (1, 5), (1, 7), (1, 20), (4, 0)]);
    assert!(answers[&(0, 0)] > 1_000 && answers[&(4, 0)] > 1_000 && answers[&(1, 20)] > 300, "{answers:?}");
    assert!([0, 1, 63, 64, 65, 70].iter().all(|length| lengths[length] > 30), "{lengths:?}");
}

#[test]
fn runs_among_other_calls() {
    let mut held = BTreeMap::new();
    for index in 0..400 {
        for (act, left) in random::sequence(3, index).acts {
            if let (Act::RunTo { .. }, Some(left)) = (act, left) {
                *held.entry(left.answer >> 32).or_insert(0) += 1;
            }
        }
    }
    assert!([0, 1, 4].iter().all(|kind| held[kind] > 150), "{held:?}");
}

/// The stored form of a run to breakpoints, byte by byte.
#[test]
fn a_run_in_the_stream() {
    let Bench { state, memory } = standing();
    let mut session = Session::new("x", memory, packed(&state));
    let there = [0, 0, 1, 0xF0];
    for (n, count, kind, number, steps) in [(5, 2, 4, 1, 1), (1, 2, 0, 0, 1), (0, 0, 0, 0, 0), (7, 65, 1, 20, 0)] {
        let points: Vec<Breakpoint> = [off(0x1F0)].into_iter().chain([armed(0x1F0); 64]).take(count).collect();
        session.call(Act::RunTo { n, points });
        let stored: Vec<u8> = (0..count).flat_map(|i| [&there[..], &[u8::from(i > 0)]].concat()).collect();
        let wanted = [
            &[9][..],
            &n.to_be_bytes(),
            &(count as u32).to_be_bytes(),
            &stored,
            &[0, 0, 0, kind, 0, 0, 0, number, 0, 0, 0, 0, 0, 0, 0, steps],
            &packed(&state),
            &[0; 4],
        ]
        .concat();
        assert!(stream::body(session.kept()).ends_with(&wanted));
    }
}
