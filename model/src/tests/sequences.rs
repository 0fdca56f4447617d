//! Sequences: the 90 bytes of a state, and that they are the calls' own answers.

use crate::case::play;
use crate::desk;
use crate::gen;
use crate::joint::load_both;
use crate::load;
use crate::pair::{After, Pair, Scratch};
use crate::rng::Rng;
use crate::sequences::session::Session;
use crate::sequences::*;
use crate::state::*;

#[test]
fn ninety_bytes_are_one_state() {
    let mut rng = Rng::new(5);
    for round in 0..200 {
        let mut bytes: StateBytes = std::array::from_fn(|_| rng.word() as u8);
        if round % 4 == 0 {
            bytes[84..88].copy_from_slice(&[0xFF; 4]);
        }
        assert_eq!(unpacked(&bytes).mark == Mark::Running, round % 4 == 0);
        assert_eq!(packed(&unpacked(&bytes)), bytes);
    }
    let bytes = std::array::from_fn(|i| i as u8);
    let state = unpacked(&bytes);
    assert_eq!((state.registers[1], state.registers[15]), (0x0405_0607, 0x3C3D_3E3F));
    assert_eq!((state.status, state.map_base, state.map_length), (0x4041_4243, 0x4445_4647, 0x4849_4A4B));
    assert_eq!((state.system_block, state.control_block), (0x4C4D_4E4F, 0x5051_5253));
    assert_eq!((state.mark, state.pending), (Mark::Stopped(0x5455_5657), 0x5859));
}

#[test]
fn changes_lead_from_old_to_new() {
    let mut rng = Rng::new(6);
    for _ in 0..100 {
        let old: Vec<u8> = (0..1200).map(|_| rng.below(3) as u8).collect();
        let mut new = old.clone();
        for _ in 0..rng.below(30) {
            new[rng.below(1200) as usize] ^= 1;
        }
        let mut made = old.clone();
        for change in changes(&old, &new) {
            made[change.at as usize..][..change.bytes.len()].copy_from_slice(&change.bytes);
        }
        assert!(made == new);
    }
}

#[test]
fn a_case_as_a_sequence_says_the_same() {
    let lists = [gen::list_programs::programs(), gen::pair_programs::programs(), gen::pair_refusals::lists()].concat();
    let points = [gen::points::numbers(), gen::point_refusals::refusals()].concat();
    for case in gen::entries::interrupts().iter().chain(&gen::refusals::refusals()).chain(&lists).chain(&points) {
        let expected = play(case);
        let sequence = Session::of_case("case", case).finish();
        let mut memory = sequence.memory.clone();
        for ((_, left), outcome) in sequence.acts.iter().zip(&expected.outcomes) {
            let left = left.as_ref().unwrap();
            assert_eq!(left.state, packed(&outcome.state));
            assert_eq!(left.steps, u64::from(outcome.count));
            assert_eq!(left.scratch, outcome.scratch);
            if let Some(place) = outcome.held {
                assert_eq!(left.answer, 4 << 32 | u64::from(place));
            }
            for change in &left.changes {
                memory[change.at as usize..][..change.bytes.len()].copy_from_slice(&change.bytes);
            }
        }
        assert!(memory == expected.memory);
    }
}

#[test]
fn same_sequences_each_time() {
    for index in 0..50 {
        assert!(random::sequence(3, index) == random::sequence(3, index));
    }
    assert!(stream::body(&random::sequence(3, 1)) != stream::body(&random::sequence(4, 1)));
}

/// Plays random sequences on the desk and counts alarms 21: at the command byte, and later.
#[test]
fn random_sequences_meet_pages_without_commands() {
    let (mut first, mut later) = (0, 0);
    for index in 0..1200 {
        let sequence = random::sequence(3, index);
        let mut memory = sequence.memory.clone();
        let mut state = sequence.state;
        for (act, left) in &sequence.acts {
            act.done(&mut memory, &mut state);
            let Some(left) = left else { continue };
            if *act == Act::Step {
                let stepped = desk::step(&unpacked(&state), &mut memory.clone());
                if let Event::Entry { cause: 2, saved } = stepped.event {
                    assert_eq!(left.answer, 2 << 32 | 2);
                    *(if saved[60..64] == saved[68..] { &mut first } else { &mut later }) += 1;
                }
            }
            for change in &left.changes {
                memory[change.at as usize..][..change.bytes.len()].copy_from_slice(&change.bytes);
            }
            state = left.state;
        }
    }
    assert!(first > 30 && later > 10, "{first} {later}");
}

#[test]
fn random_lists_have_every_answer() {
    let mut answers = std::collections::BTreeMap::new();
    for index in 0..400 {
        let sequence = lists::sequence(3, index);
        assert!(sequence == lists::sequence(3, index));
        assert_eq!(sequence.calls(), lists::LOADS);
        let mut memory = sequence.memory.clone();
        for (act, left) in &sequence.acts {
            let (Act::Load(list), Some(left)) = (act, left) else { panic!("no load") };
            let mut after = memory.clone();
            assert_eq!(u64::from(load::load(&mut after, list)), left.answer);
            for change in &left.changes {
                memory[change.at as usize..][..change.bytes.len()].copy_from_slice(&change.bytes);
            }
            assert!(memory == after);
            assert_eq!((left.state, left.steps), (sequence.state, 0));
            *answers.entry(left.answer).or_insert(0) += 1;
        }
    }
    assert_eq!(answers.keys().copied().collect::<Vec<_>>(), [0, 1, 17, 18, 19]);
    assert!(answers[&0] > 1_500 && answers[&17] > 500 && answers[&19] > 200, "{answers:?}");
}

#[test]
fn loads_among_other_calls() {
    for index in 0..60 {
        let sequence = random::loads(3, index);
        assert!(sequence == random::loads(3, index));
        let loads = sequence.acts.iter().filter(|(act, _)| matches!(act, Act::Load(_))).count();
        assert_eq!(loads, lists::LOADS);
    }
}

/// Joint loading by two loads: it succeeds where either order of them leaves the same memory.
#[test]
fn random_pairs_have_every_answer() {
    let mut answers = std::collections::BTreeMap::new();
    for index in 0..400 {
        let sequence = pairs::sequence(3, index);
        assert!(sequence == pairs::sequence(3, index));
        let few = sequence.memory.len() > 1 << 20;
        assert_eq!(sequence.calls(), if few { pairs::FEW } else { pairs::PAIRS });
        let mut memory = sequence.memory.clone();
        for (act, left) in &sequence.acts {
            let (Act::LoadBoth(pair), Some(left)) = (act, left) else { panic!("no joint load") };
            let [mut after, mut turned] = [memory.clone(), memory.clone()];
            let alone = [load::load(&mut after, &pair.first), load::load(&mut turned, &pair.second)];
            if alone == [0, 0] {
                load::load(&mut after, &pair.second);
                load::load(&mut turned, &pair.first);
            }
            let short = (pair.scratch.length as usize) < memory.len();
            let answer = match alone {
                [0, 0] if short => 22,
                [0, 0] if after != turned => 23,
                [0, number] => number,
                [number, _] => number,
            };
            assert_eq!(left.answer, u64::from(answer));
            for change in &left.changes {
                memory[change.at as usize..][..change.bytes.len()].copy_from_slice(&change.bytes);
            }
            assert!(answer != 0 || memory == after);
            assert!(answer == 0 || left.changes.is_empty());
            assert_eq!(left.scratch == After::Zeros, matches!(answer, 0 | 23));
            assert_eq!((left.state, left.steps), (sequence.state, 0));
            *answers.entry(answer).or_insert(0) += 1;
        }
    }
    assert_eq!(answers.keys().copied().collect::<Vec<_>>(), [0, 1, 17, 18, 19, 22, 23]);
    assert!([0, 17, 22, 23].iter().all(|answer| answers[answer] > 250), "{answers:?}");
}

#[test]
fn pairs_among_other_calls() {
    let count = |sequence: &Sequence| sequence.acts.iter().filter(|(act, _)| matches!(act, Act::LoadBoth(_))).count();
    let all: Vec<usize> = (0..60).map(|index| count(&random::loads(3, index))).collect();
    assert!(all.iter().sum::<usize>() > 60 && all.contains(&0));
}

/// The stored form of a joint load, byte by byte.
#[test]
fn a_pair_in_the_stream() {
    let mut session = Session::new("x", vec![9; 512], [7; STATE_BYTES]);
    let scratch = Scratch { length: 515, first: 250, add: 3 };
    for (second, refusal, after, changed) in [(0x22, 0, 1, true), (0x23, 23, 1, false)] {
        let pair = Pair { first: vec![2, 0x22, 0], second: vec![2, second, 0], scratch };
        let mut memory = session.memory.clone();
        let mut bytes = scratch.bytes();
        assert_eq!((bytes[0], bytes[1], bytes[2], bytes[514]), (250, 253, 0, (250 + 3 * 514) as u8));
        assert_eq!(load_both(&mut memory, &pair.first, &pair.second, &mut bytes), refusal);
        session.call(Act::LoadBoth(pair));
        let stream = stream::body(session.kept());
        let changes: &[u8] = if changed { &[0, 0, 0, 1, 0, 0, 0, 0, 0, 0, 0, 1, 0x22] } else { &[0, 0, 0, 0] };
        let wanted = [
            &[8, 0, 0, 0, 3, 2, 0x22, 0, 0, 0, 0, 3, 2, second, 0, 0, 0, 2, 3, 250, 3][..],
            &refusal.to_be_bytes(),
            &[after],
            &[7; STATE_BYTES],
            changes,
        ]
        .concat();
        assert!(stream.ends_with(&wanted));
    }
}
