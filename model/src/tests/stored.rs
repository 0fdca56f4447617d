//! Stored cases: what is written is read back, and the generator repeats itself.

use super::breakpoints::standing;
use super::Bench;
use crate::case::{play, Call, Case};
use crate::gen;
use crate::points::{armed, off};
use crate::store;

#[test]
fn written_is_read_back() {
    let lists = gen::lists::puts().into_iter().chain(gen::list_programs::programs());
    let pairs = gen::pair_refusals::scratches().into_iter().chain(gen::pair_programs::programs());
    let points = gen::point_refusals::refusals().into_iter().chain(gen::point_levels::levels());
    let lists = lists.chain(pairs).chain(gen::fetches::fetches()).chain(points);
    let lists = lists.chain(gen::float_pairs::random()).chain(gen::float_pages::pages());
    let cases = gen::refusals::refusals().into_iter().chain(gen::entries::interrupts()).chain(lists);
    let pairs: Vec<_> = cases
        .filter(|case| case.image.len() <= store::SMALL)
        .map(|case| {
            let expected = play(&case);
            (case, expected)
        })
        .collect();
    let bytes = store::write(&pairs);
    assert!(store::read(&bytes) == pairs);
}

#[test]
fn same_cases_each_time() {
    assert!(gen::grid::grid() == gen::grid::grid());
    assert!(gen::resumes::resumes() == gen::resumes::resumes());
    assert!(gen::lists::mixed() == gen::lists::mixed());
    assert!(gen::shifts::shifts() == gen::shifts::shifts());
    assert!(gen::pairs::mixed() == gen::pairs::mixed());
    assert!(gen::pair_refusals::orders() == gen::pair_refusals::orders());
    assert!(gen::fetches::fetches() == gen::fetches::fetches());
    assert!(gen::data_pages::data_pages() == gen::data_pages::data_pages());
    assert!(gen::points::lists() == gen::points::lists());
    assert!(gen::point_walks::walks() == gen::point_walks::walks());
    assert!(gen::float_pairs::random() == gen::float_pairs::random());
    assert!(gen::float_near::near() == gen::float_near::near());
    assert!(gen::float_alarms::forms() == gen::float_alarms::forms());
    assert!(gen::float_places::places() == gen::float_places::places());
}

/// The stored form of runs to breakpoints, byte by byte: held, ended, refused.
#[test]
fn a_run_in_a_case() {
    let Bench { state: start, memory: image } = standing();
    let two = vec![off(0x1F0), armed(0x1F0)];
    let calls =
        vec![Call::RunTo(5, two.clone()), Call::RunTo(1, two[1..].to_vec()), Call::RunTo(2, [two[0]; 65].into())];
    let case = Case { ramps: vec![], image, start, calls };
    let expected = play(&case);
    let bytes = store::write(&[(case, expected)]);
    let [one, other] = [[0, 0, 1, 0xF0, 0], [0, 0, 1, 0xF0, 1]];
    let wanted = [
        &[0, 3][..],
        // Kind, n, number, breakpoints; refusal, count, held, place; no changed words.
        &[&[6, 0, 0, 0, 5, 0, 0, 0, 2][..], &one, &other, &[0, 0, 0, 0, 1, 1, 0, 0, 0, 1, 0, 0, 0, 0]].concat(),
        &[&[6, 0, 0, 0, 1, 0, 0, 0, 1][..], &other, &[0, 0, 0, 0, 1, 0, 0, 0, 0, 0]].concat(),
        &[&[6, 0, 0, 0, 2, 0, 0, 0, 65][..], &one.repeat(65), &[20, 0, 0, 0, 0, 0, 0, 0, 0, 0]].concat(),
        &[0, 0],
    ]
    .concat();
    assert!(bytes.ends_with(&wanted));
}
