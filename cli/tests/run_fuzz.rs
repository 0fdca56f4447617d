//! Random and damaged images under every plan: a run always ends with words, as text and as JSON, and nothing panics.

mod support;

use desk::breakpoints::Breakpoints;
use desk::engine;
use desk::image::{self, Image};
use desk::machine::Machine;
use desk::place::Place;
use desk::plan::{Plan, Until};
use desk::show::Show;
use support::{example, images, Random, EXAMPLES};

/// Bytes without a plan, a random image that gets somewhere, or an example with some bytes changed.
fn damaged(random: &mut Random) -> Image {
    match random.below(4) {
        0 => image::of_bytes((0..random.below(3000)).map(|_| random.next() as u8).collect()),
        1 => images::random(random),
        _ => {
            let name: &&str = random.pick(&EXAMPLES);
            let path = example(name);
            let mut image = image::load(path.as_ref()).expect("the example");
            for _ in 0..random.below(12) {
                let at = random.below(image.memory.len() as u64) as usize;
                image.memory[at] = if random.below(3) == 0 { random.next() as u8 } else { 1 << random.below(8) };
            }
            image
        }
    }
}

fn place(random: &mut Random) -> Place {
    Place { address: random.below(0x800) as u32, mode: None }
}

fn breakpoints(random: &mut Random) -> Breakpoints {
    let mut breakpoints = Breakpoints::default();
    for _ in 0..random.below(8) {
        breakpoints.set(place(random), None);
    }
    breakpoints
}

fn plan(random: &mut Random) -> Plan {
    let until = match random.below(4) {
        0 => Some(Until::Entry(None)),
        1 => Some(Until::Entry(Some(*random.pick(&[2, 8, 9, 10, 11, 12, 13, 14, 15])))),
        2 => Some(Until::Place(place(random))),
        _ => None,
    };
    let mut requests: Vec<(u64, u32)> =
        (0..random.below(4)).map(|_| (1 + random.below(60), 1 + random.below(15) as u32)).collect();
    requests.sort_unstable();
    Plan {
        limit: random.below(200),
        requests,
        until,
        breakpoints: breakpoints(random),
        trace: random.below(2) == 0,
        json: random.below(2) == 0,
        dumps: vec![(random.next() as u32, random.below(100) as u32)],
    }
}

#[test]
fn every_run_ends_with_words() {
    let mut random = Random(17);
    let mut statuses = std::collections::BTreeSet::new();
    for _ in 0..6000 {
        let Ok(mut machine) = Machine::fresh(damaged(&mut random)) else { continue };
        let plan = plan(&mut random);
        let mut out = Vec::new();
        let mut show = Show::new(&plan, &mut out);
        let ran = engine::run(&mut machine, &plan, &mut show).expect("memory can be written");
        statuses.insert(show.end(&machine, &plan, &ran).expect("memory can be written"));
        let text = String::from_utf8(out).expect("UTF-8");
        assert!(text.ends_with('\n') && !text.contains("no words for"), "{text}");
    }
    let wanted = [0, 8, 12, 13, 14, 15, 16, 123, 124, 125];
    assert!(wanted.iter().all(|status| statuses.contains(status)), "{statuses:?}");
}
