//! The case generator.

pub mod alarms;
pub mod any_list;
pub mod any_pair;
pub mod any_points;
pub mod data_pages;
pub mod entries;
pub mod fetches;
pub mod float_alarms;
pub mod float_flags;
pub mod float_near;
pub mod float_pages;
pub mod float_pairs;
pub mod float_places;
pub mod float_values;
pub mod grid;
pub mod layout;
pub mod list_programs;
pub mod list_refusals;
pub mod lists;
pub mod maker;
pub mod orders;
pub mod pair_programs;
pub mod pair_refusals;
pub mod pairs;
pub mod pick;
pub mod places;
pub mod point_levels;
pub mod point_programs;
pub mod point_refusals;
pub mod point_walks;
pub mod points;
pub mod refusals;
pub mod resumes;
pub mod rules;
pub mod shifts;
pub mod special;
pub mod traps;
pub mod walks;

use crate::case::Case;
use crate::code::{decode, Command, Op};
use crate::rng::Rng;

/// Every known command byte.
pub fn known_bytes() -> Vec<u8> {
    (0..=255).filter(|byte| decode(*byte).is_some()).collect()
}

pub fn unknown_bytes() -> Vec<u8> {
    (0..=255).filter(|byte| decode(*byte).is_none()).collect()
}

fn floating(byte: &u8) -> bool {
    matches!(decode(*byte), Some(Command { op: Op::Float(_), .. }))
}

/// The commands on floating numbers.
pub fn float_bytes() -> Vec<u8> {
    known_bytes().into_iter().filter(floating).collect()
}

/// Every known command byte but those of floating numbers, which families of their own have.
pub fn integer_bytes() -> Vec<u8> {
    known_bytes().into_iter().filter(|byte| !floating(byte)).collect()
}

/// A generator of its own for each family, so that one doesn't move another.
pub fn family_rng(family: &str) -> Rng {
    let seed = family
        .bytes()
        .fold(0xCBF2_9CE4_8422_2325u64, |hash, byte| (hash ^ u64::from(byte)).wrapping_mul(0x0000_0100_0000_01B3));
    Rng::new(seed)
}

pub fn shuffle<T>(rng: &mut Rng, list: &mut [T]) {
    for i in (1..list.len()).rev() {
        list.swap(i, rng.below(i as u32 + 1) as usize);
    }
}

/// Tries until a case comes out as it is meant; what one command needs may spoil another.
pub fn until(mut make: impl FnMut() -> Option<Case>) -> Case {
    (0..100).find_map(|_| make()).expect("a case in a hundred tries")
}

/// All cases, by family.
pub fn all() -> Vec<(&'static str, Vec<Case>)> {
    vec![
        ("grid", grid::grid()),
        ("flags", grid::flags()),
        ("rules", rules::rules()),
        ("unknown bytes", rules::unknown()),
        ("alarms", alarms::alarms()),
        ("kernel stops", alarms::kernel_stops()),
        ("orders", orders::orders()),
        ("interrupts", entries::interrupts()),
        ("resume", resumes::resumes()),
        ("status bits", entries::status_bits()),
        ("system calls", entries::system_calls()),
        ("refusals", refusals::refusals()),
        ("special", special::special()),
        ("walks", walks::walks()),
        ("noise", walks::noise()),
        ("load puts", lists::puts()),
        ("load 17", list_refusals::unreadable()),
        ("load 18", list_refusals::pieces_counted()),
        ("load 19", list_refusals::places()),
        ("load orders", list_refusals::orders()),
        ("load programs", list_programs::programs()),
        ("load mixed", lists::mixed()),
        ("shifts", shifts::shifts()),
        ("both agreeing", pairs::agreeing()),
        ("both earlier", pairs::earlier()),
        ("both clashing", pairs::clashing()),
        ("both lists", pair_refusals::lists()),
        ("both scratches", pair_refusals::scratches()),
        ("both orders", pair_refusals::orders()),
        ("both programs", pair_programs::programs()),
        ("both mixed", pairs::mixed()),
        ("fetches", fetches::fetches()),
        ("data pages", data_pages::data_pages()),
        ("points lists", points::lists()),
        ("points numbers", points::numbers()),
        ("points levels", point_levels::levels()),
        ("points stops", point_levels::stops()),
        ("points refused", point_refusals::refusals()),
        ("points walks", point_walks::walks()),
        ("float pairs", float_pairs::pairs()),
        ("float random", float_pairs::random()),
        ("float moves", float_pairs::moves()),
        ("float near", float_near::near()),
        ("float flags", float_flags::flags_before()),
        ("float forms", float_alarms::forms()),
        ("float alarms", float_alarms::alarms()),
        ("float places", float_places::places()),
        ("float pages", float_pages::pages()),
    ]
}
