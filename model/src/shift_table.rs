//! Coverage of SH: what the stored cases reach, and its tables.

use crate::arith::signed;
use crate::cover::{add, Counts, Cover};
use crate::state::*;
use crate::table::Table;
use std::ops::RangeInclusive;

#[derive(Default)]
pub struct Shifts {
    /// To the left: where the operand lies, and the number of places.
    operands: Counts<(&'static str, &'static str)>,
    /// To the left: what sets V, and the number of places.
    causes: Counts<(&'static str, &'static str)>,
    /// To the right: what is lost, and the number of places.
    lost: Counts<(&'static str, &'static str)>,
    /// To the left, V before, V after.
    v: Counts<(bool, bool, bool)>,
}

const PLACES: [&str; 8] = ["0", "1", "2 to 30", "31", "32", "33 on", "2^31 - 1", "2^31"];

fn places(count: i64) -> &'static str {
    PLACES[match count.unsigned_abs() {
        0 => 0,
        1 => 1,
        2..=30 => 2,
        31 => 3,
        32 => 4,
        0x7FFF_FFFF => 6,
        0x8000_0000 => 7,
        _ => 5,
    }]
}

/// 2 to the power of the places. More than 64 are taken as 64: a product other than 0 is beyond any
/// bound here with either, and nothing but 0 can be divided by either.
fn power(count: i64) -> i128 {
    1 << count.unsigned_abs().min(64)
}

/// Whether an exact number fits one with sign of so many bits.
fn fits(exact: i128, bits: u32) -> bool {
    let half = 1i128 << (bits - 1);
    (-half..half).contains(&exact)
}

/// Where the operand of a shift to the left lies between those whose product fits.
fn operand_is(count: i64, operand: i64) -> &'static str {
    let fits = |operand: i64| fits(i128::from(operand) * power(count), 32);
    match (operand.signum(), fits(operand)) {
        (0, _) => "0",
        (1, true) if fits(operand + 1) => "positive, fits",
        (1, true) => "positive, the greatest that fits",
        (1, false) if fits(operand - 1) => "positive, the least that doesn't fit",
        (1, false) => "positive, above that",
        (_, true) if fits(operand - 1) => "negative, fits",
        (_, true) => "negative, the least that fits",
        (_, false) if fits(operand + 1) => "negative, the greatest that doesn't fit",
        (_, false) => "negative, below that",
    }
}

/// What sets V: lost bits that differ from the operand's sign, the result's sign, or both. The lost
/// bits are all equal to the sign exactly when the product fits a word with one bit more.
fn cause(count: i64, operand: i64, after: u32) -> &'static str {
    let lost_differ = !fits(i128::from(operand) * power(count), 33);
    let sign_differs = (after & N != 0) != (operand < 0);
    match (operand < 0, lost_differ, sign_differs) {
        (false, true, false) => "positive: lost bits alone",
        (false, false, true) => "positive: the sign alone",
        (false, true, true) => "positive: both",
        (true, true, false) => "negative: lost bits alone",
        (true, false, true) => "negative: the sign alone",
        (true, true, true) => "negative: both",
        (_, false, false) => panic!("{operand} by {count} fits"),
    }
}

/// Which bits a shift to the right loses.
fn lost(count: i64, operand: i64) -> &'static str {
    let whole = i128::from(operand) % power(count) == 0;
    match (operand.signum(), whole) {
        (0, _) => "0",
        (1, true) => "positive, zeros are lost",
        (1, false) => "positive, a one is lost",
        (_, true) => "negative, zeros are lost",
        (_, false) => "negative, a one is lost",
    }
}

impl Shifts {
    /// Counts an SH with its status before and after.
    pub fn shifted(&mut self, (count, operand): (u32, u32), before: u32, after: u32) {
        let (count, operand) = (signed(count, 4), signed(operand, 4));
        let v = after & V != 0;
        add(&mut self.v, (count >= 0, before & V != 0, v));
        if count < 0 {
            add(&mut self.lost, (lost(count, operand), places(count)));
            return;
        }
        assert_eq!(v, !fits(i128::from(operand) * power(count), 32), "V of {operand} by {count}");
        add(&mut self.operands, (operand_is(count, operand), places(count)));
        if v {
            add(&mut self.causes, (cause(count, operand, after), places(count)));
        }
    }
}

/// A table by the number of places; each row has the range of `PLACES` that the rules allow.
fn by_places(
    table: &mut Table,
    title: &str,
    counts: &Counts<(&'static str, &'static str)>,
    rows: &[(&'static str, RangeInclusive<usize>)],
) {
    println!("{title}");
    let heads: String = PLACES.iter().map(|places| format!("{places:>10}")).collect();
    println!("  {:40}{heads}", "places");
    for (row, allowed) in rows {
        let mut line = format!("  {row:40}");
        for (i, places) in PLACES.iter().enumerate() {
            let label = format!("{title}: {row}, {places} places");
            let cell = table.cell(counts, (*row, *places), allowed.contains(&i), label);
            line += &format!("{cell:>10}");
        }
        println!("{line}");
    }
}

pub fn shifts(cover: &Cover, table: &mut Table) {
    let Shifts { operands, causes, lost, v } = &cover.shifts;
    let rows = [
        ("0", 0..=6),
        ("positive, fits", 0..=2),
        ("positive, the greatest that fits", 0..=2),
        ("positive, the least that doesn't fit", 1..=6),
        ("positive, above that", 1..=6),
        ("negative, fits", 0..=2),
        ("negative, the least that fits", 0..=3),
        ("negative, the greatest that doesn't fit", 1..=6),
        ("negative, below that", 1..=6),
    ];
    by_places(table, "SH to the left: the operand, and whether its product fits", operands, &rows);
    println!("  impossible: by 0 places every operand fits, by 31 only 0 and -1, from 32 on only 0; no count is 2^31");
    let rows = [
        ("positive: lost bits alone", 2..=6),
        ("positive: the sign alone", 1..=3),
        ("positive: both", 2..=3),
        ("negative: lost bits alone", 2..=3),
        ("negative: the sign alone", 1..=4),
        ("negative: both", 2..=6),
    ];
    by_places(table, "SH to the left: what sets V", causes, &rows);
    println!(
        "  impossible: by 1 place only the sign is lost; from 32 on the result is 0 and all bits are lost, from 33 on \
         zeros too"
    );
    let rows = [
        ("0", 1..=7),
        ("positive, zeros are lost", 1..=2),
        ("positive, a one is lost", 1..=7),
        ("negative, zeros are lost", 1..=3),
        ("negative, a one is lost", 1..=7),
    ];
    by_places(table, "SH to the right", lost, &rows);
    println!(
        "  impossible: 0 places are to the left; from 31 on a positive operand loses a one, from 32 on any but 0\n"
    );
    println!("SH: V before and after");
    for (name, left) in [("left", true), ("right", false)] {
        let mut line = format!("  {name:5}");
        for (before, after) in [(false, false), (false, true), (true, false), (true, true)] {
            let label = format!("SH to the {name}, V {before} before and {after} after");
            let cell = table.cell(v, (left, before, after), left || !after, label);
            line += &format!("{cell:>8}");
        }
        println!("{line}");
    }
    println!("  columns: stays clear, is set, is cleared, stays set. Impossible: a shift to the right clears V\n");
}
