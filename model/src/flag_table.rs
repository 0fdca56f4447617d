//! Coverage tables of levels, flags and jumps.

use crate::arith;
use crate::code::{decode, Op};
use crate::cover::Cover;
use crate::floats::{self, Number};
use crate::gen::float_values::edges;
use crate::state::*;
use crate::table::Table;

pub fn levels(cover: &Cover, table: &mut Table) {
    println!(
        "Levels: entered, stop 16, equal, below, waits for a higher one, waits in kernel mode; \
         requests: new, again, stopped"
    );
    let fates = [
        "entered",
        "stop 16",
        "equal to the status level",
        "below the status level",
        "waits for a higher one",
        "waits in kernel mode",
    ];
    for level in 1..16u32 {
        let mut line = format!("  {level:2}");
        for fate in fates {
            let wanted = !(level == 15 && (fate == "below the status level" || fate == "waits for a higher one"));
            let cell = table.cell(&cover.levels, (level, fate), wanted, format!("level {level} {fate}"));
            line += &format!("{cell:>8}");
        }
        for fate in ["new", "pending already", "stopped desk"] {
            let cell = table.cell(&cover.requests, (level, fate), true, format!("request {level} {fate}"));
            line += &format!("{cell:>8}");
        }
        println!("{line}");
    }
    println!("  impossible: no level is above 15\n");
}

/// Flags that a command can give; found for B from all pairs of values, for floating numbers from
/// all pairs of the edges.
fn possible(byte: u8) -> Vec<u32> {
    let known = decode(byte).unwrap();
    if let Op::Float(op) = known.op {
        let format = known.operands[0].1;
        let edges: Vec<Number> = edges(format).into_iter().map(|bits| Number::of(format, bits)).collect();
        let pairs = edges.iter().flat_map(|first| edges.iter().map(move |second| (*first, *second)));
        return pairs.map(|(first, second)| floats::apply(op, first, second).1).collect();
    }
    match known.op {
        Op::Sh => return vec![0, N, Z, V, N | V, Z | V],
        Op::Rot | Op::Conv | Op::Movea => return vec![0, N, Z],
        _ => {}
    }
    let mut found = Vec::new();
    for first in 0..256 {
        for second in 0..256 {
            if let Some((_, flags)) = arith::apply(known.op, first, second, 1) {
                if !found.contains(&flags) {
                    found.push(flags);
                }
            }
        }
    }
    found.sort();
    found
}

pub fn flags(cover: &Cover, table: &mut Table) {
    println!("Flag outcomes (0 to 15 is N Z V C) of each command that sets flags");
    for byte in (0x10..=0x66u8).chain(0x80..=0xA5).filter(|b| decode(*b).is_some()) {
        let wanted = possible(byte);
        let mut line = format!("  {byte:02X}h");
        for flags in 0..16 {
            let label = format!("flags {flags} of {byte:02X}h");
            let cell = table.cell(&cover.flags, (byte, flags), wanted.contains(&flags), label);
            line += &format!("{cell:>5}");
        }
        println!("{line}");
    }
    println!(
        "  impossible: found by trying all pairs of B values, as what B, H and W share doesn't depend on the width;"
    );
    println!(
        "  for floating numbers by trying all pairs of the edges (gen/float_values.rs): C is clear, N and Z exclude \
         each other,\n  Z and V too; CMP sets no two of them\n"
    );
    println!("Jumps by the flags before, with the number of cases taken (+) or not");
    for byte in 0x70..=0x78u8 {
        let mut line = format!("  {byte:02X}h");
        for flags in 0..16 {
            let taken = arith::taken(byte, flags);
            let cell = table.cell(&cover.jumps, (byte, flags, taken), true, format!("jump {byte:02X}h flags {flags}"));
            line += &format!("{:>5}", format!("{}{cell}", if taken { "+" } else { "" }));
        }
        println!("{line}");
    }
    println!("Commands that keep flags, by the flags");
    for byte in [0x00, 0x01, 0x02, 0x03, 0x79, 0x7A] {
        let mut line = format!("  {byte:02X}h");
        for flags in 0..16 {
            let label = format!("{byte:02X}h keeping flags {flags}");
            let cell = table.cell(&cover.kept, (byte, flags), true, label);
            line += &format!("{cell:>5}");
        }
        println!("{line}");
    }
    println!();
}
