//! The tables of breakpoints (request F-3): what `breakpoint_cover.rs` counts.

use crate::breakpoint_cover::TRIED;
use crate::cover::{Counts, Cover};
use crate::table::Table;

const NUMBERS: [&str; 8] = ["0", "1", "2", "3 to 62", "63", "64", "65", "66 to 70"];

/// What missing cells are called, and the room for a row's name.
const SUBJECT: &str = "breakpoints";
const ROOM: usize = 50;

fn row<K: Ord>(table: &mut Table, counts: &Counts<K>, name: &str, cells: Vec<(K, bool)>) {
    table.row(counts, SUBJECT, name, ROOM, cells);
}

fn met(cover: &Cover, table: &mut Table) {
    let points = &cover.breakpoints;
    println!("Breakpoints that R15 equals: what becomes of the run, in user mode and in kernel mode");
    for (what, user, kernel) in [
        ("held, nothing pending", true, true),
        ("held, only others pending", true, true),
        ("held, a level above the status level pending", false, true),
        ("interrupt due", true, false),
        ("before the first step", true, true),
        ("before the first step, interrupt due", true, false),
        ("no step asked for", true, true),
        ("after the last step asked for", true, true),
        ("stopped there", true, true),
        ("an off one alone", true, true),
    ] {
        row(table, &points.met, what, vec![((what, false), user), ((what, true), kernel)]);
    }
    println!("  impossible: an interrupt is due in user mode alone, and then for each level above the status level");
    println!("Breakpoints: levels 1 to 15 that are pending at an armed one");
    for what in ["entered", "equal to the status level", "below the status level", "kernel mode"] {
        let below_15 = |level: u32| level < 15 || what != "below the status level";
        row(table, &points.levels, what, (1..16).map(|level| ((level, what), below_15(level))).collect());
    }
    println!("  impossible: no status level is above 15");
    println!("Breakpoints: how R15 came to the one that holds");
    let names = [
        "straight on",
        "a jump",
        "CALL",
        "RET",
        "a result in R15",
        "a system call",
        "an alarm",
        "an interrupt",
        "RESUME",
    ];
    table.column(&points.ways, SUBJECT, ROOM, &names);
    println!("Breakpoints: the step that is held");
    let names = [
        "done without an alarm",
        "a system call",
        "an alarm",
        "HALT",
        "a stop by an alarm",
        "stop 16",
        "where no command can be fetched",
        "at 0",
        "at FFFFFFFFh",
    ];
    table.column(&points.before, SUBJECT, ROOM, &names);
    println!("Breakpoints: steps of a run that is held");
    let names = [
        "after 1 step",
        "after more steps",
        "one step before n",
        "n is FFFFFFFFh",
        "where it began, after 1 step",
        "where it began, a round later",
    ];
    table.column(&points.steps, SUBJECT, ROOM, &names);
    println!("Breakpoints: what comes after a hold");
    let names = ["the same list", "another list", "a run", "a step", "a request", "a request, then the same list"];
    table.column(&points.after, SUBJECT, ROOM, &names);
}

fn lists(cover: &Cover, table: &mut Table) {
    let points = &cover.breakpoints;
    println!("Breakpoints: place of the one that holds, by their number (1, 2, 3 to 62, 63, 64)");
    for (place, fewest) in [("0", 1), ("1", 2), ("2 to 61", 3), ("62", 4), ("63", 5)] {
        let cells = (1..=5).map(|number| ((place, NUMBERS[number]), number >= fewest)).collect();
        row(table, &points.places, place, cells);
    }
    println!("  impossible: a place that a list doesn't have");
    println!(
        "Breakpoints: how a run ends (all its steps, 0 steps, stopped, held, refused before 20 and by 20), by number"
    );
    for (i, number) in NUMBERS.into_iter().enumerate() {
        let cells = ["all its steps", "0 steps", "stopped", "held", "refused before 20", "refused by 20"].map(|end| {
            let wanted = match end {
                "held" => (1..=5).contains(&i),
                "refused before 20" => true,
                "refused by 20" => i > 5,
                _ => i <= 5,
            };
            ((number, end), wanted)
        });
        row(table, &points.ends, number, cells.to_vec());
    }
    println!("  impossible: no breakpoint holds nothing; more than 64 are refused, others not by 20");
    println!("Breakpoints: what else lists contain");
    let names = [
        "held: an equal one before it, off",
        "held: another before it, armed",
        "held: another before it, off",
        "held: an equal one after it, armed",
        "held: an equal one after it, off",
        "held: another after it, armed",
        "held: the only armed one of many",
        "held: all armed",
        "not held: all off",
        "not held: all armed",
    ];
    table.column(&points.lists, SUBJECT, ROOM, &names);
    println!("Breakpoints: armed ones that a run passes, by the one bit in which they differ from R15");
    for from in (0..32).step_by(8) {
        let cells = (from..from + 8).map(|bit| (bit, true)).collect();
        row(table, &points.bits, &format!("bits {from} to {}", from + 7), cells);
    }
    let names = [
        "one above R15",
        "one below R15",
        "inside the command",
        "equal in the low 8 bits",
        "equal in the low 16 bits",
        "equal in the low 24 bits",
        "equal in the high 16 bits",
        "the real address in user mode",
        "0",
        "FFFFFFFFh",
    ];
    table.column(&points.misses, SUBJECT, ROOM, &names);
}

fn refusals(cover: &Cover, table: &mut Table) {
    let points = &cover.breakpoints;
    println!("Breakpoints: what refuses a run (rows), and what else is broken (columns 1, 2, 3, 4, 5, 7, 20)");
    for (i, number) in TRIED.into_iter().enumerate() {
        let cells = TRIED.into_iter().enumerate().map(|(j, other)| ((number, other), j >= i)).collect();
        row(table, &points.orders, &number.to_string(), cells);
    }
    println!("  impossible: what is tried earlier refuses");
    println!("Breakpoints: what refuses a run with more than 64, of 0 steps and of more");
    for number in TRIED {
        let cells = [true, false].map(|none| ((number, none), true)).to_vec();
        row(table, &points.many, &number.to_string(), cells);
    }
}

pub fn breakpoints(cover: &Cover, table: &mut Table) {
    met(cover, table);
    lists(cover, table);
    refusals(cover, table);
    println!();
}
