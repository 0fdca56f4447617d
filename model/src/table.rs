//! Prints the coverage tables and finds what is missing.

pub use crate::cells::Table;

use crate::code::{decode, Format, Op, Role};
use crate::cover::{Cover, FINE};
use crate::work::Part;

pub const ROLES: [(&str, Role); 4] = [
    ("value", Role::Value),
    ("address", Role::Address),
    ("destination", Role::Destination),
    ("read and written", Role::Both),
];

/// Outcomes of a command: none of the alarms, or one of them.
const OUTCOMES: [u32; 10] = [FINE, 8, 9, 10, 11, 12, 13, 14, 15, 21];

pub fn mode_name(kernel: bool) -> &'static str {
    if kernel {
        "kernel"
    } else {
        "user"
    }
}

/// Outcomes that the rules allow for a byte in a mode.
fn allowed(byte: u16, kernel: bool) -> Vec<u32> {
    if byte == 256 {
        return if kernel { vec![8] } else { vec![8, 9, 10, 21] };
    }
    let Some(known) = decode(byte as u8) else { return vec![12] };
    match known.op {
        Op::Halt if !kernel => return vec![13],
        Op::Resume if !kernel => return vec![13],
        Op::SystemCall if kernel => return vec![13],
        Op::Halt => return vec![FINE],
        _ => {}
    }
    let mut list = vec![FINE, 8];
    if !kernel {
        list.extend([9, 10]);
        let writes = known.operands.iter().any(|(role, _)| matches!(role, Role::Destination | Role::Both));
        if writes || matches!(known.op, Op::Call | Op::Pushr) {
            list.push(11);
        }
    }
    if !known.operands.is_empty() {
        list.push(14);
        if !kernel {
            list.push(21);
        }
    }
    if known.op == Op::Div {
        list.push(15);
    }
    list
}

pub fn commands(cover: &Cover, table: &mut Table) {
    println!("Command bytes: outcomes by mode (0 is without alarm; '-' is impossible by the rules)");
    let heads: String = OUTCOMES[1..].iter().map(|outcome| format!("{outcome:>8}")).collect();
    println!("  byte    mode    {:>7}{heads}", FINE);
    for byte in (0..=256u16).filter(|b| *b == 256 || decode(*b as u8).is_some()) {
        for kernel in [false, true] {
            let name = if byte == 256 { "none".into() } else { format!("{byte:02X}h") };
            let wanted = allowed(byte, kernel);
            let mut line = format!("  {name:7} {:7}", mode_name(kernel));
            for outcome in OUTCOMES {
                let cell = table.cell(
                    &cover.commands,
                    (byte, kernel, outcome),
                    wanted.contains(&outcome),
                    format!("byte {name} {} outcome {outcome}", mode_name(kernel)),
                );
                line += &format!("{cell:>8}");
            }
            println!("{line}");
        }
    }
    let mut unknown = [0, 0];
    for byte in (0..256u16).filter(|b| decode(*b as u8).is_none()) {
        for kernel in [false, true] {
            table.cell(&cover.commands, (byte, kernel, 12), true, format!("unknown {byte:02X}h {}", mode_name(kernel)));
            unknown[usize::from(kernel)] += u32::from(cover.commands.contains_key(&(byte, kernel, 12)));
        }
    }
    println!("  unknown bytes giving 12: {} in user mode, {} in kernel mode", unknown[0], unknown[1]);
    println!(
        "  impossible: 9 to 11 and 21 in kernel mode (no map); 11 without a write; 13 but for HALT, RESUME and \
         system call;"
    );
    println!(
        "  HALT and RESUME in user mode and the system call in kernel mode end with 13; \
         14 and 21 need an operand; 15 needs DIV\n"
    );
}

pub fn forms(cover: &Cover, table: &mut Table) {
    println!("Forms by role, format and mode: operands that keep the rules");
    for (name, role) in ROLES {
        for format in Format::ALL {
            for kernel in [false, true] {
                let mut line = format!("  {name:16} {format:?} {:7}", mode_name(kernel));
                for form in 0..=8u8 {
                    let wanted = (role != Role::Address || format == Format::W)
                        && match form {
                            1 => role == Role::Value && format != Format::D,
                            2 => role != Role::Address,
                            _ => true,
                        };
                    let label = format!("form {form} as {name} of {format:?} in {} mode", mode_name(kernel));
                    let cell = table.cell(&cover.forms, (form, role, format, kernel), wanted, label);
                    line += &format!("{cell:>8}");
                }
                println!("{line}");
            }
        }
    }
    println!(
        "  impossible: form 1 is no destination and no D; forms 1 and 2 have no address; an address operand is W\n"
    );
    println!("R15 as x or y");
    for form in 2..=8u8 {
        let x = table.cell(&cover.r15, (form, true), form < 7, format!("x = 15 in form {form}"));
        let y = table.cell(&cover.r15, (form, false), form == 4 || form == 6, format!("y = 15 in form {form}"));
        println!("  form {form}: x {x:>6}  y {y:>6}");
    }
    println!("  impossible: forms 7 and 8 exclude x = 15; other forms than 4 and 6 don't use y\n");
}

pub fn rules(cover: &Cover, table: &mut Table) {
    println!("Broken form rules by role and format (user mode, kernel mode)");
    let list = [
        "0: x",
        "0: y",
        "1: destination",
        "1: no address",
        "1: D",
        "1: x",
        "1: y",
        "1: other bytes",
        "2: no address",
        "2: F in R15",
        "2: D in R14",
        "2: D in R15",
        "2: y",
        "2: z",
        "3: y",
        "5: y",
        "7, 8: x = 15",
        "7, 8: y",
        "7, 8: z",
        "above 8",
    ];
    for rule in list {
        let mut line = format!("  {rule:16}");
        for (name, role) in ROLES {
            for format in Format::ALL {
                let written = matches!(role, Role::Destination | Role::Both);
                let wanted = (role != Role::Address || format == Format::W)
                    && match rule {
                        "1: destination" => written,
                        "1: no address" | "2: no address" => role == Role::Address,
                        "1: D" => role == Role::Value && format == Format::D,
                        "1: x" | "1: y" => role == Role::Value && format != Format::D,
                        "1: other bytes" => role == Role::Value && format.size() < 4,
                        "2: F in R15" => format == Format::F,
                        "2: D in R14" | "2: D in R15" => format == Format::D,
                        "2: y" | "2: z" => role != Role::Address,
                        _ => true,
                    };
                for kernel in [false, true] {
                    let label = format!("rule {rule} as {name} of {format:?} in {} mode", mode_name(kernel));
                    let cell = table.cell(&cover.rules, (rule, role, format, kernel), wanted, label);
                    line += &format!("{cell:>4}");
                }
            }
        }
        println!("{line}");
    }
    println!("  columns: value, address, destination, read and written, for each B H W F D, each user and kernel\n");
}

pub fn alarms(cover: &Cover, table: &mut Table) {
    println!("Alarms by part of the command");
    let mut parts = vec![(Part::Byte, vec![8, 9, 10, 12, 21]), (Part::Mode, vec![13])];
    for place in 1..=3 {
        parts.push((Part::Fetch(place), vec![8, 9, 10, 21]));
        parts.push((Part::Form(place), vec![14]));
        parts.push((Part::Indirect(place), vec![8, 9, 10]));
        if place < 3 {
            parts.push((Part::Value(place), vec![8, 9, 10]));
        }
    }
    parts.push((Part::Stack, vec![8, 9, 10]));
    parts.push((Part::Operation, vec![14, 15]));
    parts.push((Part::Write, vec![8, 9, 10, 11]));
    for (part, numbers) in parts {
        for kernel in [false, true] {
            let mut line = format!("  {:12} {:7}", format!("{part:?}"), mode_name(kernel));
            for number in &OUTCOMES[1..] {
                let number = *number;
                let mut wanted = numbers.contains(&number);
                if kernel {
                    wanted &= !matches!(number, 9..=11 | 21);
                } else {
                    wanted &= !(part == Part::Operation && number == 14);
                }
                let label = format!("alarm {number} at {part:?} in {} mode", mode_name(kernel));
                let cell = table.cell(&cover.alarms, (number, part, kernel), wanted, label);
                line += &format!("{cell:>8}");
            }
            println!("{line}");
        }
    }
    println!(
        "  columns: 8 to 15, 21. Impossible: 14 at the operation is RESUME's, in kernel mode only; a third operand's"
    );
    println!("  value is never used; 9 to 11 and 21 need the map, 21 a fetch\n");
    println!("Bytes in two pages, read or written without an alarm");
    for place in 1..=3 {
        let mut line = format!("  operand {place}: ");
        for (name, part) in
            [("fetch", Part::Fetch(place)), ("indirect word", Part::Indirect(place)), ("value", Part::Value(place))]
        {
            let cell = table.cell(&cover.crossings, part, part != Part::Value(3), format!("{part:?} in two pages"));
            line += &format!(" {name} {cell:>4}");
        }
        println!("{line}");
    }
    for part in [Part::Stack, Part::Write] {
        println!("  {part:?}: {:>4}", table.cell(&cover.crossings, part, true, format!("{part:?} in two pages")));
    }
    println!();
}

pub fn entries(cover: &Cover, table: &mut Table) {
    println!("Causes: entries, and stops 16 by a user status or an undefined bit");
    let causes: Vec<u32> = [1, 2].into_iter().chain(8..=15).chain(17..=31).collect();
    for cause in &causes {
        let entered = table.cell(&cover.entries, *cause, true, format!("entry with cause {cause}"));
        let total: u32 = cover.bad_entries.iter().filter(|((c, _), _)| c == cause).map(|(_, count)| *count).sum();
        table.cells += 1;
        if total == 0 {
            table.missing.push(format!("stop 16 with cause {cause}"));
        }
        println!("  {cause:2}: {entered:>6} {total:>6}");
    }
    for reason in ["entry has a user status", "entry has an undefined status bit"] {
        let total: u32 = cover.bad_entries.iter().filter(|((_, r), _)| *r == reason).map(|(_, c)| *c).sum();
        table.cells += 1;
        if total == 0 {
            table.missing.push(reason.to_string());
        }
        println!("  {reason}: {total}");
    }
    println!(
        "  other causes are impossible: 1, 2 for alarm 21, the alarm numbers 8 to 15 and 16 + level are all that enter"
    );
    println!("Stops");
    for number in [0, 8, 9, 10, 11, 12, 13, 14, 15, 16, 21] {
        let wanted = !matches!(number, 9..=11 | 21);
        println!("  {number:2}: {:>6}", table.cell(&cover.stops, number, wanted, format!("stop {number}")));
    }
    println!("  impossible: 9 to 11 and 21 come from the map, which kernel mode doesn't use\n");
}

pub fn refusals(cover: &Cover, table: &mut Table) {
    println!("Refusals by call (step, run, run to, request, fresh, load)");
    let list = [
        (1, "length 0", "srtfl"),
        (1, "length above 16,777,216", "srtf"),
        (1, "length no multiple of 512", "srtfl"),
        (2, "system block no multiple of 4", "srtf"),
        (2, "system block doesn't fit", "srtf"),
        (3, "control block no multiple of 4", "srtf"),
        (3, "control block doesn't fit", "srtf"),
        (4, "map base no multiple of 4", "srt"),
        (4, "map doesn't fit", "srt"),
        (5, "status has an undefined bit", "srtq"),
        (5, "pending set has level 0", "srtq"),
        (6, "level 0", "q"),
        (6, "level above 15", "q"),
        (7, "stopped", "srt"),
        (17, "empty list", "l"),
        (17, "no end", "l"),
        (17, "01h cut short", "l"),
        (17, "02h cut short", "l"),
        (17, "03h cut short", "l"),
        (17, "04h cut short in its count", "l"),
        (17, "04h cut short before its byte", "l"),
        (17, "unknown command", "l"),
        (17, "bytes after the end", "l"),
        (18, "more than 4,096 pieces", "l"),
        (19, "02h outside memory", "l"),
        (19, "03h outside memory", "l"),
        (19, "03h across the memory's end", "l"),
        (19, "04h outside memory", "l"),
        (19, "04h across the memory's end", "l"),
        (20, "more than 64 breakpoints", "t"),
    ];
    for (number, reason, calls) in list {
        let mut line = format!("  {number:2} {reason:32}");
        let kinds = [('s', "step"), ('r', "run"), ('t', "run to"), ('q', "request"), ('f', "fresh"), ('l', "load")];
        for (letter, kind) in kinds {
            let label = format!("refusal {number} of {kind}: {reason}");
            let cell = table.cell(&cover.refusals, (number, kind, reason), calls.contains(letter), label);
            line += &format!("{cell:>8}");
        }
        println!("{line}");
    }
    println!(
        "  impossible: a request tries 5 and 6 only, a fresh desk 1 to 3, step and run 1 to 7 but for 6, a run to"
    );
    println!(
        "  breakpoints these and 20, a load 1 and 17 to 19. A load into more than 65,536 bytes is no stored case; a"
    );
    println!("  unit test tries it\n");
    println!("Runs");
    for what in [
        "of 0 steps",
        "of 0 steps, refused",
        "that does all its steps",
        "that stops in its last step",
        "that stops earlier",
        "that goes on over an entry",
    ] {
        println!("  {what:32} {:>6}", table.cell(&cover.runs, what, true, format!("run {what}")));
    }
    println!("RESUME");
    for what in [
        "good",
        "control block doesn't fit",
        "control block no multiple of 4",
        "map base no multiple of 4",
        "map doesn't fit",
        "block has a kernel status",
        "block has an undefined status bit",
    ] {
        let cell = table.cell(&cover.resumes, what, true, format!("RESUME: {what}"));
        println!("  {:32} {cell:>6}", what.trim_start_matches("control "));
    }
    println!();
}
