//! Coverage of the commands on floating numbers (request F-6): what the stored cases reach, and its
//! tables.

use crate::code::{decode, FloatOp, Format, Op, Role};
use crate::cover::{add, Counts, Cover};
use crate::exact::{operate, How, Parts};
use crate::floats::{apply, Number};
use crate::notes::Note;
use crate::state::*;
use crate::table::{mode_name, Table, ROLES};
use crate::work::Part;

const KINDS: [Format; 2] = [Format::F, Format::D];
const OPS: [FloatOp; 5] = [FloatOp::Add, FloatOp::Sub, FloatOp::Mult, FloatOp::Div, FloatOp::Cmp];

#[derive(Default)]
pub struct Floats {
    /// Operation, kind, what the first and the second number are; MOVE's second is the first again.
    classes: Counts<(FloatOp, Format, &'static str, &'static str)>,
    /// Operation, kind, how its result came about.
    results: Counts<(FloatOp, Format, How)>,
    /// Kind, role, register of form 2, whether it was refused.
    registers: Counts<(Format, Role, u8, bool)>,
    /// Command byte, flags before.
    before: Counts<(u8, u32)>,
    /// Command byte, operand, its form, kernel mode, for operands that keep the rules.
    forms: Counts<(u8, u32, u8, bool)>,
    /// Command byte, part, alarm, kernel mode.
    alarms: Counts<(u8, Part, u32, bool)>,
    /// Kind, part, how many bytes lie before the end of a page, alarm in the next page or 0.
    across: Counts<(Format, Part, u32, u32)>,
}

const CLASSES: [&str; 12] = ["+0", "-0", "+sub", "-sub", "+", "-", "+inf", "-inf", "+q", "-q", "+s", "-s"];

fn class(number: Number) -> &'static str {
    let parts = Parts::of(number);
    let kind = if parts.zero() {
        0
    } else if parts.subnormal() {
        2
    } else if parts.infinite() {
        6
    } else if parts.quiet() {
        8
    } else if parts.nan() {
        10
    } else {
        4
    };
    CLASSES[kind + usize::from(parts.negative)]
}

/// The operation and kind of a command on floating numbers.
fn floating(byte: u8) -> Option<(FloatOp, Format)> {
    let known = decode(byte)?;
    match known.op {
        Op::Float(op) => Some((op, known.operands[0].1)),
        _ => None,
    }
}

impl Floats {
    /// Counts a step.
    pub fn stepped(&mut self, before: &State, notes: &[Note]) {
        let Some(Note::Command(byte)) = notes.iter().find(|note| matches!(note, Note::Command(_))) else { return };
        let Some((op, format)) = floating(*byte) else { return };
        let kernel = before.kernel();
        let mut place = 0;
        let mut alarm = None;
        for note in notes {
            match note {
                Note::Operand { form, x, role, broken, .. } => {
                    place += 1;
                    if *form == 2 && !matches!(broken, Some("2: y" | "2: z")) {
                        add(&mut self.registers, (format, *role, *x, broken.is_some()));
                    }
                    if broken.is_none() {
                        add(&mut self.forms, (*byte, place, *form, kernel));
                    }
                }
                Note::Numbers { first, second, .. } => self.numbers(op, format, *first, *second),
                Note::Alarm { number, part } => {
                    alarm = Some((*number, *part));
                    add(&mut self.alarms, (*byte, *part, *number, kernel));
                }
                _ => {}
            }
        }
        if alarm.is_none() {
            add(&mut self.before, (*byte, before.status & FLAGS));
        }
        for part in [Part::Value(1), Part::Value(2), Part::Write] {
            self.lay_across(format, part, notes, alarm);
        }
    }

    fn numbers(&mut self, op: FloatOp, format: Format, first: Number, second: Number) {
        let second = if op == FloatOp::Move { first } else { second };
        add(&mut self.classes, (op, format, class(first), class(second)));
        if !matches!(op, FloatOp::Move | FloatOp::Cmp) {
            let (result, how) = operate(op, first, second);
            assert_eq!(result, apply(op, first, second).0, "{op:?} {first:X?} {second:X?}");
            add(&mut self.results, (op, format, how));
        }
    }

    /// Counts a number of which a part of the bytes lies before the end of a page.
    fn lay_across(&mut self, format: Format, part: Part, notes: &[Note], alarm: Option<(u32, Part)>) {
        let mut found = Vec::new();
        for note in notes {
            match note {
                Note::Lookup { at, part: its, number, .. } if *its == part => found.push((*at, *number)),
                _ => {}
            }
        }
        let Some((first, _)) = found.first() else { return };
        let before = FRAME_BYTES - first % FRAME_BYTES;
        if before >= format.size() {
            return;
        }
        // At or past the map's end no entry is looked up.
        let number = match found.get(before as usize) {
            Some((_, number)) => *number,
            None if alarm == Some((8, part)) && found.len() == before as usize => 8,
            None => return,
        };
        add(&mut self.across, (format, part, before, number));
    }
}

/// How the results of an operation can come about.
pub fn possible(op: FloatOp) -> Vec<How> {
    use How::*;
    let mut list = vec![NanOperand, Invalid, InfiniteOperand, ExactZero, Exact, Down, Up, CloseDown, CloseUp];
    list.extend([SubnormalExact, Overflow]);
    let small = [SubnormalDown, SubnormalUp, SubnormalCloseDown, SubnormalCloseUp, SubnormalTieDown, SubnormalTieUp];
    let rounded = [&small[..], &[ToZero, TieToZero]].concat();
    let whole = [TieDown, TieUp, Carried, ToGreatest, TieOverflow];
    match op {
        FloatOp::Add | FloatOp::Sub => list.extend(whole),
        FloatOp::Mult => list.extend([&rounded[..], &whole[..], &[Normalised]].concat()),
        FloatOp::Div => list.extend([&rounded[..], &[DivisionByZero]].concat()),
        FloatOp::Move | FloatOp::Cmp => list.clear(),
    }
    list
}

pub const HOWS: [(How, &str); 26] = [
    (How::NanOperand, "NaN by a NaN"),
    (How::Invalid, "NaN by others"),
    (How::InfiniteOperand, "an operand is infinite"),
    (How::DivisionByZero, "division by zero"),
    (How::ExactZero, "zero, exact"),
    (How::Exact, "exact"),
    (How::Down, "rounded down"),
    (How::Up, "rounded up"),
    (How::CloseDown, "from a little below a tie"),
    (How::CloseUp, "from a little above a tie"),
    (How::TieDown, "tie, down"),
    (How::TieUp, "tie, up"),
    (How::Carried, "up to the next power of 2"),
    (How::SubnormalExact, "subnormal, exact"),
    (How::SubnormalDown, "subnormal, rounded down"),
    (How::SubnormalUp, "subnormal, rounded up"),
    (How::SubnormalCloseDown, "subnormal, a little below a tie"),
    (How::SubnormalCloseUp, "subnormal, a little above a tie"),
    (How::SubnormalTieDown, "subnormal, tie, down"),
    (How::SubnormalTieUp, "subnormal, tie, up"),
    (How::Normalised, "up to the smallest normalised"),
    (How::ToZero, "rounded to zero"),
    (How::TieToZero, "tie, to zero"),
    (How::ToGreatest, "down to the greatest"),
    (How::Overflow, "rounded to infinity"),
    (How::TieOverflow, "tie, to infinity"),
];

fn float_bytes() -> impl Iterator<Item = u8> {
    (0..=255).filter(|byte| floating(*byte).is_some())
}

/// Alarms that a part of a command on floating numbers can have.
fn alarms_of(byte: u8) -> Vec<(Part, Vec<u32>)> {
    let mut list = Vec::new();
    for (i, (role, _)) in decode(byte).unwrap().operands.iter().enumerate() {
        let place = i as u32 + 1;
        list.push((Part::Fetch(place), vec![8, 9, 10, 21]));
        list.push((Part::Form(place), vec![14]));
        list.push((Part::Indirect(place), vec![8, 9, 10]));
        match role {
            Role::Value => list.push((Part::Value(place), vec![8, 9, 10])),
            Role::Both => list.extend([(Part::Value(place), vec![8, 9, 10]), (Part::Write, vec![11])]),
            Role::Destination => list.push((Part::Write, vec![8, 9, 10, 11])),
            Role::Address => {}
        }
    }
    list
}

pub fn floats(cover: &Cover, table: &mut Table) {
    numbers(&cover.floats, table);
    operands(&cover.floats, table);
}

fn numbers(floats: &Floats, table: &mut Table) {
    println!("Floating numbers: the first (rows) and the second (columns) of each operation");
    let heads: String = CLASSES.iter().map(|class| format!("{class:>8}")).collect();
    for op in OPS {
        for format in KINDS {
            println!("  {:12}{heads}", format!("{op:?} {format:?}"));
            for first in CLASSES {
                let cells = CLASSES.map(|second| ((op, format, first, second), true)).to_vec();
                table.row(&floats.classes, &format!("{op:?} {format:?}"), first, 12, cells);
            }
        }
    }
    for format in KINDS {
        let cells = CLASSES.map(|class| ((FloatOp::Move, format, class, class), true)).to_vec();
        table.row(&floats.classes, "what is moved", &format!("Move {format:?}"), 12, cells);
    }
    println!("  sub: subnormal; without a name: normalised; inf: infinite; q and s: quiet and signalling NaN");
    println!("How results come about: Add F, Add D, Sub F, Sub D, Mult F, Mult D, Div F, Div D");
    for (how, name) in HOWS {
        let all = OPS[..4].iter().flat_map(|op| KINDS.map(|format| ((*op, format, how), possible(*op).contains(&how))));
        table.row(&floats.results, "how results come about", name, 36, all.collect());
    }
    println!("  impossible: sums below the smallest normalised number are exact; a quotient of two numbers is no tie");
    println!("  unless it is subnormal, and lies between no number and the power of 2 or the infinity above it\n");
}

fn operands(floats: &Floats, table: &mut Table) {
    println!("Floating numbers in registers R0 to R15 (form 2), used and refused");
    for (name, role) in ROLES.into_iter().filter(|(_, role)| *role != Role::Address) {
        for format in KINDS {
            for refused in [false, true] {
                let first_refused = if format == Format::D { 14 } else { 15 };
                let cells = (0..16).map(|x| ((format, role, x, refused), refused == (x >= first_refused))).collect();
                table.row(
                    &floats.registers,
                    "registers",
                    &format!("{format:?} {name}, {}", if refused { "refused" } else { "used" }),
                    28,
                    cells,
                );
            }
        }
    }
    println!("Commands on floating numbers by the flags before");
    for byte in float_bytes() {
        let cells = (0..16).map(|flags| ((byte, flags), true)).collect();
        table.row(&floats.before, "flags before", &format!("{byte:02X}h"), 6, cells);
    }
    println!("Commands on floating numbers: operand and mode by form 0 to 8");
    for byte in float_bytes() {
        for (i, (role, format)) in decode(byte).unwrap().operands.into_iter().enumerate() {
            for kernel in [false, true] {
                let wanted = |form: u8| form != 1 || role == Role::Value && format == Format::F;
                let cells = (0..9).map(|form| ((byte, i as u32 + 1, form, kernel), wanted(form))).collect();
                let name = format!("{byte:02X}h {} {}", i + 1, mode_name(kernel));
                table.row(&floats.forms, "forms of floating numbers", &name, 16, cells);
            }
        }
    }
    println!("  impossible: form 1 is no destination and no D");
    println!("Commands on floating numbers: alarms 8, 9, 10, 11, 14, 21 by part and mode");
    for byte in float_bytes() {
        for (part, numbers) in alarms_of(byte) {
            for kernel in [false, true] {
                let wanted = |number: u32| numbers.contains(&number) && (!kernel || matches!(number, 8 | 14));
                let cells = [8, 9, 10, 11, 14, 21].map(|number| ((byte, part, number, kernel), wanted(number)));
                let name = format!("{byte:02X}h {part:?} {}", mode_name(kernel));
                table.row(&floats.alarms, "alarms of floating numbers", &name, 28, cells.to_vec());
            }
        }
    }
    println!("  impossible: what a part doesn't do; 9 to 11 and 21 need the map");
    println!("Floating numbers across the end of a page: in the next one no alarm, 8, 9, 10, 11");
    for format in KINDS {
        for part in [Part::Value(1), Part::Value(2), Part::Write] {
            for before in 1..format.size() {
                let cells = [0, 8, 9, 10, 11].map(|number| {
                    let wanted = number != 11 || part == Part::Write;
                    ((format, part, before, number), wanted)
                });
                let name = format!("{format:?} {part:?}, bytes before: {before}");
                table.row(&floats.across, "across the end of a page", &name, 32, cells.to_vec());
            }
        }
    }
    println!("  impossible: 11 needs a write\n");
}
