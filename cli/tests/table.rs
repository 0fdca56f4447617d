//! Holds the table of commands and that of forms against the proved machine, by what it does. table_definition.rs holds the
//! names against its definition.

use desk::decode::Fields;
use desk::forms;
use desk::table::{command, Command, Flow, Mode, Operand, Role, Size};
use midesk::{Desk, Event, Mark};

const COMMAND: u32 = 0x600;
/// Words of ones, and a control block of zeros that RESUME takes.
const ONES: u32 = 0x800;
const ZEROS: u32 = 0xA00;
const MEMORY: usize = 0x1000;
const CONTROL: u32 = 0x100;

/// What a command did, run alone.
struct Outcome {
    /// The alarm: cause of an entry or number of a stop.
    alarm: Option<u32>,
    /// Its argument, where the kernel was entered.
    argument: u32,
    desk: Desk,
    memory: Vec<u8>,
}

fn word(memory: &[u8], at: u32) -> u32 {
    let at = at as usize;
    u32::from_be_bytes([memory[at], memory[at + 1], memory[at + 2], memory[at + 3]])
}

fn put(memory: &mut [u8], at: u32, word: u32) {
    memory[at as usize..at as usize + 4].copy_from_slice(&word.to_be_bytes());
}

/// Runs one command in a mode. Every page is its own frame and may be written; each cause has an entry.
fn run(bytes: &[u8], kernel: bool, status: u32, change: impl Fn(&mut [u8])) -> Outcome {
    let mut memory = vec![0; MEMORY];
    for cause in 0..32 {
        put(&mut memory, 8 * cause, 0xF00);
        put(&mut memory, 8 * cause + 4, 0x8000_0000);
    }
    for page in 0..8 {
        put(&mut memory, 0x200 + 4 * page, 0xC000_0000 + page);
    }
    memory[ONES as usize..ZEROS as usize].fill(1);
    memory[COMMAND as usize..COMMAND as usize + bytes.len()].copy_from_slice(bytes);
    change(&mut memory);
    let mut desk = Desk::fresh(&memory, 0, CONTROL, COMMAND).expect("a desk");
    for i in 0..15 {
        desk.set_register(i, ONES + 16 * i as u32);
    }
    desk.set_map(0x200, 8);
    desk.set_status(if kernel { 0x8000_0000 | status } else { status });
    let event = desk.step(&mut memory).expect("a step");
    let alarm = match event {
        Event::Entered(cause) => Some(cause).filter(|cause| *cause >= 8),
        Event::Stopped(number) => Some(number).filter(|number| *number >= 8),
        _ => None,
    };
    let argument = word(&memory, CONTROL + 68);
    Outcome { alarm, argument, desk, memory }
}

/// An operand that every role takes: for an address the zeros, else a word of ones for each place.
fn plain(place: usize, rule: Operand) -> Fields {
    let z = if rule.role == Role::Address { ZEROS.wrapping_sub(ONES + 16) } else { 0 };
    Fields { form: forms::BASE, x: 1 + if rule.role == Role::Address { 0 } else { place as u8 }, y: 0, z }
}

fn encoded(command: &Command, operands: &[Fields]) -> Vec<u8> {
    let mut bytes = vec![command.byte];
    bytes.extend(operands.iter().flat_map(|fields| fields.to_bytes()));
    bytes
}

fn plain_operands(command: &Command) -> Vec<Fields> {
    command.operands.iter().enumerate().map(|(place, rule)| plain(place, *rule)).collect()
}

/// Runs a command with one operand changed, in a mode that allows it.
fn with(command: &Command, place: usize, fields: Fields) -> Outcome {
    let mut operands = plain_operands(command);
    operands[place] = fields;
    run(&encoded(command, &operands), command.mode == Mode::Kernel, 0, |_| {})
}

fn commands() -> impl Iterator<Item = &'static Command> {
    (0..=255).filter_map(command)
}

#[test]
fn unknown_bytes_are_alarm_12() {
    for byte in 0..=255 {
        for kernel in [true, false] {
            let bytes = [byte, 3, 0, 0, 0, 8, 0, 3, 0, 0, 0, 8, 0, 3, 0, 0, 0, 8, 0];
            let outcome = run(&bytes, kernel, 0, |_| {});
            assert_eq!(outcome.alarm == Some(12), command(byte).is_none(), "byte {byte:02X}");
        }
        assert!(command(byte).is_none_or(|command| command.byte == byte));
    }
    assert_eq!(commands().count(), 97);
}

#[test]
fn modes_are_those_of_alarm_13() {
    for command in commands() {
        let bytes = encoded(command, &plain_operands(command));
        let in_mode = |kernel| run(&bytes, kernel, 0, |_| {}).alarm;
        assert_eq!(in_mode(true) == Some(13), command.mode == Mode::User, "{}", command.title());
        assert_eq!(in_mode(false) == Some(13), command.mode == Mode::Kernel, "{}", command.title());
        let allowed = in_mode(command.mode == Mode::Kernel);
        assert_eq!(allowed, None, "{} with plain operands", command.title());
    }
}

/// An operand with form 9 is alarm 14 exactly where the command has that operand.
#[test]
fn counts_are_those_of_alarm_14() {
    for command in commands() {
        for place in 0..4 {
            let mut bytes = encoded(command, &plain_operands(command));
            bytes.resize(1 + 6 * 4, 0);
            bytes[1 + 6 * place] = 9;
            let outcome = run(&bytes, command.mode == Mode::Kernel, 0, |_| {});
            let is_there = place < command.operands.len();
            assert_eq!(outcome.alarm == Some(14), is_there, "{}, operand {}", command.title(), place + 1);
            if is_there && command.mode != Mode::Kernel {
                assert_eq!(outcome.argument, place as u32 + 1, "{}", command.title());
            }
        }
    }
}

/// The step of form 8 is the operand's length; of RESUME, which loads all registers, that of form 7.
#[test]
fn sizes_are_the_steps_of_registers() {
    for command in commands() {
        for (place, rule) in command.operands.iter().enumerate() {
            let what = format!("{}, operand {}", command.title(), place + 1);
            if command.name == "RESUME" {
                let fields = Fields { form: forms::STEP_DOWN, x: 12, y: 0, z: 0 };
                let bytes = encoded(command, &[fields]);
                let at = ONES + 16 * 12 - 4;
                let outcome = run(&bytes, true, 0, |memory| memory[ONES as usize..ZEROS as usize].fill(0));
                assert_eq!(outcome.desk.control_block(), at, "{what}");
                continue;
            }
            let outcome = with(command, place, Fields { form: forms::STEP_UP, x: 12, y: 0, z: 0 });
            assert_eq!(outcome.alarm, None, "{what}");
            assert_eq!(outcome.desk.register(12), ONES + 16 * 12 + rule.size.bytes(), "{what}");
        }
    }
}

/// Roles: form 1 is for values alone, form 2 for all but addresses; an update's result depends on what was there. A value of D
/// has no form 1 and is not written.
#[test]
fn roles_are_what_forms_and_memory_show() {
    for command in commands() {
        for (place, rule) in command.operands.iter().enumerate() {
            let what = format!("{}, operand {}", command.title(), place + 1);
            let takes = |fields| with(command, place, fields).alarm != Some(14);
            let value = match rule.size {
                Size::D => on_read_only(command, place).alarm.is_none(),
                _ => takes(Fields { form: forms::VALUE, x: 0, y: 0, z: 1 }),
            };
            let register = takes(Fields { form: forms::REGISTER, x: 1, y: 0, z: 0 });
            let role = match (value, register) {
                (true, true) => Role::Value,
                (false, false) => Role::Address,
                (false, true) if depends_on_itself(command, place) => Role::Update,
                (false, true) => Role::Destination,
                (true, false) => panic!("{what}"),
            };
            assert_eq!(role, rule.role, "{what}");
        }
    }
}

/// Whether what a command leaves in an operand depends on what was there.
fn depends_on_itself(command: &Command, place: usize) -> bool {
    let at = (ONES + 16 * (place as u32 + 1)) as usize;
    let length = command.operands[place].size.bytes() as usize;
    let left = |before: u8| {
        let bytes = encoded(command, &plain_operands(command));
        let outcome = run(&bytes, false, 0, |memory| memory[at..at + length].fill(before));
        outcome.memory[at..at + length].to_vec()
    };
    // Products of small floating numbers are zero, quotients of large ones infinite.
    left(0x12) != left(0x24) || left(0x24) != left(0x42)
}

/// Runs a command with one operand in a page that may only be read.
fn on_read_only(command: &Command, place: usize) -> Outcome {
    let mut operands = plain_operands(command);
    operands[place] = Fields { form: forms::ADDRESS, x: 0, y: 0, z: 0xC00 };
    run(&encoded(command, &operands), false, 0, |memory| {
        put(memory, 0x200 + 4 * 6, 0x8000_0006);
        memory[0xC00..0xC10].fill(1);
    })
}

/// A value or an update is read, an address is not, a destination is looked up for writing.
#[test]
fn reads_and_writes_meet_their_alarms() {
    let nowhere = Fields { form: forms::ADDRESS, x: 0, y: 0, z: MEMORY as u32 };
    for command in commands().filter(|command| command.mode != Mode::Kernel) {
        for (place, rule) in command.operands.iter().enumerate() {
            let what = format!("{}, operand {}", command.title(), place + 1);
            let outcome = with(command, place, nowhere);
            let expected = if rule.role == Role::Address { None } else { Some(8) };
            assert_eq!(outcome.alarm, expected, "{what}");
            let written = matches!(rule.role, Role::Destination | Role::Update);
            assert_eq!(on_read_only(command, place).alarm, written.then_some(11), "{what}");
        }
    }
}

/// Where the desk goes on, for all flags.
#[test]
fn flows_are_where_r15_goes() {
    for command in commands() {
        let bytes = encoded(command, &plain_operands(command));
        let next = COMMAND + command.length();
        let target = ZEROS;
        let kernel = command.mode == Mode::Kernel;
        let mut places: Vec<(u32, Mark)> = Vec::new();
        for flags in 0..16 {
            let outcome = run(&bytes, kernel, flags, |_| {});
            let r15 = match command.mode {
                Mode::User => word(&outcome.memory, CONTROL + 60),
                _ => outcome.desk.register(15),
            };
            places.push((r15, outcome.desk.mark()));
            if command.flow == Flow::Call {
                assert_eq!(word(&outcome.memory, ONES + 16 * 14 - 4), next, "{}", command.title());
            }
        }
        let all = |place| places.iter().all(|found| *found == (place, Mark::Running));
        let each = |place| places.contains(&(place, Mark::Running));
        let flow = match command.flow {
            Flow::Next => all(next),
            Flow::Jump | Flow::Call => all(target),
            Flow::Branch => each(next) && each(target),
            Flow::End => !each(next) || places.iter().all(|(_, mark)| *mark == Mark::Stopped(0)),
        };
        assert!(flow, "{}: {places:X?}", command.title());
    }
}

/// The rules of the forms: what `forms::allowed` refuses is alarm 14, and nothing else is.
#[test]
fn forms_are_those_of_alarm_14() {
    let words = [0, 1, 0xFF, 0x100, 0x7FFF, 0xFFFF, 0x1_0000, 0x8000_0000, 0xFFFF_FFFF];
    for command in commands().filter(|command| command.mode != Mode::Kernel) {
        for (place, rule) in command.operands.iter().enumerate() {
            for form in [0, 1, 2, 3, 4, 5, 6, 7, 8, 9, 16, 255] {
                for (x, y) in [(0, 0), (1, 0), (0, 1), (3, 4), (13, 0), (14, 0), (15, 0), (15, 15)] {
                    for z in words {
                        let fields = Fields { form, x, y, z };
                        let outcome = with(command, place, fields);
                        let refused = outcome.alarm == Some(14) && outcome.argument == place as u32 + 1;
                        assert_eq!(refused, !forms::allowed(&fields, *rule), "{}, {fields:?}", command.title());
                    }
                }
            }
        }
    }
}
