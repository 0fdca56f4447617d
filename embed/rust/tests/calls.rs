//! Each function by itself.

mod common;

use common::{memory, put, spoiled, user, word};
use midesk::{load, load_both, numbers, Desk, Event, Mark, Refusal, STATE_BYTES};
use std::borrow::Borrow;

#[test]
fn fresh_is_as_the_paper_says() {
    let memory = memory(&[]);
    let desk = Desk::fresh(&memory, 4, 260, 0x1234_5678).unwrap();
    let mut registers = [0; 16];
    registers[15] = 0x1234_5678;
    assert_eq!(desk.registers(), registers);
    assert_eq!(desk.status(), 0x8000_0000);
    assert!(desk.is_kernel() && desk.is_running());
    assert_eq!((desk.level(), desk.pending()), (0, 0));
    assert_eq!((desk.map_base(), desk.map_length()), (0, 0));
    assert_eq!((desk.system_block(), desk.control_block()), (4, 260));
    assert_eq!(desk.mark(), Mark::Running);
}

#[test]
fn fresh_refuses_1_to_3() {
    let memory = vec![0; 1024];
    assert_eq!(Desk::fresh(&[], 0, 0, 0), Err(Refusal::Length));
    assert_eq!(Desk::fresh(&memory[..513], 0, 0, 0), Err(Refusal::Length));
    assert_eq!(Desk::fresh(&memory, 1, 256, 0), Err(Refusal::SystemBlock));
    assert_eq!(Desk::fresh(&memory, 772, 256, 0), Err(Refusal::SystemBlock));
    assert!(Desk::fresh(&memory, 768, 944, 0).is_ok());
    assert_eq!(Desk::fresh(&memory, 0, 2, 0), Err(Refusal::ControlBlock));
    assert_eq!(Desk::fresh(&memory, 0, 948, 0), Err(Refusal::ControlBlock));
    assert_eq!(Desk::fresh(&memory, 0, u32::MAX - 3, 0), Err(Refusal::ControlBlock));
}

#[test]
fn the_least_and_the_greatest_memory() {
    assert!(Desk::fresh(&[0; 512], 0, 256, 0).is_ok());
    let mut memory = vec![0; 16_777_216];
    let mut desk = Desk::fresh(&memory, 0, 256, 16_777_215).unwrap();
    assert_eq!(desk.step(&mut memory), Ok(Event::Stopped(numbers::HALT)));
    memory.extend([0; 512]);
    assert_eq!(Desk::fresh(&memory, 0, 256, 0), Err(Refusal::Length));
}

#[test]
fn a_step_is_done_enters_or_stops() {
    // MOVE B I 2,R0, then HALT, then an unknown byte.
    let code = [0x10, 1, 0, 0, 0, 0, 2, 2, 0, 0, 0, 0, 0, 0x00, 0xFF];
    let mut kernel = memory(&code);
    let mut desk = Desk::fresh(&kernel, 0, 256, 512).unwrap();
    assert_eq!(desk.step(&mut kernel), Ok(Event::Done));
    assert_eq!((desk.register(0), desk.register(15)), (2, 525));
    assert_eq!(desk.step(&mut kernel), Ok(Event::Stopped(numbers::HALT)));
    assert_eq!(desk.mark(), Mark::Stopped(numbers::HALT));
    assert_eq!(desk.step(&mut kernel), Err(Refusal::Stopped));
    desk.set_mark(Mark::Running);
    assert_eq!(desk.step(&mut kernel), Ok(Event::Stopped(numbers::COMMAND)));

    let mut shared = memory(&code);
    let mut desk = user(&mut shared);
    assert_eq!(desk.step(&mut shared), Ok(Event::Done));
    assert_eq!(desk.step(&mut shared), Ok(Event::Entered(numbers::MODE)));
    assert!(desk.is_kernel());
    assert_eq!(desk.register(15), 768);
    // Saved R15: the command's own address.
    assert_eq!(shared[256 + 60..256 + 64], [0, 0, 0, 13]);
}

#[test]
fn stops_with_16_where_the_entry_is_not_valid() {
    let mut shared = memory(&[0xFF]);
    let mut desk = user(&mut shared);
    shared[8 * 12 + 4] = 0;
    assert_eq!(desk.step(&mut shared), Ok(Event::Stopped(numbers::SYSTEM_ENTRY)));
}

#[test]
fn a_run_counts_its_steps() {
    // CLEAR B R1 three times, then HALT.
    let clear = [0x14, 2, 0x10, 0, 0, 0, 0];
    let code = [clear.as_slice(), &clear, &clear, &[0]].concat();
    let mut memory = memory(&code);
    let mut desk = Desk::fresh(&memory, 0, 256, 512).unwrap();
    assert_eq!(desk.run(&mut memory, 0), Ok(0));
    assert_eq!(desk.run(&mut memory, 2), Ok(2));
    assert!(desk.is_running());
    assert_eq!(desk.status(), numbers::KERNEL | numbers::Z);
    assert_eq!(desk.run(&mut memory, u64::MAX), Ok(2));
    assert_eq!(desk.mark(), Mark::Stopped(0));
    assert_eq!(desk.run(&mut memory, 0), Err(Refusal::Stopped));
    assert_eq!(desk.run(&mut memory, 1), Err(Refusal::Stopped));
}

#[test]
fn a_requested_level_is_entered_in_user_mode() {
    let mut shared = memory(&[0x70, 0, 0, 0, 0, 0, 0]);
    let mut desk = user(&mut shared);
    desk.set_status(0x30);
    assert_eq!(desk.request(3), Ok(()));
    assert_eq!(desk.request(5), Ok(()));
    assert_eq!(desk.pending(), 1 << 3 | 1 << 5);
    assert_eq!(desk.step(&mut shared), Ok(Event::Entered(numbers::interrupt(5))));
    assert_eq!(desk.pending(), 1 << 3);
    // The saved status and the argument.
    assert_eq!(shared[256 + 64..256 + 72], [0, 0, 0, 0x30, 0, 0, 0, 5]);
}

/// One command in user mode, under a map with a good page, an absent one, a damaged one and a read-only one: cause,
/// argument and saved R15 of the kernel entry.
fn entry_of(code: &[u8]) -> (u32, u32, u32) {
    let mut shared = memory(code);
    let mut desk = user(&mut shared);
    put(&mut shared, 340, numbers::MAP_FRAME);
    put(&mut shared, 344, numbers::MAP_PRESENT | (numbers::MAP_FRAME + 1) | 1);
    put(&mut shared, 348, numbers::MAP_PRESENT | 1);
    desk.set_map(336, 4);
    let Ok(Event::Entered(cause)) = desk.step(&mut shared) else { panic!("no kernel entry") };
    assert_eq!((desk.register(15), desk.status()), (768, numbers::KERNEL));
    (cause, word(&shared, 256 + numbers::CONTROL_ARGUMENT), word(&shared, 256 + 60))
}

#[test]
fn arguments_are_as_documented() {
    // MOVE B between R0 and an address.
    let load = |high, low| entry_of(&[0x10, 0, 0, 0, 0, high, low, 2, 0, 0, 0, 0, 0]);
    let store = |high, low| entry_of(&[0x10, 2, 0, 0, 0, 0, 0, 0, 0, 0, 0, high, low]);
    assert_eq!(entry_of(&[0x03, 1, 0, 0, 0, 0, 42]), (numbers::SYSTEM_CALL, 42, 7));
    assert_eq!(load(8, 5), (numbers::ADDRESS, 0x805, 0));
    assert_eq!(load(2, 5), (numbers::ABSENT, 0x205, 0));
    assert_eq!(load(4, 5), (numbers::MAP_ENTRY, 0x405, 0));
    assert_eq!(store(6, 5), (numbers::READ_ONLY, 0x605, 0));
    assert_eq!(entry_of(&[0xFF]), (numbers::COMMAND, 0xFF, 0));
    assert_eq!(entry_of(&[0x05]), (numbers::MODE, 0x05, 0));
    // Form 9 as the second operand of MOVE B; DIV B I 0,R0.
    assert_eq!(entry_of(&[0x10, 1, 0, 0, 0, 0, 1, 9, 0, 0, 0, 0, 0]), (numbers::OPERAND, 2, 0));
    assert_eq!(entry_of(&[0x58, 1, 0, 0, 0, 0, 0, 2, 0, 0, 0, 0, 0]), (numbers::DIVIDE, 0, 0));
}

/// A desk in user mode at this address. Page 0 is frame 1, page 1 frame 2, from which nothing is fetched; both can be
/// written. The code begins at this address too.
fn beside_data(code: &[u8], at: u32) -> (Desk, Vec<u8>) {
    let mut shared = memory(&[]);
    shared.resize(1536, 0);
    shared[512 + at as usize..][..code.len()].copy_from_slice(code);
    let mut desk = user(&mut shared);
    put(&mut shared, 340, numbers::MAP_PRESENT | numbers::MAP_WRITABLE | numbers::MAP_NO_FETCH | 2);
    desk.set_map(336, 2);
    desk.set_register(15, at);
    (desk, shared)
}

/// The step's event, with the argument and the R15 that a kernel entry has saved.
fn entered(desk: &mut Desk, shared: &mut [u8]) -> (Event, u32, u32) {
    let event = desk.step(shared).unwrap();
    (event, word(shared, 256 + numbers::CONTROL_ARGUMENT), word(shared, 256 + 60))
}

#[test]
fn no_command_is_fetched_from_a_page_without_commands() {
    let alarm = Event::Entered(numbers::NO_FETCH);
    // A jump to 205h, where CLEAR B R1 stands.
    let clear = [0x14, 2, 0x10, 0, 0, 0, 0];
    let (mut desk, mut shared) = beside_data(&[0x70, 0, 0, 0, 0, 2, 5], 0);
    shared[1024 + 5..1024 + 12].copy_from_slice(&clear);
    assert_eq!(desk.step(&mut shared), Ok(Event::Done));
    assert_eq!(desk.register(15), 0x205);
    assert_eq!(entered(&mut desk, &mut shared), (alarm, 0x205, 0x205));
    assert_eq!((desk.register(15), desk.status()), (768, numbers::KERNEL));
    // A command that reaches into the page with its operand, by one byte to six, and one that does not.
    for at in 0x1FA..0x200 {
        let (mut desk, mut shared) = beside_data(&clear, at);
        assert_eq!(entered(&mut desk, &mut shared), (alarm, 0x200, at));
    }
    let (mut desk, mut shared) = beside_data(&clear, 0x1F9);
    assert_eq!(desk.step(&mut shared), Ok(Event::Done));
    assert_eq!(desk.register(15), 0x200);
    // The second operand alone lies there: MOVE B with form 8 first, whose step is undone.
    let (mut desk, mut shared) = beside_data(&[0x10, 8, 0x10, 0, 0, 0, 0, 2, 0, 0, 0, 0, 0], 0x1F9);
    desk.set_register(1, 0x123);
    assert_eq!(entered(&mut desk, &mut shared), (alarm, 0x200, 0x1F9));
    assert_eq!((desk.register(1), word(&shared, 256 + 4)), (0x123, 0x123));
    // In kernel mode addresses are real: 200h is frame 1.
    let (mut desk, mut shared) = beside_data(&clear, 0);
    desk.set_status(numbers::KERNEL);
    desk.set_register(15, 0x200);
    assert_eq!(desk.step(&mut shared), Ok(Event::Done));
}

#[test]
fn a_page_without_commands_is_read_and_written() {
    // MOVE W from 200h to R0, and the other way.
    let (mut desk, mut shared) = beside_data(&[0x12, 0, 0, 0, 0, 2, 0, 2, 0, 0, 0, 0, 0], 0);
    put(&mut shared, 1024, 0x1234_5678);
    assert_eq!(desk.step(&mut shared), Ok(Event::Done));
    assert_eq!(desk.register(0), 0x1234_5678);
    let (mut desk, mut shared) = beside_data(&[0x12, 2, 0, 0, 0, 0, 0, 0, 0, 0, 0, 2, 0], 0);
    desk.set_register(0, 0x1234_5678);
    assert_eq!(desk.step(&mut shared), Ok(Event::Done));
    assert_eq!(word(&shared, 1024), 0x1234_5678);
    // MOVE W to R0 by the word at 200h, in forms 5 and 6: 204h, and the word after it.
    for (form, pair, value) in [(5, 0x10, 7), (6, 0x12, 8)] {
        let (mut desk, mut shared) = beside_data(&[0x12, form, pair, 0, 0, 2, 0, 2, 0, 0, 0, 0, 0], 0);
        for (at, value) in [(1024, 0x204), (1028, 7), (1032, 8)] {
            put(&mut shared, at, value);
        }
        desk.set_register(2, 1);
        assert_eq!(desk.step(&mut shared), Ok(Event::Done));
        assert_eq!(desk.register(0), value);
    }
    // The stack: CALL to 20h and RET from there; PUSHR and POPR.
    let (mut desk, mut shared) = beside_data(&[0x79, 0, 0, 0, 0, 0, 0x20, 0x01, 0x02], 0);
    shared[512 + 0x20] = 0x7A;
    desk.set_register(14, 0x300);
    for r15 in [0x20, 7, 8, 9] {
        assert_eq!(desk.step(&mut shared), Ok(Event::Done));
        assert_eq!(desk.register(15), r15);
    }
    assert_eq!(word(&shared, 1024 + 0xFC), 0x2FC);
    assert_eq!(desk.register(14), 0x300);
}

#[test]
fn alarm_21_is_not_the_interrupt_of_level_5() {
    assert_eq!(numbers::interrupt(5), 21);
    // HALT at 205h: fetched, it would be alarm 13.
    let halt = || beside_data(&[0x00], 0x205);
    let (mut desk, mut shared) = halt();
    assert_eq!(desk.request(5), Ok(()));
    assert_eq!(entered(&mut desk, &mut shared), (Event::Entered(21), 5, 0x205));
    // Of the same level: pending.
    let (mut desk, mut shared) = halt();
    desk.set_status(0x50);
    assert_eq!(desk.request(5), Ok(()));
    assert_eq!(entered(&mut desk, &mut shared), (Event::Entered(2), 0x205, 0x205));
    assert_eq!(desk.pending(), 1 << 5);
    // Each has its own entry of the system block.
    for (spoiled, interrupt, alarm) in [
        (2, Event::Entered(21), Event::Stopped(numbers::SYSTEM_ENTRY)),
        (21, Event::Stopped(numbers::SYSTEM_ENTRY), Event::Entered(2)),
    ] {
        for (level, event) in [(Some(5), interrupt), (None, alarm)] {
            let (mut desk, mut shared) = halt();
            put(&mut shared, numbers::system_status(spoiled), 0);
            assert_eq!(level.map_or(Ok(()), |level| desk.request(level)), Ok(()));
            assert_eq!(desk.step(&mut shared), Ok(event));
        }
    }
}

#[test]
fn resume_loads_the_control_block() {
    // RESUME of the block at 640.
    let mut memory = memory(&[0x05, 0, 0, 0, 0, 2, 0x80]);
    for i in 0..16 {
        put(&mut memory, 640 + 4 * i, 100 + i as u32);
    }
    put(&mut memory, 640 + numbers::CONTROL_STATUS, 0x30 | numbers::Z);
    put(&mut memory, 640 + numbers::CONTROL_MAP_BASE, 336);
    put(&mut memory, 640 + numbers::CONTROL_MAP_LENGTH, 9);
    let fresh = Desk::fresh(&memory, 0, 256, 512).unwrap();
    let mut desk = fresh.clone();
    assert_eq!(desk.step(&mut memory), Ok(Event::Done));
    assert_eq!(desk.registers(), std::array::from_fn(|i| 100 + i as u32));
    assert_eq!((desk.status(), desk.map_base(), desk.map_length()), (0x34, 336, 9));
    assert_eq!((desk.system_block(), desk.control_block()), (0, 640));
    // No user status; a map that is not allowed.
    for (at, value) in [(numbers::CONTROL_STATUS, numbers::KERNEL), (numbers::CONTROL_MAP_LENGTH, 256)] {
        let mut spoiled = memory.clone();
        put(&mut spoiled, 640 + at, value);
        assert_eq!(fresh.clone().step(&mut spoiled), Ok(Event::Stopped(numbers::OPERAND)));
    }
}

#[test]
fn request_refuses_5_and_6() {
    let mut desk = Desk::fresh(&[0; 512], 0, 256, 0).unwrap();
    for level in [0, 16, 17, 0x1_0001, u32::MAX] {
        assert_eq!(desk.request(level), Err(Refusal::Level));
    }
    desk.set_pending(1);
    assert_eq!(desk.request(1), Err(Refusal::Status));
    desk.set_pending(0);
    desk.set_status(0x100);
    assert_eq!(desk.request(1), Err(Refusal::Status));
    // Of a stopped desk too.
    desk.set_status(0);
    desk.set_mark(Mark::Stopped(8));
    assert_eq!(desk.request(15), Ok(()));
    assert_eq!(desk.pending(), 0x8000);
}

#[test]
fn refused_calls_change_nothing() {
    for (mut desk, mut memory, refusal) in spoiled() {
        let (before, bytes) = (desk.clone(), memory.clone());
        assert_eq!(desk.step(&mut memory), Err(refusal));
        assert_eq!(desk.run(&mut memory, 5), Err(refusal));
        assert_eq!(desk.run(&mut memory, 0), Err(refusal));
        assert_eq!(desk.step(&mut memory[..511]), Err(Refusal::Length));
        assert_eq!(desk.step(&mut []), Err(Refusal::Length));
        assert_eq!((desk, memory), (before, bytes));
    }
}

#[test]
fn bytes_are_as_documented() {
    let bytes: [u8; STATE_BYTES] = std::array::from_fn(|i| i as u8 + 1);
    let desk = Desk::from_bytes(bytes);
    assert_eq!(desk.to_bytes(), bytes);
    assert_eq!(Desk::from(bytes), desk);
    assert_eq!(desk.register(0), 0x0102_0304);
    assert_eq!(desk.register(15), 0x3D3E_3F40);
    assert_eq!(desk.status(), 0x4142_4344);
    assert_eq!((desk.map_base(), desk.map_length()), (0x4546_4748, 0x494A_4B4C));
    assert_eq!((desk.system_block(), desk.control_block()), (0x4D4E_4F50, 0x5152_5354));
    assert_eq!(desk.mark(), Mark::Stopped(0x5556_5758));
    assert_eq!(desk.pending(), 0x595A);
    // The same by the setters.
    let mut other = Desk::from_bytes([0; STATE_BYTES]);
    for i in 0..16 {
        other.set_register(i, desk.register(i));
    }
    other.set_status(desk.status());
    other.set_map(desk.map_base(), desk.map_length());
    other.set_blocks(desk.system_block(), desk.control_block());
    other.set_mark(desk.mark());
    other.set_pending(desk.pending());
    assert_eq!(other, desk);
    other.set_mark(Mark::Running);
    assert_eq!(other.to_bytes()[84..88], [0xFF; 4]);
    assert!(other.is_running());
    // It has the place of this number.
    other.set_mark(Mark::Stopped(u32::MAX));
    assert_eq!(other.mark(), Mark::Running);
}

#[test]
fn refusals_have_their_numbers() {
    for number in (1..8).chain(17..21).chain(22..24) {
        assert_eq!(Refusal::of(number).map(Refusal::number), Some(number));
    }
    for number in [0, 8, 16, 21, 24, u32::MAX] {
        assert_eq!(Refusal::of(number), None);
    }
    assert_eq!(Refusal::Stopped.to_string(), "the desk is stopped");
    assert_eq!(Refusal::Outside.to_string(), "the list puts a byte outside memory");
    assert_eq!(Refusal::Breakpoints.to_string(), "the run has more than 64 breakpoints");
    assert_eq!(Refusal::Clash.to_string(), "the two lists put unequal last bytes at one address");
}

#[test]
#[should_panic(expected = "registers 0 to 15")]
fn there_is_no_register_16() {
    Desk::from_bytes([0; STATE_BYTES]).register(16);
}

#[test]
fn desks_can_move_between_threads() {
    let mut memory = memory(&[0]);
    let mut desk = Desk::fresh(&memory, 0, 256, 512).unwrap();
    let stopped = std::thread::spawn(move || desk.run(&mut memory, 9).map(|steps| (steps, desk.mark())));
    assert_eq!(stopped.join().unwrap(), Ok((1, Mark::Stopped(0))));
}

// ---- Load lists.

fn to(address: u32) -> Vec<u8> {
    [[0x01].as_slice(), &address.to_be_bytes()].concat()
}

fn byte(byte: u8) -> Vec<u8> {
    vec![0x02, byte]
}

fn four(bytes: [u8; 4]) -> Vec<u8> {
    [[0x03].as_slice(), &bytes].concat()
}

fn copies(count: u16, byte: u8) -> Vec<u8> {
    [[0x04].as_slice(), &count.to_be_bytes(), &[byte]].concat()
}

/// These commands and the end.
fn list(commands: &[impl Borrow<[u8]>]) -> Vec<u8> {
    [commands.concat().as_slice(), &[0x00]].concat()
}

/// The byte that memory holds at this address before a load. No list of these tests puts one of them.
fn old(at: usize) -> u8 {
    0x80 | at as u8
}

/// Bytes that are lent, with others beside them.
struct Lent(Vec<u8>);

impl Lent {
    const BESIDE: [u8; 64] = [0x55; 64];

    fn new(bytes: &[u8]) -> Lent {
        Lent([&Lent::BESIDE, bytes, &Lent::BESIDE].concat())
    }

    fn bytes(&mut self) -> &mut [u8] {
        let end = self.0.len() - Lent::BESIDE.len();
        &mut self.0[Lent::BESIDE.len()..end]
    }

    /// The lent bytes. Those beside them have stayed.
    fn back(mut self) -> Vec<u8> {
        assert!(self.0.starts_with(&Lent::BESIDE) && self.0.ends_with(&Lent::BESIDE), "a byte beside");
        self.bytes().to_vec()
    }
}

fn old_memory(length: usize) -> Vec<u8> {
    (0..length).map(old).collect()
}

/// Where a memory differs from the old bytes, and what stands there.
fn news(memory: Vec<u8>) -> Vec<(usize, u8)> {
    memory.into_iter().enumerate().filter(|(at, byte)| *byte != old(*at)).collect()
}

/// Loads a list into a memory of old bytes: the answer and the memory. The list stays, and a refused one leaves the
/// memory.
fn loaded(length: usize, list: &[u8]) -> (Result<(), Refusal>, Vec<u8>) {
    let before = old_memory(length);
    let mut lent = Lent::new(&before);
    let given = list.to_vec();
    let answer = load(lent.bytes(), &given);
    assert_eq!(given, list);
    let memory = lent.back();
    assert!(answer.is_ok() || memory == before, "a refused list has changed memory");
    (answer, memory)
}

/// A list that loads: what it puts, each with its address. All other bytes are the old ones.
fn puts(length: usize, list: &[u8]) -> Vec<(usize, u8)> {
    let (answer, memory) = loaded(length, list);
    assert_eq!(answer, Ok(()), "{list:X?}");
    news(memory)
}

fn refusal(length: usize, list: &[u8]) -> Refusal {
    loaded(length, list).0.expect_err("a list that loads")
}

#[test]
fn a_list_puts_what_its_commands_say() {
    assert_eq!(puts(512, &[0x00]), []);
    assert_eq!(puts(512, &list(&[byte(7)])), [(0, 7)]);
    assert_eq!(puts(512, &list(&[four([1, 2, 3, 4])])), [(0, 1), (1, 2), (2, 3), (3, 4)]);
    assert_eq!(puts(512, &list(&[copies(3, 9)])), [(0, 9), (1, 9), (2, 9)]);
    assert_eq!(puts(512, &list(&[copies(0, 9)])), []);
    assert_eq!(puts(512, &list(&[to(0x102)])), []);
    assert_eq!(puts(512, &list(&[to(0x102), byte(7)])), [(0x102, 7)]);
    // The place goes on after each put, and stays after none.
    let all = [byte(1), four([2, 3, 4, 5]), copies(2, 6), copies(0, 7), byte(8), to(3), byte(9), copies(1, 10)];
    assert_eq!(puts(512, &list(&all)), [(0, 1), (1, 2), (2, 3), (3, 9), (4, 10), (5, 6), (6, 6), (7, 8)]);
    // All four bytes of an address and both of a count matter, the highest first.
    assert_eq!(puts(16_777_216, &list(&[to(0x0012_3456), byte(7)])), [(0x12_3456, 7)]);
    assert_eq!(refusal(16_777_216, &list(&[to(0x0112_3456), byte(7)])), Refusal::Outside);
    assert_eq!(puts(1024, &list(&[copies(0x0102, 7)])).len(), 0x102);
    // Bytes that are commands elsewhere.
    assert_eq!(puts(512, &list(&[byte(0), four([0, 1, 2, 3]), copies(2, 4)])).len(), 7);
}

#[test]
fn a_later_put_wins() {
    assert_eq!(puts(512, &list(&[byte(1), to(0), byte(2)])), [(0, 2)]);
    let over = [copies(6, 1), to(1), four([2, 3, 4, 5]), to(2), copies(2, 6), to(3), byte(7)];
    assert_eq!(puts(512, &list(&over)), [(0, 1), (1, 2), (2, 6), (3, 7), (4, 5), (5, 1)]);
    assert_eq!(puts(512, &list(&[four([2, 3, 4, 5]), to(0), copies(3, 1)])), [(0, 1), (1, 1), (2, 1), (3, 5)]);
}

#[test]
fn puts_reach_the_last_byte_of_memory() {
    for length in [512, 1024, 65536, 66048, 16_777_216] {
        let end = length as u32;
        assert_eq!(puts(length, &list(&[to(end - 1), byte(7)])), [(length - 1, 7)]);
        assert_eq!(puts(length, &list(&[to(end - 4), four([7; 4])])).len(), 4);
        assert_eq!(puts(length, &list(&[to(end - 3), copies(3, 7)])).len(), 3);
        // The last byte, then one past it.
        assert_eq!(refusal(length, &list(&[to(end - 1), byte(7), byte(7)])), Refusal::Outside);
        assert_eq!(refusal(length, &list(&[to(end - 4), four([7; 4]), copies(1, 7)])), Refusal::Outside);
        // One past it, and further.
        for past in [end, end + 1, end + 512, 2 * end] {
            for put in [byte(7), four([7; 4]), copies(1, 7), copies(u16::MAX, 7)] {
                assert_eq!(refusal(length, &list(&[to(past), put])), Refusal::Outside);
            }
        }
        // Across the end, and then back into memory.
        for part in 1..4 {
            assert_eq!(refusal(length, &list(&[to(end - part), four([7; 4]), to(0), byte(7)])), Refusal::Outside);
        }
        for (before, count) in [(1, 2), (3, 4), (3, 512), (256, 257), (512, u16::MAX)] {
            assert_eq!(refusal(length, &list(&[to(end - before), copies(count, 7)])), Refusal::Outside);
        }
    }
    // The longest copy, up to the last byte and one further.
    assert_eq!(puts(65536, &list(&[to(1), copies(u16::MAX, 7)])).len(), 65535);
    assert_eq!(refusal(65536, &list(&[to(2), copies(u16::MAX, 7)])), Refusal::Outside);
    assert_eq!(puts(512, &list(&[copies(512, 7)])).len(), 512);
    assert_eq!(refusal(512, &list(&[copies(513, 7)])), Refusal::Outside);
}

#[test]
fn moves_and_counts_of_0_are_never_outside() {
    for place in [511, 512, 513, 0x0100_0000, 0x7FFF_FFFF, 0x8000_0000, u32::MAX - 1, u32::MAX] {
        assert_eq!(puts(512, &list(&[to(place)])), []);
        assert_eq!(puts(512, &list(&[to(place), copies(0, 7)])), []);
        assert_eq!(puts(512, &list(&[to(place), copies(0, 7), to(5), byte(7)])), [(5, 7)]);
    }
    // Just past the last byte that was put.
    assert_eq!(puts(512, &list(&[copies(512, 7), copies(0, 7)])).len(), 512);
    // The place stays where it is.
    assert_eq!(puts(512, &list(&[to(511), copies(0, 7), byte(7)])), [(511, 7)]);
    assert_eq!(refusal(512, &list(&[to(512), copies(0, 7), byte(7)])), Refusal::Outside);
}

#[test]
fn places_do_not_wrap_around() {
    // In the longer memory all that a put past 2^32 could reach.
    for length in [512, 66048] {
        for back in 1..=5 {
            let place = to(0u32.wrapping_sub(back));
            for put in [byte(7), four([7; 4]), copies(1, 7), copies(back as u16, 7), copies(u16::MAX, 7)] {
                assert_eq!(refusal(length, &list(&[place.clone(), put.clone()])), Refusal::Outside);
                // So is the next one.
                assert_eq!(refusal(length, &list(&[place.clone(), put, four([7; 4])])), Refusal::Outside);
            }
        }
        // Copies up to the byte of 2^32 - 1, then one at 2^32.
        let far = [to(u32::MAX - 65534), copies(u16::MAX, 7), byte(7)];
        assert_eq!(refusal(length, &list(&far)), Refusal::Outside);
    }
}

#[test]
fn a_list_has_at_most_4096_pieces() {
    for piece in [byte(7), four([7; 4]), copies(0, 7), copies(3, 7)] {
        let put = puts(16384, &list(&[piece.repeat(4096)])).len();
        assert_eq!(put, 4096 * puts(512, &list(&[piece.as_slice()])).len());
        assert_eq!(refusal(16384, &list(&[piece.repeat(4097)])), Refusal::Pieces);
    }
    // Moves are no pieces.
    assert_eq!(puts(512, &list(&[to(3).repeat(10_000)])), []);
    let pairs = [to(3), byte(7)].concat();
    assert_eq!(puts(512, &list(&[pairs.repeat(4096)])), [(3, 7)]);
    assert_eq!(refusal(512, &list(&[pairs.repeat(4097)])), Refusal::Pieces);
    // More pieces, whose count would be allowed if its low 16 bits were all.
    assert_eq!(refusal(512, &list(&[copies(0, 7).repeat(65536)])), Refusal::Pieces);
    assert_eq!(refusal(512, &list(&[copies(0, 7).repeat(65537)])), Refusal::Pieces);
}

#[test]
fn a_list_is_whole() {
    let whole = list(&[byte(1), to(0x10), four([1, 2, 3, 4]), copies(2, 5), to(0x20), byte(6)]);
    assert_eq!(puts(512, &whole).len(), 8);
    // Cut short everywhere, down to the empty list.
    for length in 0..whole.len() {
        assert_eq!(refusal(512, &whole[..length]), Refusal::Malformed, "{length} bytes");
    }
    // Each command by itself, with too few bytes and with no end.
    for command in [byte(0), four([0; 4]), copies(0, 0), to(0)] {
        for length in 0..=command.len() {
            assert_eq!(refusal(512, &command[..length]), Refusal::Malformed);
        }
    }
    // Any byte after the end, and an end that comes too early.
    for after in 0..=255 {
        assert_eq!(refusal(512, &[whole.as_slice(), &[after]].concat()), Refusal::Malformed);
        assert_eq!(refusal(512, &[0x00, after]), Refusal::Malformed);
    }
    assert_eq!(refusal(512, &[[0x00].as_slice(), &whole].concat()), Refusal::Malformed);
    // Unknown commands.
    for unknown in 0x05..=0xFF {
        assert_eq!(refusal(512, &list(&[vec![unknown]])), Refusal::Malformed);
        assert_eq!(refusal(512, &list(&[byte(1), vec![unknown]])), Refusal::Malformed);
        assert_eq!(refusal(512, &list(&[byte(1), vec![unknown, 0, 0, 0, 0], byte(1)])), Refusal::Malformed);
    }
}

#[test]
fn refusals_of_lists_are_tried_in_order() {
    let malformed = [0x05];
    let many = copies(0, 7).repeat(4097);
    let outside = [to(512), byte(7), to(0), byte(7)].concat();
    // Each two of them, in either order in the list: the lesser number.
    let parts: [(&[u8], Refusal); 3] =
        [(&malformed, Refusal::Malformed), (&many, Refusal::Pieces), (&outside, Refusal::Outside)];
    for (first, a) in parts {
        assert_eq!(refusal(512, &list(&[first])), a);
        for (second, b) in parts {
            let lesser = if a.number() < b.number() { a } else { b };
            assert_eq!(refusal(512, &list(&[first, second])), lesser);
        }
    }
    // Bytes after the end and a cut stand at the list's very end.
    for (first, _) in parts {
        assert_eq!(refusal(512, &list(&[first, &[0x00]])), Refusal::Malformed);
        assert_eq!(refusal(512, first), Refusal::Malformed);
    }
    // The memory length comes before all of them.
    for length in [0, 1, 511, 513, 768, 16_777_217, 16_777_728] {
        for (part, _) in parts {
            assert_eq!(refusal(length, &list(&[part])), Refusal::Length);
        }
        assert_eq!(refusal(length, &[]), Refusal::Length);
        assert_eq!(refusal(length, &list(&[byte(7)])), Refusal::Length);
    }
}

#[test]
fn a_program_that_is_loaded_runs() {
    // MOVE W data,R0, then HALT: the code at 512, the data at 768. With a byte outside memory nothing of it is loaded.
    let code = [to(512), four([0x12, 0, 0, 0]), four([0, 3, 0, 2]), copies(6, 0)].concat();
    let data = [to(768), four([0x12, 0x34, 0x56, 0x78])].concat();
    let mut memory = vec![0xFF; 1024];
    assert_eq!(load(&mut memory, &list(&[code.clone(), to(1024), byte(0)])), Err(Refusal::Outside));
    assert_eq!(memory, vec![0xFF; 1024]);
    assert_eq!(load(&mut memory, &list(&[data, code])), Ok(()));
    let mut desk = Desk::fresh(&memory, 0, 256, 512).unwrap();
    assert_eq!(desk.run(&mut memory, 9), Ok(2));
    assert_eq!((desk.mark(), desk.register(0)), (Mark::Stopped(numbers::HALT), 0x1234_5678));
}

// ---- Two lists.

/// Loads two lists into a memory of old bytes with this scratch: the answer and the memory. The lists stay, a refusal
/// leaves the memory, and the scratch is zeros where they are loaded or clash, else as it was.
fn loaded_both(length: usize, first: &[u8], second: &[u8], scratch: &[u8]) -> (Result<(), Refusal>, Vec<u8>) {
    let before = old_memory(length);
    let (mut memory, mut lent) = (Lent::new(&before), Lent::new(scratch));
    let given = (first.to_vec(), second.to_vec());
    let answer = load_both(memory.bytes(), &given.0, &given.1, lent.bytes());
    assert_eq!((given.0.as_slice(), given.1.as_slice()), (first, second));
    let (memory, lent) = (memory.back(), lent.back());
    assert!(answer.is_ok() || memory == before, "refused lists have changed memory");
    match answer {
        Ok(()) | Err(Refusal::Clash) => assert!(lent.iter().all(|byte| *byte == 0), "{answer:?}: not all zeros"),
        Err(_) => assert!(lent == scratch, "{answer:?}: the scratch has changed"),
    }
    (answer, memory)
}

/// Any bytes for a scratch, those among them that a load could note in it.
fn any_scratch(length: usize) -> Vec<u8> {
    (0..length).map(|at| at as u8).collect()
}

/// What two lists put that load, each with its address: the same when they are exchanged.
fn puts_both(length: usize, first: &[u8], second: &[u8]) -> Vec<(usize, u8)> {
    let scratch = any_scratch(length);
    let (answer, memory) = loaded_both(length, first, second, &scratch);
    assert_eq!(answer, Ok(()), "{first:X?}, {second:X?}");
    assert!(loaded_both(length, second, first, &scratch) == (Ok(()), memory.clone()), "{first:X?}, {second:X?}");
    news(memory)
}

fn refusal_both(length: usize, first: &[u8], second: &[u8]) -> Refusal {
    loaded_both(length, first, second, &any_scratch(length)).0.expect_err("lists that load")
}

/// Whether two lists clash; else they load. Exchanged they do the same.
fn clash(length: usize, first: &[u8], second: &[u8]) -> bool {
    let scratch = any_scratch(length);
    let (answer, _) = loaded_both(length, first, second, &scratch);
    assert!(matches!(answer, Ok(()) | Err(Refusal::Clash)), "{answer:?}");
    assert_eq!(loaded_both(length, second, first, &scratch).0, answer, "{first:X?}, {second:X?}");
    answer.is_err()
}

#[test]
fn two_lists_put_what_either_puts() {
    let low = list(&[four([1, 2, 3, 4])]);
    let high = list(&[to(0x100), copies(2, 5), byte(6)]);
    assert_eq!(puts_both(512, &low, &high).len(), 7);
    assert_eq!(puts_both(512, &list(&[byte(1)]), &list(&[to(511), byte(2)])), [(0, 1), (511, 2)]);
    // Each place begins at 0, and what they put may lie in between.
    assert_eq!(puts_both(512, &list(&[byte(1), byte(2)]), &list(&[byte(1)])), [(0, 1), (1, 2)]);
    let even = list(&[byte(1), to(2), byte(3), to(4), byte(5)]);
    let odd = list(&[to(1), byte(2), to(3), byte(4)]);
    assert_eq!(puts_both(512, &even, &odd), [(0, 1), (1, 2), (2, 3), (3, 4), (4, 5)]);
    // An overlap that agrees, by other commands.
    let row = list(&[copies(6, 7), to(4), byte(8)]);
    assert_eq!(
        puts_both(512, &row, &list(&[to(3), four([7, 8, 7, 9])])),
        [(0, 7), (1, 7), (2, 7), (3, 7), (4, 8), (5, 7), (6, 9)]
    );
    // A list that puts nothing.
    for nothing in [list(&[to(3)]), list(&[copies(0, 9)]), vec![0x00]] {
        assert_eq!(puts_both(512, &low, &nothing), puts(512, &low));
        assert_eq!(puts_both(512, &nothing, &nothing), []);
    }
    // Bytes that memory holds already.
    let same = list(&[to(5), byte(old(5))]);
    assert_eq!(puts_both(512, &same, &same), []);
    assert!(clash(512, &same, &list(&[to(5), byte(1)])));
}

#[test]
fn a_list_goes_with_itself() {
    for one in [
        vec![0x00],
        list(&[four([1, 2, 3, 4]), copies(300, 5), to(0), byte(6)]),
        list(&[byte(1), to(0), byte(2), to(0), byte(1)]),
        list(&[copies(3, 7).repeat(4096)]),
    ] {
        let length = 16384;
        let (answer, memory) = loaded(length, &one);
        assert_eq!(answer, Ok(()));
        assert!(puts_both(length, &one, &one) == news(memory));
        // The same bytes, not only equal ones; and a list that is a part of the other.
        let (mut memory, mut scratch) = (old_memory(length), any_scratch(length));
        assert_eq!(load_both(&mut memory, &one, &one, &mut scratch), Ok(()));
        assert!(news(memory) == puts(length, &one) && scratch.iter().all(|byte| *byte == 0));
    }
    let whole = list(&[to(5), byte(7), to(3), byte(8)]);
    let mut memory = old_memory(512);
    assert_eq!(load_both(&mut memory, &whole, &whole[7..], &mut [1; 512]), Ok(()));
    assert_eq!(news(memory), [(3, 8), (5, 7)]);
    let mut memory = old_memory(512);
    assert_eq!(load_both(&mut memory, &whole[5..], &whole[12..], &mut [1; 512]), Err(Refusal::Clash));
}

/// Rows of at most three bytes, each 1, 2 or 17.
fn rows() -> Vec<Vec<u8>> {
    let mut rows = vec![vec![]];
    for at in 0..13 {
        for byte in [1, 2, 17] {
            let longer = [rows[at].as_slice(), &[byte]].concat();
            rows.push(longer);
        }
    }
    rows
}

#[test]
fn only_last_bytes_clash() {
    assert_eq!(rows().len(), 1 + 3 + 9 + 27);
    // Each list puts the bytes of a row one after another at one address.
    let at_one = |row: &[u8]| list(&row.iter().map(|put| [to(0x123), byte(*put)].concat()).collect::<Vec<_>>());
    for first in rows() {
        for second in rows() {
            let (a, b) = (at_one(&first), at_one(&second));
            let differ = matches!((first.last(), second.last()), (Some(x), Some(y)) if x != y);
            assert_eq!(clash(512, &a, &b), differ, "{first:?}, {second:?}");
            if !differ {
                let last = first.last().or(second.last());
                assert_eq!(puts_both(512, &a, &b), Vec::from_iter(last.map(|byte| (0x123, *byte))));
            }
        }
    }
    // A clash that later puts take back, and one that they make, among copies.
    let copied = list(&[copies(100, 7)]);
    assert!(!clash(512, &copied, &list(&[copies(100, 8), to(0), copies(100, 7)])));
    assert!(clash(512, &copied, &list(&[copies(100, 8), to(0), copies(99, 7)])));
    assert!(clash(512, &copied, &list(&[copies(100, 8), to(1), copies(99, 7)])));
    assert!(clash(512, &copied, &list(&[copies(100, 7), to(99), copies(1, 8)])));
    assert!(!clash(512, &copied, &list(&[copies(100, 7), to(100), copies(100, 8)])));
}

#[test]
fn every_bit_of_a_byte_counts() {
    // All pairs of bytes, as 02h.
    let (mut memory, mut scratch) = ([0; 512], [0; 512]);
    for first in 0..=255 {
        for second in 0..=255 {
            let (a, b) = ([0x01, 0, 0, 1, 0, 0x02, first, 0x00], [0x01, 0, 0, 1, 0, 0x02, second, 0x00]);
            memory[256] = !first;
            let want = if first == second { Ok(()) } else { Err(Refusal::Clash) };
            assert_eq!(load_both(&mut memory, &a, &b, &mut scratch), want, "{first:02X}h, {second:02X}h");
            assert_eq!(memory[256], if first == second { first } else { !first });
            assert_eq!(scratch, [0; 512]);
        }
    }
    // One bit, the high half, the low half, by all pieces and at each of their places.
    let put = |kind: usize, at: u32, byte: u8| match kind {
        0..=3 => {
            let mut bytes = [1, 2, 3, 4];
            bytes[kind] = byte;
            [to(at - kind as u32), four(bytes)].concat()
        }
        4 => [to(at - 20), copies(41, byte)].concat(),
        5 => [to(at), copies(1, byte)].concat(),
        _ => [to(at), self::byte(byte)].concat(),
    };
    // What stands beside the byte is put again by both.
    let beside = |put: Vec<u8>| list(&[put, to(0x200 - 20), copies(20, 9), to(0x201), copies(20, 9)]);
    for by_first in 0..7 {
        for by_second in 0..7 {
            for byte in [0x00, 0x0F, 0x10, 0x5A, 0xF0, 0xFF] {
                let first = beside(put(by_first, 0x200, byte));
                assert!(!clash(1024, &first, &beside(put(by_second, 0x200, byte))));
                for other in (0..8).map(|bit| 1 << bit).chain([0x0F, 0xF0, 0xFF]) {
                    assert!(clash(1024, &first, &beside(put(by_second, 0x200, byte ^ other))));
                }
            }
        }
    }
}

#[test]
fn a_clash_is_found_at_every_address() {
    let all = list(&[copies(512, 7)]);
    for at in 0..512 {
        for other in [0x17, 0x06] {
            let but_one = list(&[copies(512, 7), to(at), byte(other)]);
            assert!(clash(512, &all, &but_one));
            assert!(clash(512, &list(&[to(at), byte(7)]), &but_one));
            assert!(!clash(512, &but_one, &but_one));
            assert!(!clash(512, &list(&[to(at), byte(other)]), &but_one));
        }
    }
    // One is enough, and more are no other.
    assert!(clash(512, &all, &list(&[copies(512, 0x70)])));
    for length in [512, 1024, 65536, 16_777_216] {
        let end = length as u32;
        for at in [0, end / 2, end - 1] {
            assert!(clash(length, &list(&[to(at), byte(7)]), &list(&[to(at), byte(8)])));
            assert_eq!(puts_both(length, &list(&[to(at), byte(7)]), &list(&[to(at), byte(7)])), [(at as usize, 7)]);
        }
        assert_eq!(puts_both(length, &list(&[to(end - 2), byte(7)]), &list(&[to(end - 1), byte(8)])).len(), 2);
    }
}

#[test]
fn the_scratch_is_as_long_as_the_memory_or_longer() {
    let (one, same, other) = (list(&[copies(512, 7)]), list(&[to(3), byte(7)]), list(&[to(3), byte(8)]));
    let with = |second: &[u8], scratch: &[u8]| loaded_both(512, &one, second, scratch).0;
    for length in [0, 1, 256, 510, 511] {
        assert_eq!(with(&same, &any_scratch(length)), Err(Refusal::Scratch));
        assert_eq!(with(&other, &any_scratch(length)), Err(Refusal::Scratch));
    }
    for length in [512, 513, 1024, 70_000, 16_777_217] {
        assert_eq!(with(&same, &any_scratch(length)), Ok(()));
        assert_eq!(with(&other, &any_scratch(length)), Err(Refusal::Clash));
    }
    // Whatever it held.
    for byte in 0..=255 {
        assert_eq!(with(&same, &[byte; 600]), Ok(()));
        assert_eq!(with(&other, &[byte; 600]), Err(Refusal::Clash));
        // Lists that put little or nothing.
        assert_eq!(loaded_both(512, &same, &same, &[byte; 600]).0, Ok(()));
        assert_eq!(loaded_both(512, &[0x00], &[0x00], &[byte; 600]).0, Ok(()));
        assert_eq!(loaded_both(512, &[0x00], &[0x00], &[byte; 511]).0, Err(Refusal::Scratch));
    }
    // A scratch of another length than the memory's is not refused by 1.
    let mut memory = vec![0; 16_777_216];
    assert_eq!(load_both(&mut memory, &one, &same, &mut vec![1; 16_777_215]), Err(Refusal::Scratch));
    assert_eq!(load_both(&mut memory, &one, &same, &mut vec![1; 16_777_216]), Ok(()));
}

#[test]
fn each_list_has_its_own_pieces_and_borders() {
    let most = |byte| list(&[copies(3, byte).repeat(4096)]);
    let more = list(&[copies(0, 7).repeat(4097)]);
    assert_eq!(puts_both(16384, &most(7), &most(7)).len(), 3 * 4096);
    assert!(clash(16384, &most(7), &most(8)));
    assert_eq!(refusal_both(16384, &more, &most(7)), Refusal::Pieces);
    assert_eq!(refusal_both(16384, &most(7), &more), Refusal::Pieces);
    // The last byte of memory, and one further.
    let fits = list(&[to(510), copies(2, 7)]);
    let past = list(&[to(510), copies(3, 7)]);
    assert_eq!(puts_both(512, &fits, &fits), [(510, 7), (511, 7)]);
    assert_eq!(refusal_both(512, &fits, &past), Refusal::Outside);
    assert_eq!(refusal_both(512, &past, &fits), Refusal::Outside);
    // A place anywhere is no put.
    let far = list(&[to(u32::MAX), copies(0, 7), to(511), byte(7)]);
    assert_eq!(puts_both(512, &far, &fits), [(510, 7), (511, 7)]);
    let around = list(&[to(u32::MAX), four([7; 4])]);
    assert_eq!(refusal_both(512, &around, &fits), Refusal::Outside);
    assert_eq!(refusal_both(512, &fits, &around), Refusal::Outside);
}

#[test]
fn refusals_of_two_lists_are_tried_in_order() {
    let malformed = vec![0x05];
    let many = copies(0, 7).repeat(4097);
    let outside = [to(512), byte(7), to(0)].concat();
    // What else a list has beside the byte that clashes, and the number of its refusal.
    let parts = [
        (vec![], None),
        (malformed.clone(), Some(Refusal::Malformed)),
        (many.clone(), Some(Refusal::Pieces)),
        (outside.clone(), Some(Refusal::Outside)),
        ([many.clone(), malformed.clone()].concat(), Some(Refusal::Malformed)),
        ([outside.clone(), malformed].concat(), Some(Refusal::Malformed)),
        ([outside, many].concat(), Some(Refusal::Pieces)),
    ];
    for (one, first) in &parts {
        for (two, second) in &parts {
            for (put, clash) in [(7, None), (8, Some(Refusal::Clash))] {
                let (a, b) = (list(&[one.as_slice(), &byte(7)]), list(&[two.as_slice(), &byte(put)]));
                for (scratch, short) in [(511, Some(Refusal::Scratch)), (512, None), (513, None)] {
                    let want = first.or(*second).or(short).or(clash);
                    let (answer, _) = loaded_both(512, &a, &b, &any_scratch(scratch));
                    assert_eq!(answer.err(), want, "{first:?}, {second:?}, {short:?}, {clash:?}");
                }
                // The memory length comes before all of them.
                for length in [0, 1, 511, 513, 768] {
                    for scratch in [0, length, 1024] {
                        let (answer, _) = loaded_both(length, &a, &b, &any_scratch(scratch));
                        assert_eq!(answer, Err(Refusal::Length));
                    }
                }
            }
        }
    }
    for length in [16_777_217, 16_777_728] {
        assert_eq!(refusal_both(length, &[0x00], &[0x00]), Refusal::Length);
    }
    // Each list cut short everywhere, down to none.
    let whole = list(&[byte(1), to(0x10), four([1, 2, 3, 4]), copies(2, 5)]);
    for length in 0..whole.len() {
        assert_eq!(refusal_both(512, &whole[..length], &whole), Refusal::Malformed);
        assert_eq!(refusal_both(512, &whole, &whole[..length]), Refusal::Malformed);
    }
    assert_eq!(refusal_both(512, &[], &[]), Refusal::Malformed);
    // An end and one more byte.
    for after in 0..=255 {
        assert_eq!(refusal_both(512, &[0x00, after], &whole), Refusal::Malformed);
        assert_eq!(refusal_both(512, &whole, &[0x00, after]), Refusal::Malformed);
    }
}

#[test]
fn a_program_that_arrives_as_two_lists_runs() {
    // MOVE W data,R0, then HALT: the code at 512 from one list, the data at 768 from the other. Both zero what is past
    // the code.
    let zeros = [to(525), copies(99, 0)].concat();
    let code = [to(512), four([0x12, 0, 0, 0]), four([0, 3, 0, 2]), copies(6, 0), zeros.clone()];
    let data = [zeros, to(768), four([0x12, 0x34, 0x56, 0x78])];
    let (mut memory, mut scratch) = (vec![0xFF; 1024], vec![0xFF; 1024]);
    assert_eq!(load_both(&mut memory, &list(&code), &list(&data), &mut scratch), Ok(()));
    let mut desk = Desk::fresh(&memory, 0, 256, 512).unwrap();
    assert_eq!(desk.run(&mut memory, 9), Ok(2));
    assert_eq!((desk.mark(), desk.register(0)), (Mark::Stopped(numbers::HALT), 0x1234_5678));
}
