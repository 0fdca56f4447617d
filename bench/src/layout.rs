//! A loop in its memory: program, map, data, registers.

use crate::loops::{Loop, Mode};
use crate::programs::{program, ADDED, FIRST};
use crate::state::{State, KERNEL, RUNNING};

const SYSTEM_BLOCK: u32 = 0;
const CONTROL_BLOCK: u32 = 256;
/// The kernel's HALT.
const ENTRY: u32 = 512;
/// The first command of the loop.
pub const PROGRAM: u32 = 1024;

/// The high and the low word of a D.
fn words(number: f64) -> [u32; 2] {
    let bits = number.to_bits();
    [(bits >> 32) as u32, bits as u32]
}

/// The registers before the first of so many turns, with the data at this address; R15 is not set.
pub fn registers(turns: u32, data: u32) -> [u32; 16] {
    let mut registers = [0; 16];
    registers[0] = turns;
    registers[1] = 3;
    registers[5] = data;
    registers[6] = 2;
    registers[7] = data + 128;
    registers[8] = data + 160;
    registers[12..14].copy_from_slice(&words(ADDED));
    registers[14] = data + 4096;
    registers
}

/// The data before the first turn: offset, count of bytes, value. 16 counts the turns of the memory loop; 32 has the
/// address that forms 5 and 6 read; the H and B values stand from 80 on, F and D from 96 on.
pub fn values(turns: u32, data: u32) -> [(u32, usize, u32); 17] {
    let ([added_high, added_low], [first_high, first_low]) = (words(ADDED), words(FIRST));
    [
        (0, 4, 3),
        (4, 4, 0),
        (12, 4, 0),
        (16, 4, turns),
        (32, 4, data + 64),
        (48, 4, 0),
        (64, 4, 0),
        (72, 4, 3),
        (80, 2, 3),
        (84, 1, 0),
        (88, 2, 0),
        (96, 4, (ADDED as f32).to_bits()),
        (100, 4, (FIRST as f32).to_bits()),
        (104, 4, added_high),
        (108, 4, added_low),
        (112, 4, first_high),
        (116, 4, first_low),
    ]
}

/// A loop laid out in its memory, with the map of all frames at a quarter of it and the data at its middle.
pub struct Bench {
    pub which: Loop,
    pub memory: Vec<u8>,
}

impl Bench {
    pub fn new(which: Loop, length: usize) -> Bench {
        let mut bench = Bench { which, memory: vec![0; length] };
        for cause in 0..32 {
            bench.put(SYSTEM_BLOCK + 8 * cause, 4, ENTRY);
            bench.put(SYSTEM_BLOCK + 8 * cause + 4, 4, KERNEL);
        }
        let program = program(which.kind, PROGRAM);
        bench.memory[PROGRAM as usize..PROGRAM as usize + program.len()].copy_from_slice(&program);
        for frame in 0..bench.frames() {
            bench.put(bench.map_base() + 4 * frame, 4, 0xC000_0000 | frame);
        }
        bench
    }

    fn frames(&self) -> u32 {
        (self.memory.len() / 512) as u32
    }

    fn map_base(&self) -> u32 {
        (self.memory.len() / 4) as u32
    }

    fn data(&self) -> u32 {
        (self.memory.len() / 2) as u32
    }

    fn put(&mut self, address: u32, count: usize, value: u32) {
        let at = address as usize;
        self.memory[at..at + count].copy_from_slice(&value.to_be_bytes()[4 - count..]);
    }

    /// The value of so many bytes at an offset of the data.
    pub fn value(&self, offset: u32, count: usize) -> u32 {
        let at = (self.data() + offset) as usize;
        self.memory[at..at + count].iter().fold(0, |value, byte| value << 8 | u32::from(*byte))
    }

    /// The state before the first of so many turns; the data are put back to their beginning.
    pub fn start(&mut self, turns: u32) -> State {
        let data = self.data();
        for (offset, count, value) in values(turns, data) {
            self.put(data + offset, count, value);
        }
        let mut registers = registers(turns, data);
        registers[15] = PROGRAM;
        State {
            registers,
            status: if self.which.mode == Mode::Kernel { KERNEL } else { 0 },
            map_base: self.map_base(),
            map_length: self.frames(),
            system_block: SYSTEM_BLOCK,
            control_block: CONTROL_BLOCK,
            stopped: RUNNING,
            pending: 0,
        }
    }
}
