//! Tests of the model. The bench: memory of 8,192 bytes, system block at 0,
//! control block at 256, map at 384 with 8 writable pages in frames 4 to 11,
//! kernel code at 512, system entry i leading to 600h + 8 × i.

mod breakpoints;
mod edits;
mod fetch_entries;
mod fetches;
mod float_cases;
mod float_operands;
mod floats;
mod forms;
mod held;
mod joint;
mod lists;
mod near;
mod numbers;
mod order;
mod point_sequences;
mod sequences;
mod shifts;
mod stored;
mod tried;

use crate::desk;
use crate::state::*;

pub struct Bench {
    pub state: State,
    pub memory: Vec<u8>,
}

pub const MAP: u32 = 384;
pub const CONTROL: u32 = 256;
pub const USER: u32 = 2048;

fn base() -> Bench {
    let mut memory = vec![0; 8192];
    for i in 0..32u32 {
        let at = 8 * i as usize;
        memory[at..at + 4].copy_from_slice(&(0x600 + 8 * i).to_be_bytes());
        memory[at + 4..at + 8].copy_from_slice(&KERNEL.to_be_bytes());
    }
    let state = State {
        registers: [0; 16],
        status: KERNEL,
        pending: 0,
        map_base: MAP,
        map_length: 8,
        system_block: 0,
        control_block: CONTROL,
        mark: Mark::Running,
    };
    let mut bench = Bench { state, memory };
    for page in 0..8 {
        bench.entry(page, 0xC000_0000 | (4 + page));
    }
    bench
}

/// In kernel mode at 512.
pub fn kernel() -> Bench {
    let mut bench = base();
    bench.state.registers[PC] = 512;
    bench
}

/// In user mode at address 0, which is real 2048.
pub fn user() -> Bench {
    let mut bench = base();
    bench.state.status = 0;
    bench
}

impl Bench {
    pub fn entry(&mut self, page: u32, entry: u32) {
        self.word(MAP + 4 * page, entry);
    }

    pub fn word(&mut self, real: u32, value: u32) {
        self.put(real, &value.to_be_bytes());
    }

    pub fn put(&mut self, real: u32, bytes: &[u8]) {
        self.memory[real as usize..real as usize + bytes.len()].copy_from_slice(bytes);
    }

    pub fn get(&self, real: u32) -> u32 {
        crate::map::word(&self.memory, crate::map::Real(real))
    }

    /// Puts code at R15 (real, or in the user pages' frames).
    pub fn code(&mut self, bytes: &[u8]) -> &mut Bench {
        let at = self.state.registers[PC] + if self.state.kernel() { 0 } else { USER };
        self.put(at, bytes);
        self
    }

    pub fn step(&mut self) -> Event {
        let answer = desk::step(&self.state, &mut self.memory);
        assert_eq!(answer.refusal, 0);
        self.state = answer.state;
        answer.event
    }

    pub fn refused(&mut self) -> u32 {
        let (state, memory) = (self.state, self.memory.clone());
        let answer = desk::step(&self.state, &mut self.memory);
        let ran = desk::run(&self.state, &mut self.memory, 3);
        assert_eq!((answer.state, answer.event), (state, Event::Plain));
        assert_eq!((ran.state, ran.count, ran.refusal), (state, 0, answer.refusal));
        assert_eq!(self.memory, memory);
        answer.refusal
    }

    /// Steps and expects a kernel entry; gives cause, argument, saved R15.
    pub fn entered(&mut self) -> (u32, u32, u32) {
        let pending = self.state.pending;
        match self.step() {
            Event::Entry { cause, saved } => {
                assert_eq!(&self.memory[256..328], &saved[..]);
                assert_eq!(self.state.registers[PC], 0x600 + 8 * cause);
                assert_eq!(self.state.status, KERNEL);
                let own = if cause > 16 { 1 << (cause - 16) } else { 0 };
                assert_eq!(self.state.pending, pending & !own);
                (cause, self.get(CONTROL + 68), self.get(CONTROL + 60))
            }
            other => panic!("no entry: {:?}", other),
        }
    }

    /// Steps and expects an alarm that leaves all but the saved bytes.
    pub fn alarmed(&mut self) -> (u32, u32) {
        let (state, memory) = (self.state, self.memory.clone());
        let (cause, argument, r15) = self.entered();
        assert_eq!(r15, state.registers[PC]);
        assert_eq!(self.get(CONTROL + 64), state.status);
        for i in 0..15 {
            assert_eq!(self.get(CONTROL + 4 * i as u32), state.registers[i]);
            assert_eq!(self.state.registers[i], state.registers[i]);
        }
        assert_eq!(self.memory[..256], memory[..256]);
        assert_eq!(self.memory[328..], memory[328..]);
        (cause, argument)
    }

    /// Steps in kernel mode and expects a stop that leaves all else.
    pub fn stopped(&mut self) -> u32 {
        let (state, memory) = (self.state, self.memory.clone());
        match self.step() {
            Event::Stop(number) => {
                assert_eq!(self.state, State { mark: Mark::Stopped(number), ..state });
                assert_eq!(self.memory, memory);
                number
            }
            other => panic!("no stop: {:?}", other),
        }
    }

    pub fn flags(&self) -> u32 {
        self.state.status & FLAGS
    }
}
