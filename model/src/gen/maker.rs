//! Builds one case while the model plays it, so that code can be laid where
//! the desk is about to run and operands can use what registers hold.

use crate::asm::*;
use crate::case::{make, play, Call, Case, Outcome, Ramp};
use crate::entry;
use crate::map::{lookup, word, Real, Reason, Virtual};
use crate::operand::Fields;
use crate::rng::Rng;
use crate::state::*;
use crate::store::fill_ramp;

pub struct Maker {
    pub rng: Rng,
    ramps: Vec<Ramp>,
    image: Vec<u8>,
    /// The memory as the calls so far left it.
    pub memory: Vec<u8>,
    /// Bytes that hold laid code.
    owned: Vec<bool>,
    start: State,
    pub state: State,
    calls: Vec<Call>,
    /// What came out of the calls that were made here.
    outcomes: Vec<Outcome>,
    /// Where the next piece of kernel code goes.
    pub kernel_next: u32,
    /// Causes whose entries are laid.
    decided: u32,
    /// Percentage of entries that hold no valid kernel status.
    pub bad_entries: u32,
    pub last: Option<Outcome>,
}

impl Maker {
    pub fn new(rng: Rng, length: usize) -> Maker {
        Maker {
            rng,
            ramps: Vec::new(),
            image: vec![0; length],
            memory: vec![0; length],
            owned: vec![false; length],
            start: State::zero(0),
            state: State::zero(0),
            calls: Vec::new(),
            outcomes: Vec::new(),
            kernel_next: 0,
            decided: 0,
            bad_entries: 0,
            last: None,
        }
    }

    /// Begins with a case's memory and start, without its calls.
    pub fn of_case(rng: Rng, case: &Case) -> Maker {
        let mut maker = Maker::new(rng, case.image.len());
        maker.ramps = case.ramps.clone();
        maker.take(&case.image, case.start);
        maker.start = case.start;
        maker
    }

    pub fn length(&self) -> u32 {
        self.memory.len() as u32
    }

    /// Fills a part of the memory, before anything else is laid there.
    pub fn ramp(&mut self, at: u32, length: u16) {
        let ramp = Ramp { at, length, first: self.rng.word() as u8, add: self.rng.word() as u8 | 1 };
        fill_ramp(&mut self.image, &ramp);
        fill_ramp(&mut self.memory, &ramp);
        self.ramps.push(ramp);
    }

    /// Lays bytes into the image and into the memory as it is now.
    pub fn lay(&mut self, at: u32, bytes: &[u8]) {
        for (i, byte) in bytes.iter().enumerate() {
            if let Some(place) = self.image.get_mut(at as usize + i) {
                *place = *byte;
                self.memory[at as usize + i] = *byte;
            }
        }
    }

    pub fn lay_word(&mut self, at: u32, value: u32) {
        self.lay(at, &value.to_be_bytes());
    }

    pub fn word(&self, at: u32) -> u32 {
        word(&self.memory, Real(at))
    }

    pub fn begin(&mut self, state: State) {
        self.start = state;
        self.state = state;
    }

    /// Makes and keeps a call.
    pub fn call(&mut self, call: Call) -> Outcome {
        let outcome = make(&call, &self.state, &mut self.memory);
        self.state = outcome.state;
        self.calls.push(call);
        self.outcomes.push(outcome);
        self.last = Some(outcome);
        outcome
    }

    /// A step of the desk that isn't kept as a call.
    pub fn silent_step(&mut self) -> Outcome {
        let outcome = make(&Call::Step, &self.state, &mut self.memory);
        self.state = outcome.state;
        self.last = Some(outcome);
        outcome
    }

    /// Goes on from another memory of the same length and another state.
    pub fn take(&mut self, memory: &[u8], state: State) {
        self.image.copy_from_slice(memory);
        self.memory.copy_from_slice(memory);
        self.state = state;
    }

    /// The start's memory with everything laid so far.
    pub fn image(&self) -> &[u8] {
        &self.image
    }

    pub fn keep(&mut self, call: Call) {
        self.calls.push(call);
    }

    pub fn finish(self) -> Case {
        Case { ramps: self.ramps, image: self.image, start: self.start, calls: self.calls }
    }

    /// The case, if its calls give again what they gave here: what was laid last may have changed
    /// what the first ones used.
    pub fn finish_true(self) -> Option<Case> {
        let outcomes = self.outcomes.clone();
        let case = self.finish();
        (play(&case).outcomes == outcomes).then_some(case)
    }

    pub fn calls(&self) -> usize {
        self.calls.len()
    }

    /// The real place of a byte that may be read now.
    pub fn real(&self, address: u32) -> Option<u32> {
        self.real_for(Reason::Read, address)
    }

    /// The real place of a byte that may be used for a reason now.
    pub fn real_for(&self, reason: Reason, address: u32) -> Option<u32> {
        let found = lookup(&self.state, &self.memory, Virtual(address), reason);
        found.ok().map(|real| real.0)
    }

    pub fn owned(&self, real: u32) -> bool {
        self.owned.get(real as usize).copied().unwrap_or(false)
    }

    /// Lays code at a virtual address, as far as it can be looked up now.
    pub fn code_at(&mut self, address: u32, bytes: &[u8]) {
        for (i, byte) in bytes.iter().enumerate() {
            if let Some(real) = self.real(address.wrapping_add(i as u32)) {
                self.lay(real, &[*byte]);
                self.owned[real as usize] = true;
            }
        }
    }

    /// Lays code at R15.
    pub fn code(&mut self, bytes: &[u8]) {
        self.code_at(self.state.registers[PC], bytes);
    }

    /// Whether R15 leads to a byte without laid code that can be fetched.
    pub fn free_here(&self) -> bool {
        match self.real_for(Reason::Fetch, self.state.registers[PC]) {
            Some(real) => !self.owned(real),
            None => false,
        }
    }

    /// A place for `bytes` bytes of kernel code.
    pub fn kernel_place(&mut self, bytes: u32) -> u32 {
        let at = self.kernel_next;
        self.kernel_next += bytes;
        at
    }

    /// Lays the entry of a cause unless it is laid already.
    pub fn decide(&mut self, cause: u32) {
        if cause >= 32 || self.decided >> cause & 1 == 1 {
            return;
        }
        self.decided |= 1 << cause;
        let place = self.kernel_place(72);
        let extra = if self.rng.chance(50) { self.rng.word() & (LEVEL | FLAGS) } else { 0 };
        let mut status = KERNEL | extra;
        if self.rng.chance(self.bad_entries) {
            status = match self.rng.below(3) {
                0 => extra,
                1 => status | 1 << (8 + self.rng.below(23)),
                _ => self.rng.word() & !KERNEL,
            };
        }
        let at = self.state.system_block + 8 * cause;
        self.lay_word(at, place);
        self.lay_word(at + 4, status);
    }

    /// Lays the entry that the coming step needs, if it needs one.
    pub fn decide_next(&mut self) {
        if self.state.stopped() {
            return;
        }
        if let Some(level) = entry::interrupt(&self.state) {
            self.decide(16 + level);
            return;
        }
        if self.state.kernel() {
            return;
        }
        // Try the step with every entry valid to learn its cause.
        let mut memory = self.memory.clone();
        for cause in 0..32 {
            let at = (self.state.system_block + 8 * cause + 4) as usize;
            memory[at..at + 4].copy_from_slice(&KERNEL.to_be_bytes());
        }
        let outcome = make(&Call::Step, &self.state, &mut memory);
        if let Event::Entry { cause, .. } = outcome.event {
            self.decide(cause);
        }
    }

    /// A kept step with its entry laid.
    pub fn step(&mut self) -> Outcome {
        self.decide_next();
        self.call(Call::Step)
    }

    /// Lays commands at R15 in kernel mode and runs them, as one run or as steps.
    pub fn kernel_commands(&mut self, commands: &[Vec<u8>]) {
        let bytes = commands.concat();
        self.code(&bytes);
        if self.rng.chance(40) {
            self.call(Call::Run(commands.len() as u32));
        } else {
            for _ in commands {
                self.call(Call::Step);
            }
        }
    }

    /// An operand whose address is `target`, in one of the forms with an address.
    pub fn point_at(&mut self, target: u32) -> Fields {
        let x = self.rng.below(14) as u8;
        match self.rng.below(3) {
            0 => absolute(target),
            _ => relative(target.wrapping_sub(self.state.registers[x as usize]), x),
        }
    }

    /// A RESUME of the control block.
    pub fn resume_here(&mut self) -> Vec<u8> {
        let block = self.state.control_block;
        let operand = self.point_at(block);
        command(5, &[operand])
    }
}
