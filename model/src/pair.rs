//! What joint loading gets and leaves besides the memory, as cases and sequences have it.

/// The call `load_both` of the model or of a wrong copy of it.
pub type LoadBoth = fn(&mut [u8], &[u8], &[u8], &mut [u8]) -> u32;

/// The scratch before a call: byte i is (first + i × add) modulo 256.
#[derive(Clone, Copy, PartialEq, Eq, Debug)]
pub struct Scratch {
    pub length: u32,
    pub first: u8,
    pub add: u8,
}

impl Scratch {
    pub fn bytes(&self) -> Vec<u8> {
        (0..self.length).map(|i| self.first.wrapping_add(self.add.wrapping_mul(i as u8))).collect()
    }
}

/// The scratch after a call. `Other` is what only a wrong copy leaves.
#[derive(Clone, Copy, PartialEq, Eq, Debug)]
pub enum After {
    AsBefore,
    Zeros,
    Other,
}

impl After {
    /// Zeros that were zeros before count as what the answer asks for.
    fn of(before: &[u8], after: &[u8], answer: u32) -> After {
        let zeros = after.iter().all(|byte| *byte == 0);
        match (before == after, zeros) {
            (true, true) if matches!(answer, 0 | 23) => After::Zeros,
            (true, _) => After::AsBefore,
            (false, true) => After::Zeros,
            (false, false) => After::Other,
        }
    }

    /// The stored form: 0 as before, 1 zeros.
    pub fn number(self) -> u8 {
        match self {
            After::AsBefore => 0,
            After::Zeros => 1,
            After::Other => panic!("the scratch is neither as before nor zeros"),
        }
    }

    pub fn of_number(number: u32) -> After {
        match number {
            0 => After::AsBefore,
            1 => After::Zeros,
            other => panic!("a scratch of kind {other}"),
        }
    }
}

/// Two lists and the scratch that is lent with them.
#[derive(Clone, PartialEq, Eq, Debug)]
pub struct Pair {
    pub first: Vec<u8>,
    pub second: Vec<u8>,
    pub scratch: Scratch,
}

impl Pair {
    /// Loads the pair; gives the answer and the scratch afterwards.
    pub fn load(&self, load_both: LoadBoth, memory: &mut [u8]) -> (u32, After) {
        let before = self.scratch.bytes();
        let mut scratch = before.clone();
        let answer = load_both(memory, &self.first, &self.second, &mut scratch);
        (answer, After::of(&before, &scratch, answer))
    }
}
