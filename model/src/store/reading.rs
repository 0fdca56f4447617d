//! Reads stored cases.

use super::{fill_ramp, unsaved, MAGIC};
use crate::case::*;
use crate::pair::*;
use crate::state::*;
use crate::words::*;

struct Reader<'a> {
    bytes: &'a [u8],
    at: usize,
}

impl Reader<'_> {
    fn take(&mut self, count: usize) -> &[u8] {
        self.at += count;
        &self.bytes[self.at - count..self.at]
    }

    fn number(&mut self, count: usize) -> u32 {
        self.take(count).iter().fold(0, |value, byte| value << 8 | u32::from(*byte))
    }

    fn list(&mut self) -> Vec<u8> {
        let length = self.number(4) as usize;
        self.take(length).to_vec()
    }

    fn yes(&mut self) -> bool {
        match self.number(1) {
            0 => false,
            1 => true,
            other => panic!("{other} where 0 or 1 stands"),
        }
    }

    fn points(&mut self) -> Vec<Breakpoint> {
        (0..self.number(4)).map(|_| Breakpoint { r15: self.number(4), armed: self.yes() }).collect()
    }

    fn changes(&mut self, words: &mut [u32]) {
        let mask = self.number(4);
        for (i, word) in words.iter_mut().enumerate() {
            if mask >> i & 1 == 1 {
                *word = self.number(4);
            }
        }
    }

    fn case(&mut self) -> (Case, Expected) {
        let mut image = vec![0; self.number(4) as usize];
        let mut ramps = Vec::new();
        for _ in 0..self.number(2) {
            let kind = self.number(1);
            let at = self.number(4);
            let length = self.number(2);
            if kind == 1 {
                let ramp = Ramp { at, length: length as u16, first: self.number(1) as u8, add: self.number(1) as u8 };
                fill_ramp(&mut image, &ramp);
                ramps.push(ramp);
            } else {
                image[at as usize..(at + length) as usize].copy_from_slice(self.take(length as usize));
            }
        }
        let mut state = [0; WORDS];
        self.changes(&mut state);
        let start = state_of(&state);
        let mut calls = Vec::new();
        let mut outcomes = Vec::new();
        for _ in 0..self.number(2) {
            let (call, outcome) = self.call(&mut state);
            calls.push(call);
            outcomes.push(outcome);
        }
        let mut memory = image.clone();
        for _ in 0..self.number(2) {
            let at = self.number(4) as usize;
            let length = self.number(2) as usize;
            memory[at..at + length].copy_from_slice(self.take(length));
        }
        (Case { ramps, image, start, calls }, Expected { outcomes, memory })
    }

    fn call(&mut self, state: &mut Words) -> (Call, Outcome) {
        let before = state_of(state);
        let call = match self.number(1) {
            0 => Call::Step,
            1 => Call::Run(self.number(4)),
            2 => Call::Request(self.number(4)),
            3 => Call::Fresh { system: self.number(4), control: self.number(4), start: self.number(4) },
            4 => Call::Load(self.list()),
            5 => {
                let [first, second] = [self.list(), self.list()];
                let scratch =
                    Scratch { length: self.number(4), first: self.number(1) as u8, add: self.number(1) as u8 };
                Call::LoadBoth(Pair { first, second, scratch })
            }
            6 => Call::RunTo(self.number(4), self.points()),
            other => panic!("a call of kind {other}"),
        };
        let refusal = self.number(1);
        let mut event = Event::Plain;
        let mut count = 0;
        let mut held = None;
        let mut scratch = After::AsBefore;
        match call {
            Call::Step => match self.number(1) {
                0 => {}
                1 => {
                    let cause = self.number(1);
                    let mut words = unsaved(&before);
                    self.changes(&mut words);
                    let mut saved = [0; SAVED_BYTES];
                    for (i, word) in words.iter().enumerate() {
                        saved[4 * i..4 * i + 4].copy_from_slice(&word.to_be_bytes());
                    }
                    event = Event::Entry { cause, saved };
                }
                _ => event = Event::Stop(self.number(4)),
            },
            Call::Run(_) => count = self.number(4),
            Call::RunTo(..) => {
                count = self.number(4);
                held = self.yes().then(|| self.number(4));
            }
            Call::LoadBoth(_) => scratch = After::of_number(self.number(1)),
            _ => {}
        }
        self.changes(state);
        (call, Outcome { refusal, state: state_of(state), event, count, held, scratch })
    }
}

/// Reads a file of stored cases.
pub fn read(bytes: &[u8]) -> Vec<(Case, Expected)> {
    let mut reader = Reader { bytes, at: 0 };
    assert_eq!(reader.take(8), MAGIC);
    let count = reader.number(4);
    reader.take(12);
    let mut cases = Vec::new();
    for _ in 0..count {
        let length = reader.number(4) as usize;
        let end = reader.at + length;
        cases.push(reader.case());
        assert_eq!(reader.at, end);
    }
    assert_eq!(reader.at, bytes.len());
    cases
}
