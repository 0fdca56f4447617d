//! What can be undone: for each step the desk before it and the bytes that it changed.

use crate::machine::{Machine, Step};
use midesk::Desk;
use std::collections::VecDeque;

/// Steps and requests that are remembered.
pub const MOST: usize = 100_000;

/// Something that can be undone.
struct Record {
    before: Desk,
    /// Real addresses and the bytes that stood there; none for a request.
    step: Option<Vec<(u32, Vec<u8>)>>,
}

/// The last steps and requests, oldest first.
pub struct History {
    records: VecDeque<Record>,
    /// Whether nothing before them was forgotten.
    whole: bool,
}

/// How many steps and requests were undone.
#[derive(Clone, Copy, PartialEq, Eq, Debug, Default)]
pub struct Undone {
    pub steps: u64,
    pub requests: u64,
}

impl History {
    pub fn new() -> History {
        History { records: VecDeque::new(), whole: true }
    }

    pub fn step(&mut self, step: &Step) {
        let changes = step.changes.iter().chain(&step.saved);
        let changes = changes.map(|change| (change.real, change.old.clone())).collect();
        self.push(Record { before: step.before.clone(), step: Some(changes) });
    }

    pub fn request(&mut self, before: Desk) {
        self.push(Record { before, step: None });
    }

    fn push(&mut self, record: Record) {
        if self.records.len() == MOST {
            self.records.pop_front();
            self.whole = false;
        }
        self.records.push_back(record);
    }

    /// Whether undoing all that is remembered leads to the start.
    pub fn is_whole(&self) -> bool {
        self.whole
    }

    /// Undoes at most n steps or requests.
    pub fn undo(&mut self, machine: &mut Machine, n: u64) -> Undone {
        let mut undone = Undone::default();
        while undone.steps + undone.requests < n {
            let Some(record) = self.records.pop_back() else { break };
            match record.step {
                Some(changes) => {
                    machine.undo(record.before, &changes);
                    undone.steps += 1;
                }
                None => {
                    machine.desk = record.before;
                    undone.requests += 1;
                }
            }
        }
        undone
    }
}
