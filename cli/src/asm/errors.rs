//! What is wrong with a source, collected over all of it.

use crate::image::{complaint, Complaint};

/// A fault in a line: its column, from 1, and a sentence.
#[derive(Clone, PartialEq, Eq, Debug)]
pub struct Fault {
    pub column: usize,
    pub sentence: String,
}

pub fn fault<T>(column: usize, sentence: impl Into<String>) -> Result<T, Fault> {
    Err(Fault { column, sentence: sentence.into() })
}

/// No source is told more than this many faults.
const MOST: usize = 100;

#[derive(Debug)]
pub struct Errors {
    file: String,
    complaints: Vec<Complaint>,
    more: usize,
}

impl Errors {
    pub fn new(file: &str) -> Errors {
        Errors { file: file.to_string(), complaints: Vec::new(), more: 0 }
    }

    pub fn of(file: &str, faults: Vec<(usize, Fault)>) -> Errors {
        let mut errors = Errors::new(file);
        for (line, fault) in faults {
            errors.add(line, fault);
        }
        errors
    }

    pub fn file(&self) -> &str {
        &self.file
    }

    pub fn add(&mut self, line: usize, fault: Fault) {
        if self.complaints.len() == MOST {
            self.more += 1;
            return;
        }
        self.complaints.push(complaint(&self.file, line, fault.column, fault.sentence));
    }

    /// Keeps a result's value, or adds its fault.
    pub fn keep<T>(&mut self, line: usize, result: Result<T, Fault>) -> Option<T> {
        match result {
            Ok(value) => Some(value),
            Err(fault) => {
                self.add(line, fault);
                None
            }
        }
    }

    pub fn is_empty(&self) -> bool {
        self.complaints.is_empty()
    }

    /// In the order of the source; `kind` is what they are called.
    pub fn into_complaints(mut self, kind: &str) -> Vec<Complaint> {
        self.complaints.sort_by_key(|complaint| (complaint.line, complaint.column));
        if self.more > 0 {
            let sentence = format!("and {} more {kind}", self.more);
            self.complaints.push(complaint(&self.file, 0, 0, sentence));
        }
        self.complaints
    }
}
