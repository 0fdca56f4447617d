//! What several tests share: random numbers from a seed, and the examples.
#![allow(dead_code, unused_imports)]

use desk::image::Image;
use std::path::PathBuf;

mod examples;

pub use examples::EXAMPLES;

/// Random numbers (xorshift64*), the same at every run.
pub struct Random(pub u64);

impl Random {
    pub fn next(&mut self) -> u64 {
        self.0 ^= self.0 >> 12;
        self.0 ^= self.0 << 25;
        self.0 ^= self.0 >> 27;
        self.0.wrapping_mul(0x2545_F491_4F6C_DD1D) >> 16
    }

    pub fn below(&mut self, bound: usize) -> usize {
        (self.next() % bound.max(1) as u64) as usize
    }

    pub fn pick<'a, T>(&mut self, items: &'a [T]) -> &'a T {
        &items[self.below(items.len())]
    }
}

pub fn repository() -> PathBuf {
    PathBuf::from(env!("CARGO_MANIFEST_DIR")).join("..")
}

pub fn source(example: &str) -> String {
    std::fs::read_to_string(repository().join(format!("examples/{example}.mi"))).expect("the example")
}

pub fn image(example: &str) -> Image {
    assembled(example, &source(example))
}

/// The image of a source that must be right.
pub fn assembled(title: &str, source: &str) -> Image {
    match desk::asm::assemble(title, source) {
        Ok(assembled) => assembled.image,
        Err(complaints) => {
            let sentences: Vec<String> = complaints.iter().take(5).map(ToString::to_string).collect();
            panic!("{}\n{source}", sentences.join("\n"));
        }
    }
}

/// Compares with a stored text; with DESK_BLESS set it is stored anew.
pub fn golden(name: &str, found: &str) {
    let path = PathBuf::from(env!("CARGO_MANIFEST_DIR")).join("tests/golden").join(name);
    if std::env::var_os("DESK_BLESS").is_some() {
        std::fs::create_dir_all(path.parent().expect("a folder")).expect("the folder");
        std::fs::write(&path, found).expect("the golden text");
    }
    let stored = std::fs::read_to_string(&path).unwrap_or_default();
    assert!(stored == found, "{name} differs from what is stored:\n{found}");
}
