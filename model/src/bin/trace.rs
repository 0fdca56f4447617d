//! The program `trace` of document 01, on the model.

use std::io::Read;

fn main() {
    let mut input = Vec::new();
    let limit = model::trace::LIMIT as u64 + 1;
    std::io::stdin().lock().take(limit).read_to_end(&mut input).expect("read");
    print!("{}", model::trace::trace(&input));
}
