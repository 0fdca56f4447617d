//! Writes the stored cases: `generate OUT`.

use model::case::play;
use model::{gen, store};

fn main() {
    let path = std::env::args().nth(1).expect("usage: generate OUT");
    let mut pairs = Vec::new();
    for (family, cases) in gen::all() {
        let count = cases.len();
        let mut calls = 0;
        let mut made = Vec::new();
        for case in cases {
            let expected = play(&case);
            calls += case.calls.len();
            made.push((case, expected));
        }
        let bytes = store::write(&made).len();
        println!("{family:14} {count:5} cases {calls:6} calls {bytes:8} bytes");
        pairs.extend(made);
    }
    let bytes = store::write(&pairs);
    assert!(store::read(&bytes).len() == pairs.len());
    println!(
        "{:14} {:5} cases {:6} calls {:8} bytes",
        "all",
        pairs.len(),
        pairs.iter().map(|pair| pair.0.calls.len()).sum::<usize>(),
        bytes.len()
    );
    std::fs::write(path, bytes).expect("written");
}
