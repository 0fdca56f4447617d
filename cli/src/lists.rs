//! Lists in sentences.

/// `B`, `B or H`, `B, H or W`.
pub fn or<S: AsRef<str>>(items: &[S]) -> String {
    joined(items, "or")
}

/// `B`, `B and H`, `B, H and W`.
pub fn and<S: AsRef<str>>(items: &[S]) -> String {
    joined(items, "and")
}

fn joined<S: AsRef<str>>(items: &[S], word: &str) -> String {
    let items: Vec<&str> = items.iter().map(AsRef::as_ref).collect();
    match items.split_last() {
        None => String::new(),
        Some((last, [])) => last.to_string(),
        Some((last, rest)) => format!("{} {word} {last}", rest.join(", ")),
    }
}
