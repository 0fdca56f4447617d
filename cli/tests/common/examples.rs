//! The examples that are sources, by name.

pub const EXAMPLES: [&str; 13] = [
    "division",
    "factorial",
    "fibonacci",
    "isolation",
    "lookup",
    "minimum",
    "minimum_cmp",
    "no_fetch",
    "shift",
    "sum",
    "system_call",
    "user_mode",
    "weights",
];
