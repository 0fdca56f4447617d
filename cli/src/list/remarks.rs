//! Remarks: those of the source, and what the code runs into.

use crate::decode::Trouble;
use crate::image::Image;
use std::collections::BTreeMap;

/// The remarks of the source, by real address.
pub fn of_source(image: &Image) -> BTreeMap<u32, String> {
    let remark = |text: &str| {
        let mut quoted = false;
        let mut before = ' ';
        for (at, c) in text.char_indices() {
            quoted ^= c == '\'';
            if !quoted && c == '-' && before == '-' {
                return text.get(at + 1..).map(|rest| rest.trim().to_string());
            }
            before = c;
        }
        None
    };
    image.lines.iter().chain(&image.entries).filter_map(|line| Some((line.address, remark(&line.text)?))).collect()
}

/// Why a place that the code leads to is no command.
pub fn of_trouble(trouble: &Trouble) -> String {
    match trouble {
        Trouble::Unreadable(address) => format!("runs here, and the byte at {address:X}h cannot be read"),
        Trouble::NoFetch(address) => format!("runs here, and the byte at {address:X}h cannot be fetched (alarm 21)"),
        Trouble::Unknown(byte) => format!("runs here, and {byte:02X}h is no command (alarm 12)"),
        Trouble::Form { place, .. } => {
            format!("runs here, and operand {place} breaks the rules of its form (alarm 14)")
        }
    }
}
