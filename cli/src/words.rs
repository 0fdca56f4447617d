//! Words for numbers: causes of kernel entries, alarms, stops, refusals, flags. One row for each.

use crate::notation;
use crate::table;
use midesk::numbers::NO_FETCH;

/// What a number says as an alarm: in user mode, and in kernel mode, where 9 to 11 and 21 do not come.
const ALARMS: &[(u32, &str, &str)] = &[
    (8, "an address past the map", "an address past the memory"),
    (9, "an absent page", "an absent page"),
    (10, "a damaged map entry", "a damaged map entry"),
    (11, "a write to a page without the right to write", "a write to a page without the right to write"),
    (12, "an unknown command byte", "an unknown command byte"),
    (13, "a command that only kernel mode has", "a system call in kernel mode"),
    (14, "an operand that breaks a rule", "an operand that breaks a rule"),
    (15, "DIV by zero", "DIV by zero"),
    (21, "a fetch from a page without commands", "a fetch from a page without commands"),
];

/// The causes that can come.
pub fn causes() -> impl Iterator<Item = u32> {
    [1, NO_FETCH].into_iter().chain(8..=15).chain(17..=31)
}

/// The cause of an alarm's kernel entry: its number, but 2 for 21; cause 21 is an interrupt.
pub fn cause_of_alarm(alarm: u32) -> Option<u32> {
    match alarm {
        8..=15 => Some(alarm),
        21 => Some(NO_FETCH),
        _ => None,
    }
}

/// The alarm whose kernel entry has a cause.
pub fn alarm_of_cause(cause: u32) -> Option<u32> {
    match cause {
        8..=15 => Some(cause),
        NO_FETCH => Some(21),
        _ => None,
    }
}

/// What a number says as the refusal of a load list, or of two.
const LIST_REFUSALS: &[(u32, &str)] = &[
    (17, "an unknown command, a list cut short, or bytes after its end"),
    (18, "more than 4,096 pieces"),
    (19, "a put outside memory"),
    (22, "a scratch shorter than the memory"),
    (23, "two unequal last bytes at one address"),
];

/// A cause of a kernel entry: `alarm 9, an absent page`.
pub fn cause(number: u32) -> String {
    match alarm_of_cause(number) {
        Some(number) => format!("alarm {number}, {}", alarm(number, false)),
        None => event(number),
    }
}

/// A cause without what it means: `a system call`, `alarm 9`.
pub fn event(number: u32) -> String {
    match (number, alarm_of_cause(number)) {
        (_, Some(alarm)) => format!("alarm {alarm}"),
        (1, _) => "a system call".to_string(),
        (17..=31, _) => format!("an interrupt of level {}", number - 16),
        _ => format!("number {number}, which this version has no words for"),
    }
}

/// An alarm.
pub fn alarm(number: u32, kernel: bool) -> String {
    let row = ALARMS.iter().find(|(known, ..)| *known == number);
    match row {
        Some((_, _, words)) if kernel => words.to_string(),
        Some((_, words, _)) => words.to_string(),
        None => format!("number {number}, which this version has no words for"),
    }
}

/// The refusal of a load list, or of two.
pub fn list_refusal(number: u32) -> &'static str {
    let row = LIST_REFUSALS.iter().find(|(known, _)| *known == number);
    row.map_or("a number that this version has no words for", |(_, words)| words)
}

/// What refusal 1 is about.
pub fn memory_length(length: usize) -> String {
    format!("it has {length} bytes; allowed are multiples of 512, up to 16777216")
}

/// A stop.
pub fn stop(number: u32) -> String {
    match number {
        0 => "HALT".to_string(),
        16 => "a kernel entry found no valid kernel status in the system block".to_string(),
        8..=15 => in_kernel_mode(number, &alarm(number, true)),
        _ => event(number),
    }
}

fn in_kernel_mode(number: u32, words: &str) -> String {
    format!("alarm {number} in kernel mode, {words}")
}

/// A cause with its argument: `a system call, argument 15h (21)`.
pub fn cause_with(number: u32, argument: u32) -> String {
    argued(cause(number), number, argument)
}

/// An alarm in kernel mode with its argument.
pub fn alarm_with(number: u32, argument: u32) -> String {
    let words = match number {
        8 => format!("address {} is past the memory", notation::hexadecimal(argument)),
        13 => alarm(13, true),
        _ => argued(alarm(number, true), number, argument),
    };
    in_kernel_mode(number, &words)
}

fn argued(words: String, number: u32, argument: u32) -> String {
    match number {
        1 => format!("{words}, argument {}", both(argument)),
        8..=11 | NO_FETCH => {
            format!("{words}, address {} (page {})", notation::hexadecimal(argument), argument / 512)
        }
        12 => format!("{words}, {}", byte(argument)),
        13 => format!("{words}, {}", name(argument)),
        14 => format!("{words}, operand {argument}"),
        _ => words,
    }
}

/// The command of a byte, by its name.
pub fn name(byte_: u32) -> String {
    let known = u8::try_from(byte_).ok().and_then(table::command);
    known.map_or_else(|| byte(byte_), |command| command.name.to_string())
}

/// A byte: `FFh`.
pub fn byte(byte: u32) -> String {
    format!("{byte:02X}h")
}

/// A number both ways where they differ: `7`, `15h (21)`, `FFFFFFFFh (-1)`.
pub fn both(number: u32) -> String {
    match number {
        0..=9 => number.to_string(),
        0x8000_0000.. => format!("{number:X}h ({})", number as i32),
        _ => format!("{number:X}h ({number})"),
    }
}

/// The flags as letters: `N-V-`.
pub fn flags(status: u32) -> String {
    [(8, 'N'), (4, 'Z'), (2, 'V'), (1, 'C')]
        .map(|(bit, letter)| if status & bit != 0 { letter } else { '-' })
        .iter()
        .collect()
}

/// The mode of a status word.
pub fn mode(kernel: bool) -> &'static str {
    match kernel {
        true => "kernel",
        false => "user",
    }
}

/// A count with commas: `1,000,000`.
pub fn count(number: u64) -> String {
    let digits = number.to_string();
    let mut text = String::new();
    for (place, digit) in digits.chars().enumerate() {
        if place > 0 && (digits.len() - place).is_multiple_of(3) {
            text.push(',');
        }
        text.push(digit);
    }
    text
}

/// Columns of a line of words.
const WIDTH: usize = 100;

/// Words in lines that fit, the first with its own indent.
pub fn folded(words: &str, first: usize, others: usize) -> Vec<String> {
    wrapped(words, WIDTH, first, others)
}

/// Words in lines of a width.
pub fn wrapped(words: &str, width: usize, first: usize, others: usize) -> Vec<String> {
    let mut lines = Vec::new();
    let mut line = " ".repeat(first);
    let mut empty = true;
    for word in words.split(' ') {
        if !empty && line.chars().count() + 1 + word.chars().count() > width {
            lines.push(std::mem::replace(&mut line, " ".repeat(others)));
            empty = true;
        }
        if !empty {
            line.push(' ');
        }
        line.push_str(word);
        empty = false;
    }
    lines.push(line);
    lines
}

/// `1 step`, `39 steps`.
pub fn steps(number: u64) -> String {
    counted(number, "step", "steps")
}

/// A number of things: `1 byte`, `1,024 bytes`.
pub fn counted(number: u64, one: &str, many: &str) -> String {
    match number {
        1 => format!("1 {one}"),
        _ => format!("{} {many}", count(number)),
    }
}

#[cfg(test)]
mod tests {
    use super::*;

    #[test]
    fn numbers_in_words() {
        assert_eq!(count(0), "0");
        assert_eq!(count(1_234_567), "1,234,567");
        assert_eq!(steps(1), "1 step");
        assert_eq!(both(21), "15h (21)");
        assert_eq!(both(u32::MAX), "FFFFFFFFh (-1)");
        assert_eq!(flags(0x8000_000A), "N-V-");
    }

    #[test]
    fn lines_are_folded() {
        let words = "word ".repeat(30);
        let lines = folded(words.trim(), 2, 4);
        assert!(lines.len() == 2 && lines.iter().all(|line| line.len() <= WIDTH));
        assert!(lines[0].starts_with("  word") && lines[1].starts_with("    word"));
    }

    #[test]
    fn every_cause_stop_and_refusal_has_words() {
        for number in causes() {
            assert!(!cause_with(number, 3).contains("no words"), "{number}");
        }
        for number in [0, 8, 12, 13, 14, 15, 16] {
            assert!(!stop(number).contains("no words"), "{number}");
        }
        assert!(cause(7).contains("no words"));
        for number in (17..=19).chain(22..=23) {
            assert!(!list_refusal(number).contains("no words"), "{number}");
        }
        assert!(list_refusal(20).contains("no words"));
    }

    #[test]
    fn alarm_21_has_cause_2_and_cause_21_is_an_interrupt() {
        assert_eq!(cause_with(2, 0x211), "alarm 21, a fetch from a page without commands, address 211h (page 1)");
        assert_eq!((event(2), event(21)), ("alarm 21".to_string(), "an interrupt of level 5".to_string()));
        for alarm in 0..40 {
            let cause = cause_of_alarm(alarm);
            assert_eq!(cause.is_some(), matches!(alarm, 8..=15 | 21), "{alarm}");
            assert_eq!(cause.and_then(alarm_of_cause), cause.map(|_| alarm), "{alarm}");
        }
        assert_eq!(causes().filter(|cause| alarm_of_cause(*cause).is_some()).count(), 9);
    }
}
