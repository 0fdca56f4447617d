//! A command of a load list as a line: offset and bytes in hexadecimal, as before the bar of a listing, then words.

use super::commands::{self, Action, Command, Content, Malformed, Put};
use super::written;
use crate::words;

/// `0005  04 0040 EE  | put 64 copies of EEh at 5C0h to 5FFh`. `remark` stands behind it.
pub fn of_command(command: &Command, remark: &str) -> String {
    let words = match command.action {
        Action::End => "end".to_string(),
        Action::Move(to) => format!("move to {}", written::address(u64::from(to))),
        Action::Put(put) => does(&put),
    };
    line(command.offset, &grouped(command.bytes), &format!("{words}{remark}"))
}

fn does(put: &Put) -> String {
    match put.content {
        Content::Bytes(bytes) => {
            let digits: Vec<String> = bytes.iter().map(|byte| format!("{byte:02X}")).collect();
            let at = written::address(put.place);
            format!("put {} at {at}: {}", written::bytes(put.count()), digits.join(" "))
        }
        Content::Copies { count, byte } => {
            let copies = words::counted(u64::from(count), "copy", "copies");
            let at = written::range(put.place, put.end());
            format!("put {copies} of {} at {at}", words::byte(u32::from(byte)))
        }
    }
}

/// The line of what makes a list none.
pub fn of_damage(list: &[u8], malformed: Malformed) -> String {
    let from = |offset: usize| list.get(offset..).unwrap_or(&[]);
    match malformed {
        Malformed::Unknown { offset, byte } => line(offset, &digits(&[byte]), "unknown command"),
        Malformed::CutShort { offset, .. } => line(offset, &grouped(from(offset)), "cut short"),
        Malformed::NoEnd { offset } => line(offset, "", "no end"),
        Malformed::After { end, count } => {
            let after = from(end + 1);
            let shown = match after.get(..4) {
                Some(first) if count > 4 => format!("{} ..", digits(first)),
                _ => digits(after),
            };
            line(end + 1, &shown, &format!("{} after the end", written::bytes(count as u64)))
        }
    }
}

fn line(offset: usize, bytes: &str, words: &str) -> String {
    format!("{offset:04X}  {bytes:11} | {words}")
}

/// The command byte, then what stands behind it: an address, bytes, or a count and a byte.
fn grouped(bytes: &[u8]) -> String {
    let groups: Vec<&[u8]> = match bytes {
        [commands::COPIES, _, _, _] => vec![&bytes[..1], &bytes[1..3], &bytes[3..]],
        [_, _, ..] => vec![&bytes[..1], &bytes[1..]],
        _ => vec![bytes],
    };
    groups.iter().map(|group| digits(group)).collect::<Vec<_>>().join(" ")
}

fn digits(bytes: &[u8]) -> String {
    bytes.iter().map(|byte| format!("{byte:02X}")).collect()
}
