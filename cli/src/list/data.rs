//! Rows of data.

use super::lines::Line;
use crate::table::Size;
use crate::{floats, notation};

/// A zero run of this length that nobody names is left out; SEG leads over it.
pub const LONG: usize = 16;

/// Characters in a row.
const TEXT: usize = 24;

/// The zeros at the start of a piece.
pub fn zeros(bytes: &[u8]) -> usize {
    bytes.iter().take_while(|byte| **byte == 0).count()
}

/// Where the first long zero run begins, in whole values, or the piece's end.
pub fn before_zeros(real: u32, bytes: &[u8], size: Option<Size>) -> usize {
    let length = element(real, size).bytes() as usize;
    let mut run = 0;
    for (at, byte) in bytes.iter().enumerate() {
        run = if *byte == 0 { run + 1 } else { 0 };
        if run == LONG {
            return (at + 1 - LONG).next_multiple_of(length).min(bytes.len());
        }
    }
    bytes.len()
}

/// The size of values at an address: that with which a command uses them, or words at multiples of 4.
fn element(real: u32, size: Option<Size>) -> Size {
    size.unwrap_or(if real.is_multiple_of(4) { Size::W } else { Size::B })
}

/// The rows of a piece; `size` is that with which a command uses it.
pub fn rows(real: u32, bytes: &[u8], size: Option<Size>) -> Vec<Line> {
    if size.is_none_or(|size| size == Size::B) && is_text(bytes) {
        return bytes.chunks(TEXT).zip(0..).map(|(row, i)| text(real + TEXT as u32 * i, row)).collect();
    }
    let size = element(real, size);
    let length = size.bytes() as usize;
    let whole = bytes.len() / length * length;
    let (body, rest) = bytes.split_at_checked(whole).unwrap_or((bytes, &[]));
    let mut lines = sized(real, body, size);
    lines.extend(sized(real + whole as u32, rest, Size::B));
    lines
}

/// Zeros: `RES n`, or without it where the next SEG leads over them.
pub fn reserved(real: u32, count: usize, with_text: bool) -> Line {
    let text = if with_text { format!("RES {count}") } else { String::new() };
    Line { real: Some(real), bytes: format!("{count}*00"), text, ..Line::default() }
}

fn is_text(bytes: &[u8]) -> bool {
    bytes.len() >= 4 && bytes.iter().all(|byte| (b' '..=b'~').contains(byte))
}

fn text(real: u32, bytes: &[u8]) -> Line {
    let hexadecimal: String = bytes.iter().map(|byte| format!("{byte:02X}")).collect();
    let quoted: String = bytes.iter().map(|byte| char::from(*byte)).collect::<String>().replace('\'', "''");
    Line { real: Some(real), bytes: hexadecimal, text: format!("DD '{quoted}'"), ..Line::default() }
}

fn sized(real: u32, bytes: &[u8], size: Size) -> Vec<Line> {
    let length = size.bytes() as usize;
    let row = if size == Size::B { 8 } else { 16 };
    let line = |(row_bytes, i): (&[u8], u32)| {
        let values: Vec<&[u8]> = row_bytes.chunks(length).collect();
        let hexadecimal: Vec<String> =
            values.iter().map(|value| value.iter().map(|b| format!("{b:02X}")).collect()).collect();
        let numbers: Vec<String> = values.iter().map(|value| number(value, size)).collect();
        let text = format!("DD {} {}", size.letter(), numbers.join(","));
        Line { real: Some(real + row as u32 * i), bytes: hexadecimal.join(" "), text, ..Line::default() }
    };
    bytes.chunks(row).zip(0..).map(line).collect()
}

fn number(bytes: &[u8], size: Size) -> String {
    let value = bytes.iter().fold(0, |value, byte| value << 8 | u64::from(*byte));
    match size {
        Size::F | Size::D => floats::written(value, size),
        Size::B if value >= 128 => notation::hexadecimal(value as u32),
        _ => notation::value(value as u32, size),
    }
}
