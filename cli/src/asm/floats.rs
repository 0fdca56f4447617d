//! Floating constants: decimal numbers, or their bits in hexadecimal or binary digits.

use super::cursor::{is_reserved, Cursor};
use super::errors::{fault, Fault};
use super::lexer::{shown, Token};
use super::symbols::Symbols;
use super::syntax::{Expression, Item, Term};
use crate::table::Size;
use crate::{floats, notation};

const EXPECTED: &str = "a floating number, such as 1.5 or -2E10, or its bits in hexadecimal";

/// A constant. A word may be hexadecimal digits, which the names decide.
pub fn constant(cursor: &mut Cursor) -> Result<Expression, Fault> {
    let column = cursor.column();
    let minus = cursor.take_mark('-');
    let signed = minus || cursor.take_mark('+');
    let item = match cursor.peek() {
        Some(Token::Decimal(text)) if minus => Item::Floating(format!("-{text}")),
        Some(Token::Decimal(text)) => Item::Floating(text.clone()),
        Some(Token::Number(_) | Token::Long(_) | Token::Word(_)) if signed => {
            return fault(column, "bits have no sign: expected a decimal number behind it, such as 1.5");
        }
        Some(Token::Number(bits)) => Item::Bits(u64::from(*bits)),
        Some(Token::Long(bits)) => Item::Bits(*bits),
        Some(Token::Word(word)) if !is_reserved(word) => Item::Name(word.clone()),
        _ => return cursor.expected(EXPECTED),
    };
    cursor.advance();
    Ok(Expression { terms: vec![Term { minus: false, item, column }], column })
}

/// The bits of a constant.
pub fn bits(expression: &Expression, size: Size, symbols: &Symbols) -> Result<u64, Fault> {
    let column = expression.column;
    let item = match expression.terms.as_slice() {
        [Term { minus: false, item, .. }] => item,
        _ => return fault(column, format!("expected {EXPECTED}; a sum is none")),
    };
    let bits = match item {
        Item::Floating(text) => {
            return floats::of_decimal(text, size).map_or_else(|| too_large(text, size, column), Ok)
        }
        Item::Bits(bits) => *bits,
        Item::Number(number) => u64::from(*number),
        Item::Name(word) => match notation::long(word) {
            Some(bits) if !symbols.is_name(word) => bits,
            _ => {
                let word = shown(word);
                return fault(
                    column,
                    format!("expected {EXPECTED}, found '{word}'; the number at a name is written without I"),
                );
            }
        },
    };
    match size == Size::F && bits > u64::from(u32::MAX) {
        true => fault(column, "these are too many bits for F: expected up to eight hexadecimal digits"),
        false => Ok(bits),
    }
}

fn too_large(text: &str, size: Size, column: usize) -> Result<u64, Fault> {
    let (letter, largest) = (size.letter(), floats::largest(size));
    let sign = u64::from(text.starts_with('-')) << (8 * size.bytes() - 1);
    let infinity = floats::digits(floats::infinity(size) | sign, size);
    let sentence = format!(
        "{} is too large for {letter}, whose largest number is {largest}; infinity is written by its bits, {infinity}",
        shown(text)
    );
    fault(column, sentence)
}
