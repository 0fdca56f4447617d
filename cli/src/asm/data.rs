//! DD: numbers, addresses, strings, and groups of them that are repeated.

use super::cursor::Cursor;
use super::errors::{fault, Fault};
use super::floats;
use super::lexer::Token;
use super::syntax::{Datum, Kind};
use crate::table::Size;

/// Groups within groups.
const DEEPEST: usize = 16;

/// What stands behind DD; MI lets DD itself be left out before a size.
pub fn definition(cursor: &mut Cursor) -> Result<Kind, Fault> {
    Ok(Kind::Data(group(cursor, None, 0)?))
}

/// A size holds for what follows it, up to another one or the group's end.
fn group(cursor: &mut Cursor, mut size: Option<Size>, depth: usize) -> Result<Vec<Datum>, Fault> {
    let mut found = Vec::new();
    loop {
        if let Some(letter) = cursor.peek_word().and_then(Size::of_letter) {
            cursor.advance();
            size = Some(letter);
        }
        found.push(datum(cursor, size, depth)?);
        if !cursor.take_mark(',') {
            return Ok(found);
        }
    }
}

fn datum(cursor: &mut Cursor, size: Option<Size>, depth: usize) -> Result<Datum, Fault> {
    if cursor.is_mark('(') {
        return repeated(cursor, size, depth);
    }
    if let Some(Token::Text(bytes)) = cursor.peek() {
        let alone = !matches!(cursor.peek_at(1), Some(Token::Mark('+' | '-')));
        if alone {
            cursor.advance();
            return Ok(Datum::Text(bytes.clone()));
        }
    }
    // Behind F and D too a name is an address.
    let is_name = matches!(cursor.peek(), Some(Token::Word(_)));
    let expression = match size.filter(|size| size.is_floating() && !is_name) {
        Some(_) => floats::constant(cursor)?,
        None => cursor.expression()?,
    };
    Ok(Datum::Value { size, expression })
}

fn repeated(cursor: &mut Cursor, size: Option<Size>, depth: usize) -> Result<Datum, Fault> {
    if depth == DEEPEST {
        return fault(cursor.column(), format!("groups lie at most {DEEPEST} deep"));
    }
    cursor.need_mark('(')?;
    let group = group(cursor, size, depth + 1)?;
    cursor.need_mark(')')?;
    cursor.need_mark('*')?;
    Ok(Datum::Repeated { group, times: cursor.expression()? })
}
