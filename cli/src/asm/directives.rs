//! Directives: segments, data, blocks, maps, places.

use super::cursor::Cursor;
use super::data;
use super::errors::{fault, Fault};
use super::syntax::{CauseKind, Entry, Expression, Field, FieldName, Frame, Item, Kind, Page, PageContent, Term};
use crate::table::Size;
use crate::view::Rights;

/// A directive, if the next lexemes begin one. ON and PAGE are lines of a block before them and stand apart.
pub fn directive(cursor: &mut Cursor) -> Option<Result<Kind, Fault>> {
    let word = cursor.peek_word()?;
    if Size::of_letter(word).is_some() {
        return Some(ended(cursor, data::definition));
    }
    let second = matches!(cursor.peek_at(1), Some(super::lexer::Token::Word(word)) if word == "BLOCK");
    let parse: fn(&mut Cursor) -> Result<Kind, Fault> = match word {
        "SEG" => segment,
        "DD" => data::definition,
        "RES" | "RESERVE" => |cursor| Ok(Kind::Reserve(cursor.expression()?)),
        "ALI" | "ALIGN" => |cursor| Ok(Kind::Align(cursor.expression()?)),
        "SYSTEM" if second => system_block,
        "CONTROL" => control_block,
        "MAP" => map,
        "START" => |cursor| Ok(Kind::Start(cursor.expression()?)),
        "MEMORY" => |cursor| Ok(Kind::Memory(cursor.expression()?)),
        "IMP" | "IMPORT" | "EXP" | "EXPORT" => shared_names,
        _ => return None,
    };
    cursor.advance();
    Some(ended(cursor, parse))
}

fn ended(cursor: &mut Cursor, parse: fn(&mut Cursor) -> Result<Kind, Fault>) -> Result<Kind, Fault> {
    let kind = parse(cursor)?;
    cursor.need_end("the end of the line")?;
    Ok(kind)
}

fn segment(cursor: &mut Cursor) -> Result<Kind, Fault> {
    let none = cursor.is_done() || cursor.peek_word() == Some("AT");
    let address = if none { None } else { Some(cursor.expression()?) };
    let at = if cursor.take_word("AT") { Some(cursor.expression()?) } else { None };
    Ok(Kind::Segment { address, at })
}

/// All names are shared already; what MI's sources say about it is read and has no effect.
fn shared_names(cursor: &mut Cursor) -> Result<Kind, Fault> {
    if cursor.take_word("ALL") {
        return Ok(Kind::Nothing);
    }
    loop {
        match cursor.peek_word() {
            Some(_) => cursor.advance(),
            None => return cursor.expected("ALL or a name"),
        }
        if !cursor.take_mark(',') {
            return Ok(Kind::Nothing);
        }
    }
}

fn system_block(cursor: &mut Cursor) -> Result<Kind, Fault> {
    cursor.need_word("BLOCK")?;
    Ok(Kind::SystemBlock(Vec::new()))
}

/// `ON cause TO place`, and LEVEL or STATUS.
pub fn entry(cursor: &mut Cursor, line: usize) -> Result<Entry, Fault> {
    cursor.need_word("ON")?;
    let kind = match cursor.peek_word() {
        Some("SYSTEM") => CauseKind::SystemCall,
        Some("ALARM") => CauseKind::Alarm,
        Some("INTERRUPT") => CauseKind::Interrupt,
        Some("CAUSE") => CauseKind::Cause,
        _ => return cursor.expected("SYSTEM CALL, ALARM, INTERRUPT or CAUSE"),
    };
    let column = cursor.column();
    cursor.advance();
    let cause = if kind == CauseKind::SystemCall {
        cursor.need_word("CALL")?;
        let one = Term { minus: false, item: Item::Number(1), column };
        Expression { terms: vec![one], column }
    } else {
        cursor.expression()?
    };
    cursor.need_word("TO")?;
    let mut entry = Entry { line, cause, kind, to: cursor.expression()?, level: None, status: None };
    while cursor.take_mark(',') {
        if cursor.take_word("LEVEL") {
            entry.level = Some(cursor.expression()?);
        } else if cursor.take_word("STATUS") {
            entry.status = Some(cursor.expression()?);
        } else {
            return cursor.expected("LEVEL or STATUS");
        }
    }
    cursor.need_end("',' or the end of the line")?;
    Ok(entry)
}

fn control_block(cursor: &mut Cursor) -> Result<Kind, Fault> {
    cursor.need_word("BLOCK")?;
    let mut fields: Vec<Field> = Vec::new();
    while !cursor.is_done() {
        let field = field(cursor)?;
        if fields.iter().any(|other| other.name == field.name) {
            return fault(field.column, "this field is given twice");
        }
        fields.push(field);
        if !cursor.take_mark(',') {
            break;
        }
    }
    Ok(Kind::ControlBlock(fields))
}

fn field(cursor: &mut Cursor) -> Result<Field, Fault> {
    let column = cursor.column();
    let name = match cursor.peek_word() {
        Some("START") => FieldName::Register(15),
        Some("STATUS") => FieldName::Status,
        Some("LEVEL") => FieldName::Level,
        Some("ARGUMENT") => FieldName::Argument,
        Some("MAP") => FieldName::Map,
        Some("LENGTH") => FieldName::Length,
        other => match other.and_then(super::cursor::register) {
            Some(number) => FieldName::Register(number),
            None => return cursor.expected("START, MAP, LENGTH, a register, LEVEL, STATUS or ARGUMENT"),
        },
    };
    cursor.advance();
    Ok(Field { name, value: cursor.expression()?, column })
}

fn map(cursor: &mut Cursor) -> Result<Kind, Fault> {
    let length = if cursor.is_done() { None } else { Some(cursor.expression()?) };
    Ok(Kind::Map { length, pages: Vec::new() })
}

/// `PAGE p: FRAME f, READ, NO FETCH`, and what else an entry may be.
pub fn page(cursor: &mut Cursor, line: usize) -> Result<Page, Fault> {
    cursor.need_word("PAGE")?;
    let first = cursor.expression()?;
    let last = if cursor.take_word("TO") { Some(cursor.expression()?) } else { None };
    cursor.need_mark(':')?;
    let content = page_content(cursor)?;
    cursor.need_end("the end of the line")?;
    Ok(Page { line, first, last, content })
}

fn page_content(cursor: &mut Cursor) -> Result<PageContent, Fault> {
    if cursor.take_word("WORD") {
        return Ok(PageContent::Word(cursor.expression()?));
    }
    if cursor.take_word("ABSENT") {
        let frame = if cursor.take_mark(',') { Some(frame(cursor)?) } else { None };
        return Ok(PageContent::Absent(frame));
    }
    if cursor.peek_word() != Some("FRAME") {
        return cursor.expected("FRAME, ABSENT or WORD");
    }
    let frame = frame(cursor)?;
    if !cursor.take_mark(',') {
        return cursor.expected("', READ' or ', WRITE'");
    }
    Ok(PageContent::Frame { frame, rights: rights(cursor)? })
}

/// READ or WRITE, and NO FETCH.
fn rights(cursor: &mut Cursor) -> Result<Rights, Fault> {
    let write = match cursor.peek_word() {
        Some("READ") => false,
        Some("WRITE") => true,
        _ => return cursor.expected("READ or WRITE"),
    };
    cursor.advance();
    if cursor.is_done() {
        return Ok(Rights { write, fetch: true });
    }
    if !cursor.take_mark(',') {
        return cursor.expected("', NO FETCH' or the end of the line");
    }
    if !cursor.take_word("NO") {
        return cursor.expected("NO FETCH");
    }
    cursor.need_word("FETCH")?;
    Ok(Rights { write, fetch: false })
}

fn frame(cursor: &mut Cursor) -> Result<Frame, Fault> {
    cursor.need_word("FRAME")?;
    match cursor.take_word("OF") {
        true => Ok(Frame::Of(cursor.expression()?)),
        false => Ok(Frame::Number(cursor.expression()?)),
    }
}
