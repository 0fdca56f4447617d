//! A command with its operands.

use super::cursor::{is_command, is_reserved, Cursor};
use super::errors::{fault, Fault};
use super::floats;
use super::lexer;
use super::syntax::{Expression, Kind, Written};
use crate::table::{self, Command, Operand, Role, Size};
use crate::{forms, lists, options};

/// A command; its name is the next lexeme, or the next two for SYSTEM CALL.
pub fn command(cursor: &mut Cursor) -> Result<Kind, Fault> {
    let column = cursor.column();
    let name = name(cursor)?;
    let same_name: Vec<&'static Command> = table::commands().filter(|command| command.name == name).collect();
    let size = size(cursor, &name, &same_name)?;
    let candidates: Vec<&'static Command> = same_name.into_iter().filter(|command| command.size == size).collect();
    let operands = operands(cursor, size)?;
    let Some(command) = candidates.iter().find(|command| command.operands.len() == operands.len()) else {
        let counts = candidates.iter().map(|command| command.operands.len().to_string());
        let title = candidates.first().map_or(name, |command| command.title());
        let expected = match lists::or(&counts.collect::<Vec<_>>()).as_str() {
            "0" => "no operands".to_string(),
            "1" => "1 operand".to_string(),
            several => format!("{several} operands"),
        };
        return fault(column, format!("{title} has {expected}, found {}", operands.len()));
    };
    for (place, (operand, rule)) in operands.iter().zip(command.operands).enumerate() {
        check(operand, *rule, place + 1, &command.title())?;
    }
    Ok(Kind::Command { command, operands })
}

fn name(cursor: &mut Cursor) -> Result<String, Fault> {
    let Some(word) = cursor.peek_word() else { return cursor.expected("a command or a directive") };
    if word == "SYSTEM" {
        cursor.advance();
        return match cursor.take_word("CALL") {
            true => Ok("SYSTEM CALL".to_string()),
            false => cursor.expected("CALL or BLOCK"),
        };
    }
    if !is_command(word) {
        return fault(cursor.column(), format!("'{}' is not known: {}", lexer::shown(word), meant(word)));
    }
    cursor.advance();
    Ok(word.to_string())
}

/// Commands of MI that the desk does not have.
const MI_ALONE: &str =
    "CHMK EXT EXTS FINDC FINDS INS JBCCI JBSSI JNC JNV LBPSW LIPL LMAPEN LPCB LPCBADR LRKMAP LSB LSCBADR \
    LSL REI RKALARM SBPSW SPIPL SPMAPEN SPPCB SPPCBADR SPRKMAP SPSB SPSCBADR SPSL";

/// What a word may have been meant as.
fn meant(word: &str) -> String {
    let capitals = word.to_ascii_uppercase();
    if is_command(&capitals) || is_reserved(&capitals) {
        return format!("commands and directives are written in capitals: {capitals}");
    }
    if MI_ALONE.split(' ').any(|name| name == word) {
        return "MI has this command, the desk does not".to_string();
    }
    let names =
        table::commands().map(|command| command.name).filter(|name| name.chars().next() == capitals.chars().next());
    match options::nearest(&capitals, names).filter(|_| word.len() > 2) {
        Some(name) => format!("did you mean {name}?"),
        None => "expected a command, a directive, or a name with ':' behind it".to_string(),
    }
}

/// One of the sizes of the commands with a name, if they have some.
fn size(cursor: &mut Cursor, name: &str, commands: &[&Command]) -> Result<Option<Size>, Fault> {
    let has = |size: &Size| commands.iter().any(|command| command.size == Some(*size));
    let letters: Vec<String> =
        Size::ALL.iter().filter(|size| has(size)).map(|size| size.letter().to_string()).collect();
    match cursor.peek_word().and_then(Size::of_letter).filter(has) {
        _ if letters.is_empty() => Ok(None),
        None => cursor.expected(&format!("the size of {name} ({})", lists::or(&letters))),
        found => {
            cursor.advance();
            Ok(found)
        }
    }
}

fn operands(cursor: &mut Cursor, size: Option<Size>) -> Result<Vec<Written>, Fault> {
    let mut found = Vec::new();
    if cursor.is_done() {
        return Ok(found);
    }
    loop {
        found.push(operand(cursor, size)?);
        if !cursor.take_mark(',') {
            break;
        }
    }
    cursor.need_end("',' or the end of the command")?;
    Ok(found)
}

/// An operand in one of the nine forms; the value of a command with F or D is a floating number.
fn operand(cursor: &mut Cursor, size: Option<Size>) -> Result<Written, Fault> {
    let column = cursor.column();
    let written = |form, x, y, z| Written { form, x, y, z, column };
    if cursor.take_word("I") {
        let value = match size.filter(|size| size.is_floating()) {
            Some(_) => floats::constant(cursor)?,
            None => cursor.expression()?,
        };
        return Ok(written(forms::VALUE, 0, 0, Some(value)));
    }
    if cursor.peek_word().and_then(super::cursor::register).is_some() {
        return Ok(written(forms::REGISTER, cursor.register()?, 0, None));
    }
    if cursor.is_mark('-') && cursor.peek_at(1) == Some(&super::lexer::Token::Mark('!')) {
        cursor.advance();
        cursor.advance();
        return Ok(written(forms::STEP_DOWN, cursor.register()?, 0, None));
    }
    if cursor.is_mark('!') {
        return exclamation(cursor, column);
    }
    if cursor.is_done() || !begins_expression(cursor) {
        return cursor.expected("an operand");
    }
    let z = cursor.expression()?;
    if !cursor.is_mark('+') {
        return Ok(written(forms::ADDRESS, 0, 0, Some(z)));
    }
    relative(cursor, column, Some(z))
}

fn begins_expression(cursor: &Cursor) -> bool {
    use super::lexer::Token::{Decimal, Long, Mark, Number, Text, Word};
    match cursor.peek() {
        Some(Decimal(_) | Number(_) | Long(_) | Text(_) | Mark('+' | '-')) => true,
        Some(Word(word)) => !super::cursor::is_reserved(word),
        _ => false,
    }
}

/// `+!Rx` behind a sum, and an index.
fn relative(cursor: &mut Cursor, column: usize, z: Option<Expression>) -> Result<Written, Fault> {
    cursor.need_mark('+')?;
    cursor.need_mark('!')?;
    let x = cursor.register()?;
    let y = index(cursor)?;
    let form = if y.is_some() { forms::BASE_INDEX } else { forms::BASE };
    Ok(Written { form, x, y: y.unwrap_or(0), z, column })
}

/// `!Rx`, `!Rx+`, `!Rx/Ry/`, `!!Rx`, `!(z+!Rx)`.
fn exclamation(cursor: &mut Cursor, column: usize) -> Result<Written, Fault> {
    cursor.need_mark('!')?;
    let (x, z) = if cursor.take_mark('!') {
        (cursor.register()?, None)
    } else if cursor.take_mark('(') {
        let inside = within(cursor)?;
        cursor.need_mark(')')?;
        inside
    } else {
        return direct(cursor, column);
    };
    let y = index(cursor)?;
    let form = if y.is_some() { forms::INDIRECT_INDEX } else { forms::INDIRECT };
    Ok(Written { form, x, y: y.unwrap_or(0), z, column })
}

/// `z+!Rx` or `!Rx`, between the brackets of `!( )`.
fn within(cursor: &mut Cursor) -> Result<(u8, Option<Expression>), Fault> {
    if !cursor.is_mark('!') && !begins_expression(cursor) {
        return cursor.expected("z+!Rx or !Rx inside !( )");
    }
    let z = if cursor.is_mark('!') { None } else { Some(cursor.expression()?) };
    if z.is_some() {
        cursor.need_mark('+')?;
    }
    cursor.need_mark('!')?;
    Ok((cursor.register()?, z))
}

fn direct(cursor: &mut Cursor, column: usize) -> Result<Written, Fault> {
    if cursor.peek_word().and_then(super::cursor::register).is_none() {
        return cursor.expected("a register (R0 to R15, SP, PC), '!' or '('");
    }
    let x = cursor.register()?;
    if cursor.take_mark('+') {
        if !cursor.is_done() && !cursor.is_mark(',') {
            return cursor.expected("',' or the end behind !Rx+ (a number stands before it: 4+!Rx)");
        }
        return Ok(Written { form: forms::STEP_UP, x, y: 0, z: None, column });
    }
    let y = index(cursor)?;
    let form = if y.is_some() { forms::BASE_INDEX } else { forms::BASE };
    Ok(Written { form, x, y: y.unwrap_or(0), z: None, column })
}

/// `/Ry/`.
fn index(cursor: &mut Cursor) -> Result<Option<u8>, Fault> {
    if !cursor.take_mark('/') {
        return Ok(None);
    }
    let y = cursor.register()?;
    cursor.need_mark('/')?;
    Ok(Some(y))
}

/// What would be alarm 14 at every run is told here.
fn check(operand: &Written, rule: Operand, place: usize, title: &str) -> Result<(), Fault> {
    if matches!(operand.form, forms::STEP_DOWN | forms::STEP_UP) && operand.x == 15 {
        return fault(operand.column, "R15 cannot be stepped: -!Rx and !Rx+ take R0 to R14");
    }
    if forms::role_allows(operand.form, rule.role) {
        return check_size(operand, rule.size, place, title);
    }
    let sentence = match (rule.role, operand.form) {
        (Role::Address, forms::VALUE) => "is an address: leave out I",
        (Role::Address, _) => "is an address, and a register has none: write !Rx for the address in Rx",
        _ => "is written to, and a value (I ..) cannot be",
    };
    fault(operand.column, format!("operand {place} of {title} {sentence}"))
}

/// Values and registers that a size does not have.
fn check_size(operand: &Written, size: Size, place: usize, title: &str) -> Result<(), Fault> {
    if forms::size_allows(operand.form, operand.x, size) {
        return Ok(());
    }
    let sentence = match (operand.form, size) {
        (forms::VALUE, _) => {
            "cannot be a value (I ..), which has no room for a D: write the name of one in memory, as in name: DD D 1.5"
        }
        (_, Size::D) => "takes two registers, and SP and R15 are none for it: expected R0 to R13, the first of the two",
        _ => "is a floating number, which R15 does not hold: expected R0 to R14",
    };
    fault(operand.column, format!("operand {place} of {title} {sentence}"))
}
