//! The lines of a source into statements.

use super::commands;
use super::cursor::{is_reserved, Cursor};
use super::directives;
use super::errors::{fault, Errors, Fault};
use super::lexer::{self, shown, Lexeme, Token};
use super::macros::Macros;
use super::syntax::{Kind, Label, Statement};

struct Parser<'a> {
    statements: Vec<Statement>,
    macros: Macros,
    errors: &'a mut Errors,
}

/// The statements up to END. Faulty lines leave their labels, so that one fault does not bring others.
pub fn parse(source: &str, errors: &mut Errors) -> Vec<Statement> {
    let mut parser = Parser { statements: Vec::new(), macros: Macros::default(), errors };
    for (index, text) in lines(source).enumerate() {
        if parser.line(index + 1, text) {
            break;
        }
    }
    parser.statements
}

/// The lines, however they end.
pub fn lines(source: &str) -> impl Iterator<Item = &str> {
    source.split('\n').flat_map(|line| line.strip_suffix('\r').unwrap_or(line).split('\r'))
}

impl Parser<'_> {
    /// Answers whether the source ends here.
    fn line(&mut self, number: usize, text: &str) -> bool {
        let (lexemes, broken) = lexer::lexemes(text);
        let end = lexemes.last().map_or(1, |last| last.column + width(&last.token));
        let mut parts = lexemes.split(|lexeme| lexeme.token == Token::Mark(';')).peekable();
        let mut behind_another = false;
        while let Some(part) = parts.next() {
            let whole = parts.peek().is_some() || broken.is_none();
            match self.statement(number, part, end, whole) {
                Ok(false) => {}
                Ok(true) => return true,
                Err(fault) => {
                    self.errors.add(number, if behind_another { maybe_remark(fault, part) } else { fault });
                    if behind_another {
                        return false;
                    }
                }
            }
            behind_another = true;
        }
        if let Some(fault) = broken {
            self.errors.add(number, fault);
        }
        false
    }

    fn statement(&mut self, line: usize, lexemes: &[Lexeme], end: usize, whole: bool) -> Result<bool, Fault> {
        let (labels, rest) = self.labels(line, lexemes);
        let column = rest.first().map_or(end, |lexeme| lexeme.column);
        if rest.is_empty() || !whole {
            self.push(line, column, labels, Kind::Nothing);
            return Ok(false);
        }
        if let Some(Token::Word(word)) = rest.first().map(|lexeme| &lexeme.token) {
            match word.as_str() {
                "EQU" | "EQUAL" => {
                    self.push(line, column, labels, Kind::Nothing);
                    return self.macros.define(rest.get(1..).unwrap_or(&[]), end).map(|()| false);
                }
                "END" => {
                    self.push(line, column, labels, Kind::Nothing);
                    return Ok(true);
                }
                _ => {}
            }
        }
        let rest = self.macros.replaced(rest)?;
        self.parsed(line, column, labels, &mut Cursor::new(&rest, end)).map(|()| false)
    }

    fn parsed(&mut self, line: usize, column: usize, labels: Vec<Label>, cursor: &mut Cursor) -> Result<(), Fault> {
        let first = cursor.peek_word().unwrap_or("");
        if matches!(first, "ON" | "PAGE") {
            if let Some(label) = labels.first() {
                return fault(label.column, format!("{first} takes no name: it is a line of the block before it"));
            }
            return self.continued(line, cursor);
        }
        let parsed = directives::directive(cursor).unwrap_or_else(|| commands::command(cursor));
        match parsed {
            Ok(kind) => self.push(line, column, labels, kind),
            Err(fault) => {
                let kind = match first {
                    "MAP" => Kind::Map { length: None, pages: Vec::new() },
                    _ => Kind::Nothing,
                };
                self.push(line, column, labels, kind);
                return Err(fault);
            }
        }
        Ok(())
    }

    /// A line of a system block or a map.
    fn continued(&mut self, line: usize, cursor: &mut Cursor) -> Result<(), Fault> {
        let column = cursor.column();
        match (cursor.peek_word(), self.statements.last_mut().map(|statement| &mut statement.kind)) {
            (Some("ON"), Some(Kind::SystemBlock(entries))) => entries.push(directives::entry(cursor, line)?),
            (Some("PAGE"), Some(Kind::Map { pages, .. })) => pages.push(directives::page(cursor, line)?),
            (Some("ON"), _) => return fault(column, "ON belongs below SYSTEM BLOCK or another ON"),
            _ => return fault(column, "PAGE belongs below MAP or another PAGE"),
        }
        Ok(())
    }

    fn push(&mut self, line: usize, column: usize, labels: Vec<Label>, kind: Kind) {
        if !labels.is_empty() || kind != Kind::Nothing {
            self.statements.push(Statement { line, column, labels, kind });
        }
    }

    /// The labels at the start of a statement, and what follows them.
    fn labels<'b>(&mut self, line: usize, mut lexemes: &'b [Lexeme]) -> (Vec<Label>, &'b [Lexeme]) {
        let mut labels = Vec::new();
        while let [Lexeme { token: Token::Word(name), column }, Lexeme { token: Token::Mark(':'), .. }, rest @ ..] =
            lexemes
        {
            match self.label(line, name, *column) {
                Ok(label) => labels.push(label),
                Err(fault) => self.errors.add(line, fault),
            }
            lexemes = rest;
        }
        (labels, lexemes)
    }

    fn label(&self, line: usize, name: &str, column: usize) -> Result<Label, Fault> {
        if is_reserved(name) || name.contains('.') {
            return fault(column, format!("'{}' cannot be a name: the language has a use for it", shown(name)));
        }
        if self.macros.has(name) {
            return fault(column, format!("'{}' is given twice: EQU has it already", shown(name)));
        }
        Ok(Label { name: name.to_string(), line, column })
    }
}

/// Words behind a semicolon that are no statement are hardly ever meant as one.
fn maybe_remark(fault: Fault, part: &[Lexeme]) -> Fault {
    match part.first().map(|lexeme| &lexeme.token) {
        Some(Token::Word(word)) if is_reserved(word) => fault,
        _ => Fault {
            sentence: "';' ends a statement, and what follows is none; a remark begins with --".to_string(),
            ..fault
        },
    }
}

fn width(token: &Token) -> usize {
    match token {
        Token::Word(text) | Token::Decimal(text) => text.chars().count(),
        Token::Text(bytes) => bytes.len() + 2,
        Token::Mark(_) | Token::Number(_) | Token::Long(_) => 1,
    }
}
