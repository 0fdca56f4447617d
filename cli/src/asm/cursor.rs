//! A statement's lexemes, read from left to right; registers, numbers and sums.

use super::errors::{fault, Fault};
use super::lexer::{no_number, shown, Lexeme, Token};
use super::syntax::{Expression, Item, Term};
use crate::{floats, notation};

pub struct Cursor<'a> {
    lexemes: &'a [Lexeme],
    at: usize,
    /// The column after the last lexeme.
    end: usize,
}

impl<'a> Cursor<'a> {
    pub fn new(lexemes: &'a [Lexeme], end: usize) -> Cursor<'a> {
        Cursor { lexemes, at: 0, end }
    }

    pub fn peek(&self) -> Option<&'a Token> {
        self.peek_at(0)
    }

    pub fn peek_at(&self, ahead: usize) -> Option<&'a Token> {
        self.lexemes.get(self.at + ahead).map(|lexeme| &lexeme.token)
    }

    /// The column of the next lexeme, or of the end.
    pub fn column(&self) -> usize {
        self.lexemes.get(self.at).map_or(self.end, |lexeme| lexeme.column)
    }

    pub fn advance(&mut self) {
        self.at += 1;
    }

    pub fn is_done(&self) -> bool {
        self.at >= self.lexemes.len()
    }

    pub fn is_mark(&self, mark: char) -> bool {
        self.peek() == Some(&Token::Mark(mark))
    }

    pub fn take_mark(&mut self, mark: char) -> bool {
        let found = self.is_mark(mark);
        if found {
            self.advance();
        }
        found
    }

    pub fn peek_word(&self) -> Option<&'a str> {
        match self.peek() {
            Some(Token::Word(word)) => Some(word),
            _ => None,
        }
    }

    pub fn take_word(&mut self, word: &str) -> bool {
        let found = self.peek_word() == Some(word);
        if found {
            self.advance();
        }
        found
    }

    /// A fault at the next lexeme: what was expected, and what stands there.
    pub fn expected<T>(&self, what: &str) -> Result<T, Fault> {
        let found = self.peek().map_or("the end of the line".to_string(), Token::shown);
        fault(self.column(), format!("expected {what}, found {found}"))
    }

    pub fn need_mark(&mut self, mark: char) -> Result<(), Fault> {
        match self.take_mark(mark) {
            true => Ok(()),
            false => self.expected(&format!("'{mark}'")),
        }
    }

    pub fn need_word(&mut self, word: &str) -> Result<(), Fault> {
        match self.take_word(word) {
            true => Ok(()),
            false => self.expected(word),
        }
    }

    pub fn need_end(&self, what: &str) -> Result<(), Fault> {
        match self.is_done() {
            true => Ok(()),
            false => self.expected(what),
        }
    }

    /// R0 to R15, SP, PC.
    pub fn register(&mut self) -> Result<u8, Fault> {
        match self.peek_word().and_then(register) {
            Some(number) => {
                self.advance();
                Ok(number)
            }
            None => self.expected("a register (R0 to R15, SP, PC)"),
        }
    }

    /// Terms with + and - between them; it ends before a + that leads to !Rx.
    pub fn expression(&mut self) -> Result<Expression, Fault> {
        let column = self.column();
        let mut minus = self.take_mark('-');
        if !minus {
            self.take_mark('+');
        }
        let mut terms = vec![self.term(minus)?];
        while (self.is_mark('+') || self.is_mark('-')) && self.peek_at(1) != Some(&Token::Mark('!')) {
            minus = self.is_mark('-');
            self.advance();
            terms.push(self.term(minus)?);
        }
        Ok(Expression { terms, column })
    }

    fn term(&mut self, minus: bool) -> Result<Term, Fault> {
        let column = self.column();
        let item = match self.peek() {
            Some(Token::Number(number)) => Item::Number(*number),
            Some(Token::Long(number)) => return fault(column, no_number(&format!("{number:X}h"))),
            Some(Token::Decimal(text)) => match notation::number(text) {
                Some(number) => Item::Number(number),
                None if floats::is_whole(text) => return fault(column, no_number(text)),
                None => return fault(column, format!("{} is a floating number, which only DD F, DD D and the value of a command with F take, as in ADD F I 1.5,R0", shown(text))),
            },
            Some(Token::Word(word)) if !is_reserved(word) => Item::Name(word.clone()),
            Some(Token::Text(bytes)) if bytes.len() <= 4 => {
                Item::Number(bytes.iter().fold(0, |n, b| n << 8 | u32::from(*b)))
            }
            _ => return self.expected("a number or a name"),
        };
        self.advance();
        Ok(Term { minus, item, column })
    }
}

/// The number of a register by its name.
pub fn register(name: &str) -> Option<u8> {
    match name {
        "SP" => Some(14),
        "PC" => Some(15),
        _ => {
            let digits = name.strip_prefix('R')?;
            let number = digits.parse().ok().filter(|number| *number < 16)?;
            (digits == u8::to_string(&number)).then_some(number)
        }
    }
}

/// Words of the directives. With the commands, the sizes and the registers they are no names.
const RESERVED: &str =
    "ABSENT ALARM ALI ALIGN ALL ARGUMENT AT B BLOCK CAUSE CONTROL D DD END EQU EQUAL EXP EXPORT F FETCH FRAME H \
    I IMP IMPORT INTERRUPT LENGTH LEVEL MAP MEMORY NO OF ON PAGE READ RES RESERVE SEG START STATUS SYSTEM \
    TO W WORD WRITE";

pub fn is_reserved(word: &str) -> bool {
    if !word.bytes().all(|byte| byte.is_ascii_uppercase() || byte.is_ascii_digit()) {
        return false;
    }
    RESERVED.split(' ').any(|reserved| reserved == word) || register(word).is_some() || is_command(word)
}

pub fn is_command(word: &str) -> bool {
    crate::table::commands().any(|command| command.name == word)
}
