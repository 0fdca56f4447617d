//! A line of a source into words, numbers, strings and marks.

use super::errors::{fault, Fault};
use crate::{floats, notation};

#[derive(Clone, PartialEq, Eq, Debug)]
pub enum Token {
    /// A name, a command, or a number such as FFFh that begins with a letter; which one, its use decides.
    Word(String),
    /// A decimal number, whole or floating, as it is written.
    Decimal(String),
    /// A hexadecimal or a binary number.
    Number(u32),
    /// Such a number that has more than 32 bits, as a D may have.
    Long(u64),
    /// The bytes of a string.
    Text(Vec<u8>),
    Mark(char),
}

#[derive(Clone, PartialEq, Eq, Debug)]
pub struct Lexeme {
    pub token: Token,
    /// From 1.
    pub column: usize,
}

const MARKS: &str = ",:;+-!()/*=";

struct Scanner {
    characters: Vec<char>,
    at: usize,
}

/// The lexemes of a line, without its remark and without the columns of a listing; and the fault that ends them early.
pub fn lexemes(line: &str) -> (Vec<Lexeme>, Option<Fault>) {
    let characters: Vec<char> = line.chars().collect();
    let at = columns(line).map_or(0, |columns| columns.len() + 1);
    let mut scanner = Scanner { characters, at };
    let mut found = Vec::new();
    loop {
        match scanner.next() {
            Ok(Some(lexeme)) => found.push(lexeme),
            Ok(None) => return (found, None),
            Err(fault) => return (found, Some(fault)),
        }
    }
}

/// What stands before a bar is the listing's: addresses and bytes, which are not assembled.
pub fn columns(line: &str) -> Option<&str> {
    let (columns, _) = line.split_once('|')?;
    let in_columns = |c: char| c.is_ascii_hexdigit() || " .*\t".contains(c);
    columns.chars().all(in_columns).then_some(columns)
}

impl Scanner {
    fn peek(&self) -> Option<char> {
        self.characters.get(self.at).copied()
    }

    fn next(&mut self) -> Result<Option<Lexeme>, Fault> {
        while self.peek().is_some_and(char::is_whitespace) {
            self.at += 1;
        }
        let column = self.at + 1;
        let Some(first) = self.peek() else { return Ok(None) };
        if first == '-' && self.characters.get(self.at + 1) == Some(&'-') {
            return Ok(None);
        }
        let token = match first {
            '\'' => Token::Text(self.string()?),
            '0'..='9' => self.number()?,
            _ if first.is_ascii_alphabetic() => self.word()?,
            _ if MARKS.contains(first) => {
                self.at += 1;
                Token::Mark(first)
            }
            '"' => return fault(column, format!("'\"' has no meaning here{}", hint(first))),
            _ => return fault(column, format!("'{}' has no meaning here{}", first.escape_debug(), hint(first))),
        };
        Ok(Some(Lexeme { token, column }))
    }

    fn run_of(&mut self, belongs: fn(char) -> bool) -> String {
        let start = self.at;
        while self.peek().is_some_and(belongs) {
            self.at += 1;
        }
        self.characters.get(start..self.at).unwrap_or(&[]).iter().collect()
    }

    /// `15`, `410h`, `0x410`, and floating numbers: `1.5`, `15E-1`.
    fn number(&mut self) -> Result<Token, Fault> {
        let column = self.at + 1;
        let mut text = self.run_of(in_word);
        if floats::is_whole(&text) && self.peek() == Some('.') {
            self.at += 1;
            text = format!("{text}.{}", self.run_of(in_word));
        }
        let exponent = text.ends_with(['E', 'e']) && floats::is_decimal(&format!("{text}0"));
        let digits = self.characters.get(self.at + 1).is_some_and(char::is_ascii_digit);
        if let Some(sign) = self.peek().filter(|c| exponent && digits && "+-".contains(*c)) {
            self.at += 1;
            text = format!("{text}{sign}{}", self.run_of(in_word));
        }
        if floats::is_decimal(&text) {
            return Ok(Token::Decimal(text));
        }
        match notation::long(&text) {
            Some(number) => Ok(of_digits(number)),
            None if text.contains('.') => fault(column, format!("'{}' is no number: a floating number is written 1.5 or 1.5E-3, with digits on both sides of the point and behind E", shown(&text))),
            None => fault(column, no_number(&text)),
        }
    }

    /// A word, or H'410' and B'1010'.
    fn word(&mut self) -> Result<Token, Fault> {
        let column = self.at + 1;
        let mut text = self.run_of(in_word);
        if self.peek() == Some('\'') && (text == "H" || text == "B") {
            let radix = if text == "H" { 16 } else { 2 };
            return self.quoted_number(column, radix);
        }
        while self.peek() == Some('.') {
            self.at += 1;
            text = format!("{text}.{}", self.run_of(in_word));
        }
        Ok(Token::Word(text))
    }

    fn quoted_number(&mut self, column: usize, radix: u32) -> Result<Token, Fault> {
        let digits: String = self.string()?.into_iter().map(char::from).collect();
        let number = digits.chars().all(|c| c.is_digit(radix)).then(|| u64::from_str_radix(&digits, radix).ok());
        match number.flatten() {
            Some(number) => Ok(of_digits(number)),
            None if radix == 16 => fault(column, "expected H'..' with one to eight hexadecimal digits, for D up to 16"),
            None => fault(column, "expected B'..' with up to 32 digits 0 and 1, for D up to 64"),
        }
    }

    /// The bytes between two quotes; a quote inside is written twice.
    fn string(&mut self) -> Result<Vec<u8>, Fault> {
        let column = self.at + 1;
        let mut bytes = Vec::new();
        loop {
            self.at += 1;
            match self.peek() {
                None => return fault(column, "this string has no end: expected a quote (')"),
                Some('\'') if self.characters.get(self.at + 1) == Some(&'\'') => {
                    self.at += 1;
                    bytes.push(b'\'');
                }
                Some('\'') => break,
                Some(c) if c.is_ascii() => bytes.push(c as u8),
                Some(_) => return fault(self.at + 1, "a string holds ASCII characters alone"),
            }
        }
        self.at += 1;
        match bytes.is_empty() {
            true => fault(column, "this string is empty: expected at least one character"),
            false => Ok(bytes),
        }
    }
}

fn in_word(c: char) -> bool {
    c.is_ascii_alphanumeric() || c == '_'
}

fn of_digits(number: u64) -> Token {
    u32::try_from(number).map_or(Token::Long(number), Token::Number)
}

/// What is said of digits that are no whole number of up to 32 bits.
pub fn no_number(text: &str) -> String {
    format!(
        "'{}' is no number: expected decimal digits, or hexadecimal ones with h at the end, up to FFFFFFFFh",
        shown(text)
    )
}

/// What other notations write with a character, and MI's writes otherwise.
fn hint(character: char) -> &'static str {
    match character {
        '#' => "; a remark begins with --, a value is written I 5",
        '$' => "; a hexadecimal number is written 410h",
        '"' => "; a string stands between single quotes",
        '[' | ']' | '@' => "; what is at the address in R1 is written !R1",
        '.' => "; a floating number has digits before its point: 0.5",
        '|' => "; before a bar only the columns of a listing may stand",
        _ => "",
    }
}

/// Text of a source in a message: short, and without control characters.
pub fn shown(text: &str) -> String {
    let short: String = text.chars().take(24).collect();
    let dots = if short.len() < text.len() { ".." } else { "" };
    format!("{}{dots}", short.escape_default())
}

impl Token {
    /// As it is called in a message.
    pub fn shown(&self) -> String {
        match self {
            Token::Word(word) => format!("'{}'", shown(word)),
            Token::Decimal(text) => format!("the number {}", shown(text)),
            Token::Number(number) => format!("the number {}", notation::hexadecimal(*number)),
            Token::Long(number) => format!("the number {number:X}h"),
            Token::Text(_) => "a string".to_string(),
            Token::Mark(mark) => format!("'{mark}'"),
        }
    }
}
