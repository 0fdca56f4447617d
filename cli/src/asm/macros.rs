//! EQU: names that stand for a text.

use super::cursor::is_reserved;
use super::errors::{fault, Fault};
use super::lexer::{shown, Lexeme, Token};
use std::borrow::Cow;
use std::collections::BTreeMap;

/// No statement grows longer than this by replacing.
const LONGEST: usize = 4096;

#[derive(Default)]
pub struct Macros {
    texts: BTreeMap<String, Vec<Token>>,
}

impl Macros {
    /// The names of `EQU name = text, ..`; the lexemes are those behind EQU, already replaced but for the names.
    pub fn define(&mut self, lexemes: &[Lexeme], end: usize) -> Result<(), Fault> {
        for part in lexemes.split(|lexeme| lexeme.token == Token::Mark(',')) {
            let column = part.first().map_or(end, |lexeme| lexeme.column);
            let [name, equals, text @ ..] = part else { return fault(column, "expected name = text behind EQU") };
            let Token::Word(word) = &name.token else {
                return fault(column, format!("expected a name behind EQU, found {}", name.token.shown()));
            };
            if is_reserved(word) || word.contains('.') {
                return fault(column, format!("'{}' cannot be a name: the language has a use for it", shown(word)));
            }
            if equals.token != Token::Mark('=') || text.is_empty() {
                return fault(equals.column, format!("expected = and a text behind '{}'", shown(word)));
            }
            let text = self.replaced(text)?;
            if self.texts.insert(word.clone(), text.iter().map(|lexeme| lexeme.token.clone()).collect()).is_some() {
                return fault(column, format!("'{}' is given twice", shown(word)));
            }
        }
        Ok(())
    }

    pub fn has(&self, name: &str) -> bool {
        self.texts.contains_key(name)
    }

    /// The lexemes with each name's text in its place. Texts are replaced when they are defined, so once is enough.
    pub fn replaced<'a>(&self, lexemes: &'a [Lexeme]) -> Result<Cow<'a, [Lexeme]>, Fault> {
        if self.texts.is_empty() {
            return Ok(Cow::Borrowed(lexemes));
        }
        let mut found = Vec::new();
        for lexeme in lexemes {
            match &lexeme.token {
                Token::Word(word) if self.has(word) => {
                    let text = self.texts.get(word).into_iter().flatten();
                    found.extend(text.map(|token| Lexeme { token: token.clone(), column: lexeme.column }));
                }
                _ => found.push(lexeme.clone()),
            }
            if found.len() > LONGEST {
                return fault(lexeme.column, "the texts of EQU make this statement too long");
            }
        }
        Ok(Cow::Owned(found))
    }
}
