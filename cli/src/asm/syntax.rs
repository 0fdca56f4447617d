//! A source as the parser leaves it.

use crate::table::{Command, Size};
use crate::view::Rights;
use crate::words;

/// A sum of numbers and names.
#[derive(Clone, PartialEq, Eq, Debug)]
pub struct Expression {
    pub terms: Vec<Term>,
    pub column: usize,
}

#[derive(Clone, PartialEq, Eq, Debug)]
pub struct Term {
    pub minus: bool,
    pub item: Item,
    pub column: usize,
}

#[derive(Clone, PartialEq, Eq, Debug)]
pub enum Item {
    Number(u32),
    Name(String),
    /// A floating number in decimal digits, with its sign.
    Floating(String),
    /// The bits of a floating number.
    Bits(u64),
}

/// An operand: form and registers, and the sum that becomes z.
#[derive(Clone, PartialEq, Eq, Debug)]
pub struct Written {
    pub form: u8,
    pub x: u8,
    pub y: u8,
    pub z: Option<Expression>,
    pub column: usize,
}

/// An element of DD.
#[derive(Clone, PartialEq, Eq, Debug)]
pub enum Datum {
    /// Without a size the least that holds the number with its sign; an address is always a word.
    Value {
        size: Option<Size>,
        expression: Expression,
    },
    Text(Vec<u8>),
    Repeated {
        group: Vec<Datum>,
        times: Expression,
    },
}

/// An entry of the system block.
#[derive(Clone, PartialEq, Eq, Debug)]
pub struct Entry {
    pub line: usize,
    /// The number that is given: of the cause itself, or of the kind.
    pub cause: Expression,
    pub kind: CauseKind,
    pub to: Expression,
    pub level: Option<Expression>,
    pub status: Option<Expression>,
}

#[derive(Clone, Copy, PartialEq, Eq, Debug)]
pub enum CauseKind {
    SystemCall,
    Alarm,
    Interrupt,
    Cause,
}

impl CauseKind {
    /// The cause of a number of this kind, if it is one.
    pub fn cause(self, number: u32) -> Option<u32> {
        match self {
            CauseKind::SystemCall | CauseKind::Cause => (number <= 31).then_some(number),
            CauseKind::Alarm => words::cause_of_alarm(number),
            CauseKind::Interrupt => (1..=15).contains(&number).then(|| 16 + number),
        }
    }

    /// The numbers of this kind, in words.
    pub fn numbers(self) -> &'static str {
        match self {
            CauseKind::SystemCall | CauseKind::Cause => "a cause from 0 to 31",
            CauseKind::Alarm => "an alarm from 8 to 15, or 21",
            CauseKind::Interrupt => "a level from 1 to 15",
        }
    }
}

/// A field of a control block.
#[derive(Clone, PartialEq, Eq, Debug)]
pub struct Field {
    pub name: FieldName,
    pub value: Expression,
    pub column: usize,
}

#[derive(Clone, Copy, PartialEq, Eq, Debug)]
pub enum FieldName {
    Register(u8),
    Status,
    Level,
    Argument,
    Map,
    Length,
}

/// A line of a map: one page, or a row of pages on a row of frames.
#[derive(Clone, PartialEq, Eq, Debug)]
pub struct Page {
    pub line: usize,
    pub first: Expression,
    pub last: Option<Expression>,
    pub content: PageContent,
}

#[derive(Clone, PartialEq, Eq, Debug)]
pub enum PageContent {
    Frame { frame: Frame, rights: Rights },
    Absent(Option<Frame>),
    Word(Expression),
}

#[derive(Clone, PartialEq, Eq, Debug)]
pub enum Frame {
    Number(Expression),
    /// The frame that holds this place.
    Of(Expression),
}

#[derive(Clone, PartialEq, Eq, Debug)]
pub enum Kind {
    Segment {
        address: Option<Expression>,
        at: Option<Expression>,
    },
    Command {
        command: &'static Command,
        operands: Vec<Written>,
    },
    Data(Vec<Datum>),
    Reserve(Expression),
    Align(Expression),
    SystemBlock(Vec<Entry>),
    ControlBlock(Vec<Field>),
    Map {
        length: Option<Expression>,
        pages: Vec<Page>,
    },
    Start(Expression),
    Memory(Expression),
    /// Labels alone.
    Nothing,
}

#[derive(Clone, PartialEq, Eq, Debug)]
pub struct Label {
    pub name: String,
    pub line: usize,
    pub column: usize,
}

#[derive(Clone, PartialEq, Eq, Debug)]
pub struct Statement {
    pub line: usize,
    pub column: usize,
    pub labels: Vec<Label>,
    pub kind: Kind,
}
