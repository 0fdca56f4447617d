//! The names of a source and what sums of them are.

use super::cursor;
use super::errors::{fault, Fault};
use super::lexer::shown;
use super::syntax::{Expression, Item};
use crate::{lists, notation, options};
use std::cell::RefCell;
use std::collections::{BTreeMap, BTreeSet};

/// Labels that an unknown name is compared with.
const MOST_COMPARED: usize = 500;

/// Where a name stands.
#[derive(Clone, Copy, PartialEq, Eq, Debug)]
pub struct Place {
    pub segment: usize,
    /// As the segment counts: virtual if it has AT, else real.
    pub address: u32,
    pub real: u32,
    pub is_virtual: bool,
    pub line: usize,
    /// Of the label.
    pub column: usize,
    /// The length of the map that stands there, if one does.
    pub map_length: Option<u32>,
}

/// What a sum is: a number, or an address where one name more is added than taken away.
#[derive(Clone, Copy, PartialEq, Eq, Debug)]
pub struct Value {
    pub number: i64,
    pub place: Option<Place>,
    pub column: usize,
}

#[derive(Default)]
pub struct Symbols {
    /// For each name the places with it, at most one in a segment.
    places: BTreeMap<String, Vec<Place>>,
    /// The same in the order of the source.
    order: Vec<(String, Place)>,
    /// All labels of the source, also those that have no place yet.
    labels: BTreeSet<String>,
    /// The names of the segments.
    segments: BTreeMap<String, Vec<usize>>,
    /// The name of each segment, as it is told in a message.
    titles: BTreeMap<usize, String>,
    /// Names that were used where it is not known which of several places they mean.
    ambiguous: RefCell<BTreeSet<String>>,
}

impl Symbols {
    /// The place that has the name already, in the same segment, or nothing.
    pub fn add(&mut self, name: &str, place: Place) -> Option<Place> {
        let places = self.places.entry(name.to_string()).or_default();
        let before = places.iter().find(|other| other.segment == place.segment).copied();
        if before.is_none() {
            places.push(place);
            self.order.push((name.to_string(), place));
        }
        before
    }

    pub fn announce(&mut self, label: &str) {
        self.labels.insert(label.to_string());
    }

    /// Whether a word is a name; FFFh is a number only where no label is called so.
    pub fn is_name(&self, word: &str) -> bool {
        self.labels.contains(word) || notation::long(word).is_none()
    }

    pub fn add_segment(&mut self, name: &str, segment: usize) {
        self.segments.entry(name.to_string()).or_default().push(segment);
        self.titles.entry(segment).or_insert_with(|| name.to_string());
    }

    /// In the order of the source.
    pub fn iter(&self) -> impl Iterator<Item = (&str, &Place)> {
        self.order.iter().map(|(name, place)| (name.as_str(), place))
    }

    /// A name: first in its own segment, then in the others, where one alone may have it.
    fn find(&self, name: &str, segment: usize, column: usize) -> Result<Option<Place>, Fault> {
        let Some(places) = self.places.get(name) else { return self.find_qualified(name, column) };
        if let Some(place) = places.iter().find(|place| place.segment == segment) {
            return Ok(Some(*place));
        }
        match places.as_slice() {
            [place] => Ok(Some(*place)),
            _ => {
                self.ambiguous.borrow_mut().insert(name.to_string());
                fault(column, format!("'{}' is in several segments: {}", shown(name), self.choices(name, places)))
            }
        }
    }

    /// A fault at each further definition of the names that were used and not told apart.
    pub fn given_twice(&self) -> Vec<(usize, Fault)> {
        let mut found = Vec::new();
        for name in self.ambiguous.borrow().iter() {
            let places = self.places.get(name).map_or(&[][..], Vec::as_slice);
            let Some((first, further)) = places.split_first() else { continue };
            for place in further {
                let (name, before) = (shown(name), first.line);
                let sentence = format!("'{name}' is given twice: line {before} has it already, in another segment");
                found.push((place.line, Fault { column: place.column, sentence }));
            }
        }
        found
    }

    fn choices(&self, name: &str, places: &[Place]) -> String {
        let titles = places.iter().filter_map(|place| self.titles.get(&place.segment));
        let written: Vec<String> = titles.map(|title| format!("{title}.{name}")).collect();
        match written.is_empty() {
            true => "give the segments names, and write segment.name".to_string(),
            false => format!("write {}", lists::or(&written)),
        }
    }

    /// `segment.name`.
    fn find_qualified(&self, name: &str, column: usize) -> Result<Option<Place>, Fault> {
        let Some((segment, rest)) = name.split_once('.') else { return Ok(None) };
        let segments = self.segments.get(segment).map_or(&[][..], Vec::as_slice);
        let places = self.places.get(rest).into_iter().flatten();
        let found: Vec<&Place> = places.filter(|place| segments.contains(&place.segment)).collect();
        match found.as_slice() {
            [] => Ok(None),
            [place] => Ok(Some(**place)),
            _ => fault(column, format!("several segments '{}' have '{}'", shown(segment), shown(rest))),
        }
    }

    pub fn value(&self, expression: &Expression, segment: usize) -> Result<Value, Fault> {
        let (mut number, mut names, mut place) = (0_i64, 0_i32, None);
        for term in &expression.terms {
            let (amount, found) = self.item(&term.item, segment, term.column)?;
            let sign = if term.minus { -1 } else { 1 };
            number = number.saturating_add(sign * i64::from(amount));
            if found.is_some() {
                names += sign as i32;
                if !term.minus {
                    place = found;
                }
            }
        }
        match names {
            0 => Ok(Value { number, place: None, column: expression.column }),
            1 => Ok(Value { number, place, column: expression.column }),
            _ => fault(
                expression.column,
                "expected a number or one address: names may be added once, or taken from one another",
            ),
        }
    }

    fn item(&self, item: &Item, segment: usize, column: usize) -> Result<(u32, Option<Place>), Fault> {
        let name = match item {
            Item::Number(number) => return Ok((*number, None)),
            Item::Name(name) => name,
            Item::Floating(_) | Item::Bits(_) => return fault(column, "a floating number is no part of a sum"),
        };
        if let Some(place) = self.find(name, segment, column)? {
            return Ok((place.address, Some(place)));
        }
        match notation::number(name) {
            Some(number) if !self.is_name(name) => Ok((number, None)),
            _ if self.labels.contains(name) => {
                fault(column, format!("'{}' is not known yet: expected a name that stands above", shown(name)))
            }
            _ => fault(column, self.no_name(name)),
        }
    }

    /// What is said of an unknown name. What it may mean is looked for only in sources of a common size.
    fn no_name(&self, name: &str) -> String {
        let capitals = name.to_ascii_uppercase();
        if cursor::register(&capitals).is_some() {
            return format!("there is no name '{name}'; the register is written {capitals}");
        }
        if capitals.strip_prefix('R').is_some_and(|rest| rest.parse::<u32>().is_ok()) {
            return format!("there is no register '{}': registers are R0 to R15", shown(name));
        }
        let few = self.labels.len() <= MOST_COMPARED;
        let labels = self.labels.iter().map(String::as_str).filter(|_| few);
        let meant = options::nearest(name, labels).filter(|_| name.len() > 2);
        let hint = meant.map_or(String::new(), |meant| format!("; did you mean {meant}?"));
        format!("there is no name '{}'{hint}", shown(name))
    }

    /// A sum as a word: from the lowest signed number to the highest unsigned one.
    pub fn word(&self, expression: &Expression, segment: usize) -> Result<u32, Fault> {
        self.value(expression, segment)?.fitting(32)
    }

    /// A sum between two numbers, for what the sentence calls it.
    pub fn between(
        &self,
        expression: &Expression,
        segment: usize,
        what: &str,
        from: u32,
        to: u32,
    ) -> Result<u32, Fault> {
        let value = self.value(expression, segment)?;
        match u32::try_from(value.number) {
            Ok(number) if (from..=to).contains(&number) => Ok(number),
            _ => fault(value.column, format!("expected {what} from {from} to {to}, found {}", value.number)),
        }
    }
}

impl Value {
    /// The real address, where it is an address.
    pub fn real(&self) -> Option<u32> {
        let place = self.place?;
        u32::try_from(i64::from(place.real) + self.number - i64::from(place.address)).ok()
    }

    /// The number in so many bits, signed or unsigned.
    pub fn fitting(&self, bits: u32) -> Result<u32, Fault> {
        let (lowest, highest) = (-(1_i64 << (bits - 1)), (1_i64 << bits) - 1);
        if !(lowest..=highest).contains(&self.number) {
            let bytes = bits / 8;
            let sentence = format!(
                "{} does not fit in {bytes} byte{}: expected {lowest} to {highest}",
                self.number,
                plural(bytes)
            );
            return fault(self.column, sentence);
        }
        Ok((self.number & highest) as u32)
    }
}

fn plural(count: u32) -> &'static str {
    if count == 1 {
        ""
    } else {
        "s"
    }
}
