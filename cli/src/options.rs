//! The options of a verb, read by the table in `verbs.rs`, with a sentence for all that does not fit it.

use crate::names::Names;
use crate::verbs::{self, Opt, Verb};
use crate::{help, notation, output};

/// What a verb was given: its operands, and its options in the order in which they stood.
#[derive(Clone, PartialEq, Eq, Debug, Default)]
pub struct Given {
    pub operands: Vec<String>,
    options: Vec<(&'static str, String)>,
}

/// What the arguments ask for.
#[derive(Clone, PartialEq, Eq, Debug)]
pub enum Asked {
    Help,
    Do(Given),
}

/// The arguments of a verb; where there is nothing to do with them, the exit status: 0 after its help, 64 after a sentence.
pub fn take(name: &str, arguments: &[String]) -> Result<Given, u8> {
    let Some(verb) = verbs::verb(name) else { return Err(output::USAGE) };
    match read(verb, arguments) {
        Ok(Asked::Do(given)) => Ok(given),
        Ok(Asked::Help) => match output::out(&help::of_verb(verb)) {
            true => Err(0),
            false => Err(output::CANNOT_WRITE),
        },
        Err(sentence) => Err(usage(name, &sentence)),
    }
}

/// Says what is wrong with the arguments of a verb, and gives the status of that.
pub fn usage(verb: &str, sentence: &str) -> u8 {
    let end = if sentence.ends_with('?') { "" } else { ";" };
    output::err(&format!("desk {verb}: {sentence}{end} `desk help {verb}` tells more\n"));
    output::USAGE
}

/// Reads arguments by the table.
pub fn read(verb: &'static Verb, arguments: &[String]) -> Result<Asked, String> {
    let mut given = Given::default();
    let mut rest = arguments.iter();
    let mut options_over = false;
    while let Some(argument) = rest.next() {
        if options_over || !argument.starts_with('-') || argument == "-" {
            given.operands.push(argument.clone());
        } else if argument == "--" {
            options_over = true;
        } else if argument == "--help" || argument == "-h" {
            return Ok(Asked::Help);
        } else {
            given.option(verb, argument, &mut rest)?;
        }
    }
    given.count_operands(verb)?;
    Ok(Asked::Do(given))
}

impl Given {
    fn option<'a>(
        &mut self,
        verb: &'static Verb,
        argument: &str,
        rest: &mut impl Iterator<Item = &'a String>,
    ) -> Result<(), String> {
        let (name, joined) = match argument.split_once('=') {
            Some((name, value)) => (name, Some(value.to_string())),
            None => (argument, None),
        };
        let option = find(verb, name)?;
        let value = match (option.value, joined) {
            (None, None) => String::new(),
            (None, Some(_)) => return Err(format!("{name} takes no value")),
            (Some(what), Some(value)) if value.is_empty() => return Err(format!("{name} needs a value, {what}")),
            (Some(_), Some(value)) => value,
            (Some(what), None) => rest.next().cloned().ok_or_else(|| format!("{name} needs a value, {what}"))?,
        };
        if !option.many && self.has(option.name) {
            return Err(format!("{} is given twice", option.name));
        }
        self.options.push((option.name, value));
        Ok(())
    }

    fn count_operands(&self, verb: &Verb) -> Result<(), String> {
        let (least, most) = verb.count;
        match self.operands.get(most) {
            Some(extra) => Err(format!("'{}' is one argument too many", shown(extra))),
            None if self.operands.len() < least => Err(format!("it needs {}", verb.operands)),
            None => Ok(()),
        }
    }

    pub fn has(&self, name: &str) -> bool {
        self.options.iter().any(|(given, _)| *given == name)
    }

    pub fn value(&self, name: &str) -> Option<&str> {
        self.options.iter().find(|(given, _)| *given == name).map(|(_, value)| value.as_str())
    }

    pub fn values<'a>(&'a self, name: &'a str) -> impl Iterator<Item = &'a str> {
        self.options.iter().filter(move |(given, _)| *given == name).map(|(_, value)| value.as_str())
    }

    /// The value of an option that counts something.
    pub fn count(&self, name: &str) -> Result<Option<u64>, String> {
        self.value(name).map(|text| count(text).ok_or_else(|| no_number(name, text))).transpose()
    }

    /// The value of an option that is an address: a number, a name, or a name and a distance.
    pub fn address(&self, name: &str, names: &Names) -> Result<Option<u32>, String> {
        self.value(name).map(|text| address(text, names).ok_or_else(|| no_address(name, text, names))).transpose()
    }
}

fn no_number(name: &str, text: &str) -> String {
    format!("{name} needs a number such as 1000 or 3E8h, and '{}' is none", shown(text))
}

fn no_address(name: &str, text: &str, names: &Names) -> String {
    let examples = examples(text, names.iter());
    format!("{name} needs an address, and '{}' is none: {examples}", shown(text))
}

/// What an address can be, with a name of this file: for a sentence about a text that is none.
pub fn examples<'a>(text: &str, mut names: impl Iterator<Item = (&'a str, u32)>) -> String {
    let hexadecimal = !text.is_empty() && text.chars().all(|letter| letter.is_ascii_hexdigit());
    if hexadecimal && notation::number(text).is_none() {
        return format!("a hexadecimal number is written with h, {}h", shown(text));
    }
    match names.find(|(name, _)| !name.contains('.')) {
        Some((name, _)) => format!("one is a number such as 410h or a name of the file such as {name}"),
        None => "one is a number such as 410h; the file has no names".to_string(),
    }
}

/// A count: a number without a sign, of 64 bits, also with commas as `desk` writes it: 1,000.
pub fn count(text: &str) -> Option<u64> {
    if let Some((first, rest)) = text.split_once(',') {
        let groups = rest.split(',').all(|group| group.len() == 3 && group.bytes().all(|b| b.is_ascii_digit()));
        let fits = groups && (1..=3).contains(&first.len()) && first.bytes().all(|b| b.is_ascii_digit());
        return fits.then(|| text.replace(',', "").parse().ok()).flatten();
    }
    let plain = text.bytes().all(|b| b.is_ascii_digit()).then(|| text.parse().ok()).flatten();
    match text.starts_with('-') {
        true => None,
        false => plain.or_else(|| notation::number(text).map(u64::from)),
    }
}

/// An address: `NAME`, `410h`, `NAME+4`. A name goes before a number that looks the same.
pub fn address(text: &str, names: &Names) -> Option<u32> {
    let single = |text: &str| names.address_of(text).or_else(|| notation::number(text));
    if let Some(address) = single(text) {
        return Some(address);
    }
    let (base, distance) = text.split_once('+')?;
    Some(single(base)?.wrapping_add(notation::number(distance)?))
}

/// Text of somebody else's, short and without control characters, for a message.
pub fn shown(text: &str) -> String {
    let short = clean(&text.chars().take(40).collect::<String>());
    match text.chars().nth(40) {
        Some(_) => format!("{short}.."),
        None => short,
    }
}

/// Text without control characters.
pub fn clean(text: &str) -> String {
    text.chars().map(|letter| if letter.is_control() { '?' } else { letter }).collect()
}

fn find(verb: &'static Verb, name: &str) -> Result<&'static Opt, String> {
    let known = |option: &&Opt| option.name == name || option.short == Some(name);
    verb.options.iter().find(known).ok_or_else(|| {
        let names = verb.options.iter().map(|option| option.name);
        match nearest(name, names) {
            Some(meant) => format!("there is no option '{}'; did you mean {meant}?", shown(name)),
            None => format!("there is no option '{}'", shown(name)),
        }
    })
}

/// The one of some words that a mistyped one is nearest to, if it is near.
pub fn nearest<'a>(typed: &str, words: impl Iterator<Item = &'a str>) -> Option<&'a str> {
    let typed: Vec<char> = typed.chars().take(40).collect();
    let far = words.map(|word| (distance(&typed, word), word)).min()?;
    (far.0 <= 2 && 2 * far.0 <= typed.len()).then_some(far.1)
}

/// How many letters must be put in, left out or changed.
fn distance(from: &[char], to: &str) -> usize {
    let mut row: Vec<usize> = (0..=from.len()).collect();
    for (i, letter) in to.chars().enumerate() {
        let mut before = i;
        let mut left = i + 1;
        for (other, cell) in from.iter().zip(row.iter_mut().skip(1)) {
            let change = before + usize::from(*other != letter);
            before = *cell;
            left = change.min(*cell + 1).min(left + 1);
            *cell = left;
        }
        if let Some(first) = row.first_mut() {
            *first = i + 1;
        }
    }
    row.last().copied().unwrap_or(0)
}

#[cfg(test)]
mod tests {
    use super::*;

    fn words(text: &str) -> Vec<String> {
        text.split(' ').map(str::to_string).collect()
    }

    fn run(text: &str) -> Result<Asked, String> {
        read(verbs::verb("run").unwrap(), &words(text))
    }

    fn given(text: &str) -> Given {
        match run(text) {
            Ok(Asked::Do(given)) => given,
            other => panic!("{other:?}"),
        }
    }

    #[test]
    fn options_and_operands_in_any_order() {
        let given = given("--steps 20 a.mi --request 5@20 --request=6@7 --trace");
        assert_eq!(given.operands, ["a.mi"]);
        assert_eq!(given.count("--steps"), Ok(Some(20)));
        assert_eq!(given.values("--request").collect::<Vec<_>>(), ["5@20", "6@7"]);
        assert!(given.has("--trace") && !given.has("--json"));
    }

    #[test]
    fn what_does_not_fit_is_said() {
        let sentence = |text| run(text).unwrap_err();
        assert_eq!(sentence("a --stpes 3"), "there is no option '--stpes'; did you mean --steps?");
        assert_eq!(sentence("a --xyzzy"), "there is no option '--xyzzy'");
        assert_eq!(sentence("a --steps"), "--steps needs a value, N");
        assert_eq!(sentence("a --trace=3"), "--trace takes no value");
        assert_eq!(sentence("a --steps 1 --steps 2"), "--steps is given twice");
        assert_eq!(sentence("a b"), "'b' is one argument too many");
        assert_eq!(sentence("--trace"), "it needs FILE");
    }

    #[test]
    fn counts_and_addresses() {
        assert_eq!(count("5000000000"), Some(5_000_000_000));
        assert_eq!(count("10h"), Some(16));
        assert_eq!(count("1,000,000"), Some(1_000_000));
        for wrong in ["-1", "1,00", "1,0000", ",000", "1000,000", "1,", "10h,000"] {
            assert_eq!(count(wrong), None, "{wrong}");
        }
        assert_eq!(count("ten"), None);
        let mut names = Names::none();
        names.add("block", 0x100);
        names.add("ADDh", 1);
        assert_eq!(address("block", &names), Some(0x100));
        assert_eq!(address("block+4", &names), Some(0x104));
        assert_eq!(address("ADDh", &names), Some(1));
        assert_eq!(address("410h", &names), Some(0x410));
        assert_eq!(address("nowhere", &names), None);
    }

    #[test]
    fn help_goes_first() {
        assert_eq!(run("--help"), Ok(Asked::Help));
        assert_eq!(run("a --steps 1 -h"), Ok(Asked::Help));
    }
}
