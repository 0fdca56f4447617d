//! `desk help`, `desk help VERB` and the man page: the table in `verbs.rs` as plain lines and as roff.

use crate::topics::{self, Topic, TOPICS};
use crate::verbs::{self, Opt, Text, Verb, VERBS};
use crate::{options, output, words};

const WIDTH: usize = 80;
const PURPOSE: &str = "the MI desk at the command line";
const INTRODUCTION: &str = "desk runs, lists, assembles and shows programs for the MI desk, a small computer whose every function is proved. It stands over the proved library; what it does itself is tested.";

/// `desk help [VERB] [--man]`.
pub fn main(arguments: &[String]) -> u8 {
    let given = match options::take("help", arguments) {
        Ok(given) => given,
        Err(status) => return status,
    };
    let text = match given.operands.first() {
        _ if given.has("--man") => man_page(),
        _ if given.has("--version") => version(),
        None => overview(),
        Some(name) => match (verbs::verb(name), topics::topic(name)) {
            (Some(verb), _) => of_verb(verb),
            (None, Some(topic)) => joined(of_topic(topic)),
            (None, None) => return options::usage("help", &unknown(name)),
        },
    };
    match output::out(&text) {
        true => 0,
        false => output::CANNOT_WRITE,
    }
}

/// The versions of the command and of the library.
fn version() -> String {
    let [_, major, minor, patch] = midesk::version().to_be_bytes();
    format!("desk {}, over libmidesk {major}.{minor}.{patch}\n", env!("CARGO_PKG_VERSION"))
}

/// The sentence for a verb that there is not.
pub fn unknown(name: &str) -> String {
    let names: Vec<&str> = VERBS.iter().map(|verb| verb.name).collect();
    let topics: Vec<&str> = TOPICS.iter().map(|topic| topic.name).collect();
    let (verbs, topics) = (names.join(", "), topics.join(", "));
    format!("there is no verb '{}'; the verbs are {verbs}, and help also knows {topics}", options::shown(name))
}

/// `desk help`.
pub fn overview() -> String {
    let mut lines = vec![format!("desk: {PURPOSE}"), String::new()];
    let width = VERBS.iter().map(|verb| synopsis(verb).len()).max().unwrap_or(0);
    lines.extend(VERBS.iter().flat_map(|verb| row(&synopsis(verb), verb.summary, width)));
    lines.push(String::new());
    let more = "`desk help VERB` tells a verb's options, `desk help stops` what the numbers of stops and alarms mean, `desk help memory` what pages, maps and blocks are, `desk help --man` writes the man page.";
    lines.extend(wrapped(more, 0));
    for topic in TOPICS.iter().filter(|topic| topic.in_overview) {
        lines.push(String::new());
        lines.extend(of_topic(topic));
    }
    joined(lines)
}

/// `desk help TOPIC`.
fn of_topic(topic: &Topic) -> Vec<String> {
    let mut lines = vec![topic.title.to_string()];
    lines.extend(plain(topic.text));
    lines
}

/// `desk help VERB`.
pub fn of_verb(verb: &Verb) -> String {
    let options = if verb.options.is_empty() { "" } else { " [OPTION].." };
    let mut lines = vec![format!("usage: desk {} {}{options}", verb.name, verb.operands), String::new()];
    lines.extend(wrapped(&format!("desk {} {}.", verb.name, verb.summary), 0));
    if !verb.options.is_empty() {
        lines.push(String::new());
        let width = verb.options.iter().map(|option| written(option).len()).max().unwrap_or(0);
        lines.extend(verb.options.iter().flat_map(|option| row(&written(option), option.text, width)));
    }
    if !verb.text.is_empty() {
        lines.push(String::new());
        lines.extend(plain(verb.text));
    }
    joined(lines)
}

fn synopsis(verb: &Verb) -> String {
    format!("desk {} {}", verb.name, verb.operands)
}

fn written(option: &Opt) -> String {
    let name = match option.short {
        Some(short) => format!("{short}, {}", option.name),
        None => option.name.to_string(),
    };
    match option.value {
        Some(value) => format!("{name} {value}"),
        None => name,
    }
}

fn joined(lines: Vec<String>) -> String {
    lines.iter().map(|line| format!("{}\n", line.trim_end())).collect()
}

/// Pieces of help, with an empty line between two of them.
fn plain(text: &[Text]) -> Vec<String> {
    let mut lines = Vec::new();
    for (place, piece) in text.iter().enumerate() {
        if place > 0 && !matches!(piece, Text::Table(_)) {
            lines.push(String::new());
        }
        match piece {
            Text::Say(words) => lines.extend(wrapped(words, 2)),
            Text::Show(rows) => lines.extend(rows.lines().map(|row| format!("    {row}"))),
            Text::Table(rows) => {
                let width = rows.iter().map(|(name, _)| name.len()).max().unwrap_or(0);
                lines.extend(rows.iter().flat_map(|(name, meaning)| row(name, meaning, width)));
            }
        }
    }
    lines
}

/// A word and what it means, in two columns.
pub fn row(name: &str, meaning: &str, width: usize) -> Vec<String> {
    let width = width.min(26);
    let indent = width + 4;
    let mut lines = wrapped(meaning, indent);
    if name.len() > width {
        lines.insert(0, format!("  {name}"));
    } else if let Some(first) = lines.first_mut() {
        *first = format!("  {name:width$}  {}", first.trim_start());
    }
    lines
}

fn wrapped(words: &str, indent: usize) -> Vec<String> {
    words::wrapped(words, WIDTH, indent, indent)
}

/// The man page, section 1.
pub fn man_page() -> String {
    let mut roff = vec![
        ".TH DESK 1 \"\" \"The MI desk\" \"The MI desk\"".to_string(),
        ".SH NAME".to_string(),
        format!("desk \\- {}", escaped(PURPOSE)),
        ".SH SYNOPSIS".to_string(),
        ".nf".to_string(),
    ];
    roff.extend(VERBS.iter().map(man_synopsis));
    roff.extend([".fi".to_string(), ".SH DESCRIPTION".to_string(), escaped(INTRODUCTION)]);
    roff.extend(VERBS.iter().flat_map(man_verb));
    for topic in TOPICS {
        roff.push(format!(".SH {}", topic.title));
        roff.extend(man_text(topic.text));
    }
    joined(roff)
}

fn man_synopsis(verb: &Verb) -> String {
    let options = if verb.options.is_empty() { "" } else { " [\\fIOPTION\\fR].." };
    format!("\\fBdesk {}\\fR \\fI{}\\fR{options}", verb.name, escaped(verb.operands))
}

fn man_verb(verb: &Verb) -> Vec<String> {
    let mut roff = vec![format!(".SS desk {}", escaped(&format!("{} {}", verb.name, verb.operands)))];
    let mut summary = escaped(verb.summary);
    if let Some(first) = summary.get(..1).map(str::to_uppercase) {
        summary.replace_range(..1, &first);
    }
    roff.push(format!("{summary}."));
    for option in verb.options {
        roff.extend([".TP".to_string(), format!("\\fB{}\\fR", escaped(&written(option))), escaped(option.text)]);
    }
    if !verb.text.is_empty() {
        roff.push(".PP".to_string());
        roff.extend(man_text(verb.text));
    }
    roff
}

fn man_text(text: &[Text]) -> Vec<String> {
    let mut roff = Vec::new();
    for (place, piece) in text.iter().enumerate() {
        match piece {
            Text::Say(words) => {
                roff.extend((place > 0).then(|| ".PP".to_string()));
                roff.push(escaped(words));
            }
            Text::Show(rows) => {
                roff.extend([".PP".to_string(), ".nf".to_string(), ".RS".to_string()]);
                roff.extend(rows.lines().map(escaped));
                roff.extend([".RE".to_string(), ".fi".to_string()]);
            }
            Text::Table(rows) => {
                for (name, meaning) in *rows {
                    roff.extend([".TP".to_string(), format!("\\fB{}\\fR", escaped(name)), escaped(meaning)]);
                }
            }
        }
    }
    roff
}

/// Text for roff: backslashes and hyphens as they are, no line that looks like a request.
fn escaped(text: &str) -> String {
    let text = text.replace('\\', "\\e").replace('-', "\\-").replace('`', "\\(ga").replace('\'', "\\(aq");
    match text.starts_with(['.', '\'']) {
        true => format!("\\&{text}"),
        false => text,
    }
}

#[cfg(test)]
mod tests {
    use super::*;

    #[test]
    fn every_verb_and_option_is_in_help_and_man_page() {
        let (overview, man) = (overview(), man_page());
        for verb in VERBS {
            assert!(overview.contains(&synopsis(verb)) && man.contains(&format!("desk {}", verb.name)));
            for option in verb.options {
                assert!(of_verb(verb).contains(option.name), "{}", option.name);
                assert!(man.contains(&escaped(option.name)), "{}", option.name);
            }
        }
    }

    #[test]
    fn lines_fit() {
        let topics = TOPICS.iter().map(|topic| joined(of_topic(topic)));
        let all = VERBS.iter().map(of_verb).chain(topics).chain([overview()]);
        for text in all {
            for line in text.lines() {
                assert!(line.chars().count() <= WIDTH, "{line}");
            }
        }
    }

    #[test]
    fn no_roff_line_starts_with_a_stray_request() {
        let known = [".TH", ".SH", ".SS", ".TP", ".PP", ".nf", ".fi", ".RS", ".RE"];
        for line in man_page().lines() {
            assert!(!line.starts_with('\''), "{line}");
            assert!(!line.starts_with('.') || known.iter().any(|request| line.starts_with(request)), "{line}");
        }
    }
}
