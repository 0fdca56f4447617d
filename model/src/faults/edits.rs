//! The edits in `faults/`, and the sources that they are made on.
//!
//! Lines of a file, with blank lines and lines that begin with `#` between
//! them as one likes:
//!
//!   NAME: what the copy does wrongly
//!   file: a source of the model
//!   old: text inside one line of that file, which stands there exactly once
//!   new: what stands there in the copy instead
//!
//! A name may have several such triples; `file:` is left out where it is the
//! same. Text begins after one space and ends with the line.

use std::collections::BTreeMap;
use std::path::{Path, PathBuf};

#[derive(Clone, PartialEq, Eq, Debug)]
pub struct Edit {
    pub file: String,
    pub old: String,
    pub new: String,
}

#[derive(Clone, PartialEq, Eq, Debug)]
pub struct Fault {
    pub name: String,
    pub text: String,
    pub edits: Vec<Edit>,
}

/// Sources by their name without folder and ending.
pub type Sources = BTreeMap<String, String>;

/// The modules that make up the desk, and that a copy may have in its own form.
/// `state` isn't among them: its types are those of the stored cases.
pub const MODULES: [&str; 14] = [
    "arith",
    "breakpoints",
    "checks",
    "code",
    "commands",
    "desk",
    "entry",
    "floats",
    "joint",
    "load",
    "map",
    "notes",
    "operand",
    "work",
];

/// The model's folder.
pub fn folder() -> PathBuf {
    PathBuf::from(env!("CARGO_MANIFEST_DIR"))
}

fn text_of(path: &Path) -> Result<String, String> {
    std::fs::read_to_string(path).map_err(|error| format!("{}: {error}", path.display()))
}

/// The model's own sources.
pub fn sources() -> Result<Sources, String> {
    let read = |name: &str| Ok((name.to_string(), text_of(&folder().join(format!("src/{name}.rs")))?));
    MODULES.iter().map(|name| read(name)).collect()
}

/// The number that a file's name begins with.
fn number(path: &Path) -> Option<u32> {
    path.file_name()?.to_str()?.split('-').next()?.parse().ok()
}

/// All faults, in the order of the files' numbers.
pub fn faults() -> Result<Vec<Fault>, String> {
    let listed = std::fs::read_dir(folder().join("faults")).map_err(|error| format!("faults/: {error}"))?;
    let mut paths: Vec<PathBuf> = listed.filter_map(|entry| Some(entry.ok()?.path())).collect();
    paths.sort_by_key(|path| (number(path), path.clone()));
    let mut all = Vec::new();
    for path in paths {
        let name = path.file_name().unwrap_or_default().to_string_lossy().into_owned();
        all.extend(parse(&text_of(&path)?).map_err(|why| format!("faults/{name}: {why}"))?);
    }
    Ok(all)
}

/// The faults of one file.
pub fn parse(text: &str) -> Result<Vec<Fault>, String> {
    let mut faults: Vec<Fault> = Vec::new();
    let (mut file, mut old) = (None, None);
    for (i, line) in text.lines().enumerate() {
        let wrong = |why: &str| format!("line {}: {why}", i + 1);
        if line.trim().is_empty() || line.starts_with('#') {
            continue;
        }
        let (key, value) = line.split_once(':').ok_or_else(|| wrong("no `KEY: text`"))?;
        let value = value.strip_prefix(' ').unwrap_or(value).to_string();
        if old.is_some() != (key == "new") {
            return Err(wrong("`old:` and `new:` stand in pairs"));
        }
        match key {
            "file" => file = Some(value),
            "old" => old = Some(value),
            "new" => {
                let fault = faults.last_mut().ok_or_else(|| wrong("an edit without a name"))?;
                let file = file.clone().ok_or_else(|| wrong("an edit without a file"))?;
                fault.edits.push(Edit { file, old: old.take().unwrap_or_default(), new: value });
            }
            _ => {
                file = None;
                faults.push(Fault { name: key.to_string(), text: value, edits: Vec::new() });
            }
        }
    }
    match old {
        Some(_) => Err("`old:` without `new:` at the end".to_string()),
        None => Ok(faults),
    }
}

impl Fault {
    /// The sources that the edits change, in their new form.
    pub fn apply(&self, sources: &Sources) -> Result<Sources, String> {
        let mut changed = Sources::new();
        for Edit { file, old, new } in &self.edits {
            let known = file.strip_prefix("src/").and_then(|name| name.strip_suffix(".rs"));
            let source = known.and_then(|name| changed.get(name).or(sources.get(name)));
            let (Some(name), Some(source)) = (known, source) else {
                return Err(format!("{}: {file} is no source of the desk", self.name));
            };
            let times = source.matches(old.as_str()).count();
            if old.is_empty() || times != 1 {
                return Err(format!("{}: this text stands {times} times in {file}, not once: {old}", self.name));
            }
            changed.insert(name.to_string(), source.replacen(old, new, 1));
        }
        if changed.iter().all(|(name, text)| sources[name] == *text) {
            return Err(format!("{}: it changes nothing", self.name));
        }
        Ok(changed)
    }
}

/// Every fault with its changed sources, or all that is wrong with the faults, line by line.
pub fn applied() -> Result<Vec<(Fault, Sources)>, String> {
    let sources = sources()?;
    let mut all: Vec<(Fault, Sources)> = Vec::new();
    let mut wrong = Vec::new();
    for fault in faults()? {
        let changed = fault.apply(&sources).unwrap_or_else(|why| {
            wrong.push(why);
            Sources::new()
        });
        let letters = |name: &str| name.chars().all(|c| c.is_ascii_alphanumeric());
        if !letters(&fault.name) || fault.text.is_empty() {
            wrong.push(format!("{}: a name has letters and digits, and says what it does", fault.name));
        }
        for (other, its) in &all {
            if other.name == fault.name || other.text == fault.text || its == &changed && !its.is_empty() {
                wrong.push(format!("{}: the same name, text or copy as {}", fault.name, other.name));
            }
        }
        all.push((fault, changed));
    }
    if wrong.is_empty() {
        Ok(all)
    } else {
        Err(wrong.join("\n"))
    }
}
