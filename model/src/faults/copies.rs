//! Builds the wrong copies and plays the stored cases on them.
//!
//! A copy is a module of its own with the sources that its edits change and
//! those that use them; all others are the model's. Many copies make up one
//! program, so that there are few to build.

use super::edits::{folder, Fault, Sources, MODULES};
use super::Tally;
use std::collections::BTreeMap;
use std::path::{Path, PathBuf};
use std::process::Command;
use std::sync::Mutex;

/// Copies in one program.
const TOGETHER: usize = 16;

/// Whether a source names one of these modules.
fn uses(source: &str, modules: &Sources) -> bool {
    let named = |rest: &str| modules.keys().any(|name| rest.starts_with(name.as_str()));
    source.split("crate::").skip(1).any(named)
}

/// The sources of a copy: the changed ones and all that use them.
fn copy_of(sources: &Sources, changed: &Sources) -> Sources {
    let mut copy = changed.clone();
    loop {
        let more = sources.iter().filter(|(name, source)| !copy.contains_key(*name) && uses(source, &copy));
        let more: Vec<(String, String)> = more.map(|(name, source)| (name.clone(), source.clone())).collect();
        if more.is_empty() {
            return copy;
        }
        copy.extend(more);
    }
}

/// Writes a file unless it has that text already, so that only what changed is built anew.
fn write(path: &Path, text: &str) -> Result<(), String> {
    if std::fs::read_to_string(path).is_ok_and(|old| old == text) {
        return Ok(());
    }
    let made = path.parent().map_or(Ok(()), std::fs::create_dir_all);
    made.and_then(|()| std::fs::write(path, text)).map_err(|error| format!("{}: {error}", path.display()))
}

/// Writes one program with some copies.
fn program(folder: &Path, name: &str, sources: &Sources, faults: &[(Fault, Sources)]) -> Result<(), String> {
    let mut modules = String::new();
    let mut list = String::new();
    for (Fault { name: fault, .. }, changed) in faults {
        let copy = copy_of(sources, changed);
        for (module, source) in &copy {
            let text = source.replace("crate::", &format!("crate::{fault}::"));
            write(&folder.join(fault).join(format!("{module}.rs")), &text)?;
        }
        modules += &format!("mod {fault} {{\n    pub use model::state;\n");
        for module in MODULES {
            let kind = if copy.contains_key(module) { "mod " } else { "use model::" };
            modules += &format!("    pub {kind}{module};\n");
        }
        modules += "}\n";
        let call = |call| format!("{call}: {fault}::desk::{call}");
        let calls = ["fresh", "step", "run", "request"].map(call).join(", ");
        let calls = format!("{calls}, load: {fault}::load::load, load_both: {fault}::joint::load_both");
        let calls = format!("{calls}, run_to: {fault}::breakpoints::run_to");
        list += &format!("        (\"{fault}\", model::case::Desk {{ {calls} }}),\n");
    }
    let main = format!("fn main() {{\n    model::faults::play(&[\n{list}    ]);\n}}\n");
    write(&folder.join(format!("{name}.rs")), &format!("#![allow(warnings)]\n\n{modules}\n{main}"))
}

/// Writes the package of all copies; gives the programs' names.
fn package(at: &Path, sources: &Sources, faults: &[(Fault, Sources)]) -> Result<Vec<String>, String> {
    let mut manifest = format!(
        "[package]\nname = \"wrong\"\nversion = \"0.1.0\"\nedition = \"2021\"\n\n[workspace]\n\n\
         [dependencies]\nmodel = {{ path = {:?} }}\n\n\
         [profile.release]\nopt-level = 0\ncodegen-units = 1\noverflow-checks = true\ndebug-assertions = true\n\n\
         [profile.release.package.model]\nopt-level = 2\n",
        folder()
    );
    let mut names = Vec::new();
    for (i, some) in faults.chunks(TOGETHER).enumerate() {
        let name = format!("wrong{i}");
        program(at, &name, sources, some)?;
        manifest += &format!("\n[[bin]]\nname = \"{name}\"\npath = \"{name}.rs\"\n");
        names.push(name);
    }
    write(&at.join("Cargo.toml"), &manifest)?;
    Ok(names)
}

/// Builds the copies in a folder; gives the programs.
fn build(at: &Path, sources: &Sources, faults: &[(Fault, Sources)]) -> Result<Vec<PathBuf>, String> {
    let names = package(at, sources, faults)?;
    let mut cargo = Command::new(std::env::var_os("CARGO").unwrap_or("cargo".into()));
    let target = at.join("target");
    cargo.args(["build", "--offline", "--release", "--quiet", "--target-dir"]).arg(&target).current_dir(at);
    let status = cargo.status().map_err(|error| format!("cargo: {error}"))?;
    if !status.success() {
        return Err("a copy doesn't build; the folder in the message has the name of its edit".to_string());
    }
    Ok(names.iter().map(|name| target.join("release").join(name)).collect())
}

/// Runs a program of copies.
fn run(program: &Path, cases: &Path) -> Result<Vec<(String, Tally)>, String> {
    let answer =
        Command::new(program).arg(cases).output().map_err(|error| format!("{}: {error}", program.display()))?;
    if !answer.status.success() {
        return Err(format!("{} ended with {}", program.display(), answer.status));
    }
    let line = |line: &str| {
        let mut words = line.split(' ');
        let name = words.next()?.to_string();
        Some((name, Tally { cases: words.next()?.parse().ok()?, panics: words.next()?.parse().ok()? }))
    };
    Ok(String::from_utf8_lossy(&answer.stdout).lines().filter_map(line).collect())
}

/// Builds all copies and plays the cases on them, by name.
pub fn tell(sources: &Sources, faults: &[(Fault, Sources)], cases: &Path) -> Result<BTreeMap<String, Tally>, String> {
    let cases = std::fs::canonicalize(cases).map_err(|error| format!("{}: {error}", cases.display()))?;
    let left = Mutex::new(build(&folder().join("target/faults"), sources, faults)?);
    let answers = Mutex::new(Vec::new());
    std::thread::scope(|scope| {
        for _ in 0..std::thread::available_parallelism().map_or(1, usize::from) {
            scope.spawn(|| loop {
                let Some(program) = left.lock().unwrap().pop() else { return };
                let answer = run(&program, &cases);
                answers.lock().unwrap().push(answer);
            });
        }
    });
    let answers: Result<Vec<_>, String> = answers.into_inner().unwrap().into_iter().collect();
    Ok(answers?.into_iter().flatten().collect())
}
