//! Names in documents: what is in backquotes and looks like a name of the crates is one.

use crate::functions::functions;
use crate::tree::{Crate, File, Tree};
use crate::Report;
use std::collections::BTreeSet;

const DOCUMENTS: [&str; 3] = ["docs/DEFINITIONS.md", "docs/PROMISES.md", "docs/TRACE.md"];

pub fn check(tree: &Tree, report: &mut Report) {
    let known = known(tree);
    for document in tree.documents.iter().filter(|one| DOCUMENTS.contains(&one.path.as_str())) {
        for (number, line) in document.text.lines().enumerate() {
            let unknown =
                quoted(line).filter(|word| is_name(word)).filter(|word| !is_known(tree, &known, word));
            let faults: Vec<String> = unknown
                .map(|word| format!("{}:{}: {word} does not exist", document.path, number + 1))
                .collect();
            if !faults.is_empty() || line.contains('`') {
                report.test(faults);
            }
        }
    }
}

/// What stands between backquotes in a line.
fn quoted(line: &str) -> impl Iterator<Item = &str> {
    line.split('`').skip(1).step_by(2)
}

/// Letters, digits, and what joins them; not a word of the language or of an output, which is all upper case.
fn is_name(word: &str) -> bool {
    let joined = |letter: char| letter.is_ascii_alphanumeric() || "_:-./*{},".contains(letter);
    !word.is_empty() && word.chars().all(joined) && word.chars().any(|letter| letter.is_ascii_lowercase())
}

/// A path in the repository, or a path of names that all are known.
fn is_known(tree: &Tree, known: &BTreeSet<String>, word: &str) -> bool {
    if tree.root.join(word).exists() || tree.root.join("crates").join(word).exists() {
        return true;
    }
    if let Some((name, items)) = word.split_once("::") {
        if let Some(one) = tree.crates.iter().find(|one| one.name == name) {
            let own = names_of(one);
            return items.split("::").all(|item| own.contains(item));
        }
    }
    let mut parts = word.split("::").flat_map(|part| part.split(['/', '.'])).filter(|part| !part.is_empty());
    parts.all(|part| known.contains(part))
}

/// Every name of the crates: crates, modules, items, definitions, laws, files, edits.
fn known(tree: &Tree) -> BTreeSet<String> {
    let mut names: BTreeSet<String> =
        ["src", "specs", "proofs", "crates", "tests", "wrong", "docs", "examples", "antt", "rt"]
            .map(String::from)
            .into();
    for one in &tree.crates {
        names.insert(one.name.clone());
        names.extend(names_of(one));
    }
    for path in &tree.others {
        names.extend(path.split('/').map(|part| part.split('.').next().unwrap_or_default().to_string()));
    }
    names
}

/// Every name of one crate.
fn names_of(one: &Crate) -> BTreeSet<String> {
    let mut names = BTreeSet::new();
    for file in one.files.values() {
        names.insert(file.stem().into());
        if file.path.ends_with(".rt") {
            names.extend(functions(&file.text).into_iter().map(|one| one.name));
            names.extend(declared(file, &["struct ", "enum ", "const ", "mod ", "type "]));
            names.extend(fields_and_variants(file));
        }
        if file.path.contains("/specs/") || file.path.contains("/proofs/") {
            names.extend(defined(file));
        }
    }
    names
}

/// Items of a file of Rattle.
fn declared(file: &File, kinds: &[&str]) -> Vec<String> {
    let mut names = Vec::new();
    for line in file.text.lines() {
        let line = line.trim().trim_start_matches("pub ");
        for kind in kinds {
            if let Some(rest) = line.strip_prefix(kind) {
                names.push(
                    rest.chars().take_while(|letter| letter.is_alphanumeric() || *letter == '_').collect(),
                );
            }
        }
    }
    names
}

/// Fields of structs and variants of enums: lines of the form `pub name: ..,`, `Name,` and `Name(..),`.
fn fields_and_variants(file: &File) -> Vec<String> {
    let inside = file.text.lines().filter(|line| line.starts_with("    ") && line.trim_end().ends_with(','));
    let word = |line: &str| {
        line.trim()
            .trim_start_matches("pub ")
            .chars()
            .take_while(|one| one.is_alphanumeric() || *one == '_')
            .collect::<String>()
    };
    inside.map(word).filter(|word| !word.is_empty()).collect()
}

/// Definitions, laws, records, their fields and constructors: what stands before ` :` at the start of a line.
fn defined(file: &File) -> Vec<String> {
    let mut names = Vec::new();
    for line in file.text.lines() {
        let mut line = line.trim();
        for mark in ["abbrev ", "unfoldable ", "pub ", "data ", "record "] {
            line = line.trim_start_matches(mark);
        }
        if let Some((name, _)) = line.split_once(' ') {
            if line[name.len()..].trim_start().starts_with([':', '(', '{']) {
                names.push(name.to_string());
            }
        }
    }
    names
}
