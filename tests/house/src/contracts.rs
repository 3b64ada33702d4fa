//! Public calls: what another crate can call asks nothing, and each `ensures` says what the result, or something lent, equals.

use crate::functions::{functions, Function};
use crate::tree::{Crate, Tree};
use crate::Report;
use std::collections::BTreeSet;

pub fn check(tree: &Tree, report: &mut Report) {
    for library in tree.crates.iter().filter(|one| one.is_library()) {
        report.test(unread(library));
        for (module, function) in public_calls(library) {
            let of = function.of.as_ref().map_or(String::new(), |of| format!("{of}::"));
            let name = format!("{}::{module}{of}{}", library.name, function.name);
            report.test(faults(&function).into_iter().map(|fault| format!("{name}: {fault}")).collect());
        }
    }
}

/// The functions that another crate can call: those of the root, those of modules that it shows whole, those that it passes on by `pub use`, and each `pub` method of a type, wherever it stands: another crate may hold the type, as a field of one that is passed on.
pub fn public_calls(library: &Crate) -> Vec<(String, Function)> {
    let mut calls = Vec::new();
    let root = &library.files["src/lib.rt"].text;
    calls.extend(functions(root).into_iter().filter(is_call).map(|one| (String::new(), one)));
    shown(library, "", root, &mut calls);
    let passed: BTreeSet<(String, String)> =
        shows(root).iter().filter_map(|one| passed_on(one)).flatten().collect();
    for (module, item) in passed {
        let Some(file) = library.files.get(&format!("src/{module}.rt")) else { continue };
        let all = functions(&file.text).into_iter();
        calls.extend(all.filter(|one| one.of.is_none() && one.name == item).map(|one| (String::new(), one)));
    }
    for file in library.within("src/", ".rt") {
        let all = functions(&file.text).into_iter();
        calls.extend(all.filter(|one| one.of.is_some() && one.public).map(|one| (String::new(), one)));
    }
    calls
}

/// Whether it is shown by itself, as no method.
fn is_call(one: &Function) -> bool {
    one.of.is_none() && one.public
}

/// What this program would not see: a `pub use` that is not of items of one file of the crate, traits and their methods, and an `impl` whose type doesn't end its line.
fn unread(library: &Crate) -> Vec<String> {
    let mut faults = Vec::new();
    for file in library.within("src/", ".rt") {
        let methods = file.text.lines().filter(|line| {
            let of_type = line.ends_with(" {") && !line.contains(" for ");
            let unread = line.starts_with("impl") && !of_type;
            unread || line.starts_with("trait ") || line.starts_with("pub trait ")
        });
        for line in shows(&file.text).into_iter().chain(methods.map(String::from)) {
            let passed = passed_on(&line).filter(|_| file.path.ends_with("/lib.rt"));
            if !passed.is_some_and(|all| all.iter().all(|(module, item)| has(library, module, item))) {
                faults.push(format!("{}: what does this show? {line}", file.path));
            }
        }
    }
    faults
}

/// Whether a module of the crate has this function or item.
fn has(library: &Crate, module: &str, item: &str) -> bool {
    library.files.get(&format!("src/{module}.rt")).is_some_and(|source| {
        functions(&source.text).iter().any(|one| one.of.is_none() && one.name == item)
            || items(&source.text).any(|one| one == item)
    })
}

/// Each `pub use .. ;` of a text, on one line.
fn shows(text: &str) -> Vec<String> {
    let mut found = Vec::new();
    let mut lines = text.lines();
    while let Some(line) = lines.next() {
        if !line.starts_with("pub use ") {
            continue;
        }
        let mut whole = line.to_string();
        while !whole.contains(';') {
            let Some(more) = lines.next() else { break };
            whole.push_str(more.trim());
        }
        found.push(whole);
    }
    found
}

/// The structs, enums and constants that a text shows.
fn items(text: &str) -> impl Iterator<Item = &str> {
    let kinds = ["pub struct ", "pub enum ", "pub const "];
    let rest = text.lines().filter_map(move |line| kinds.iter().find_map(|kind| line.strip_prefix(kind)));
    rest.filter_map(|rest| rest.split(|letter: char| !letter.is_alphanumeric() && letter != '_').next())
}

/// The public functions of the modules that a file declares `pub mod`.
fn shown(library: &Crate, folder: &str, text: &str, calls: &mut Vec<(String, Function)>) {
    for line in text.lines() {
        let Some(module) = line.strip_prefix("pub mod ").and_then(|rest| rest.strip_suffix(';')) else {
            continue;
        };
        let Some(file) = library.files.get(&format!("src/{folder}{module}.rt")) else { continue };
        let path = format!("{}{module}::", folder.replace('/', "::"));
        calls.extend(functions(&file.text).into_iter().filter(is_call).map(|one| (path.clone(), one)));
        shown(library, &format!("{folder}{module}/"), &file.text, calls);
    }
}

/// `pub use a::b::item;` or `pub use a::b::{item, item};` as the module's path and the item, for each.
fn passed_on(line: &str) -> Option<Vec<(String, String)>> {
    let path = line.strip_prefix("pub use ")?.strip_suffix(';')?.trim_start_matches("crate::");
    let (module, items) = match path.split_once("::{") {
        Some((module, list)) => (module, list.strip_suffix('}')?.trim_end_matches([',', ' '])),
        None => path.rsplit_once("::")?,
    };
    let word =
        |text: &str| !text.is_empty() && text.chars().all(|letter| letter.is_alphanumeric() || letter == '_');
    let items: Vec<&str> = items.split(',').map(str::trim).collect();
    let plain = module.split("::").all(word) && items.iter().all(|item| word(item) && *item != "self");
    plain.then(|| items.into_iter().map(|item| (module.replace("::", "/"), item.to_string())).collect())
}

fn faults(function: &Function) -> Vec<String> {
    let mut faults: Vec<String> = function.requires.iter().map(|what| format!("asks {what}")).collect();
    let sides: Vec<Side> = function.ensures.iter().map(|promise| side(promise)).collect();
    for (side, promise) in sides.iter().zip(&function.ensures) {
        if let Side::Other = side {
            faults.push(format!("promises more or less than an equation: {promise}"));
        }
    }
    if function.answers && !sides.contains(&Side::Result) {
        faults.push("says nothing of its result".into());
    }
    for name in &function.written {
        if !sides.contains(&Side::Lent(name.clone())) {
            faults.push(format!("says nothing of what is lent as {name}"));
        }
    }
    faults
}

/// What an `ensures` says the value of.
#[derive(PartialEq)]
enum Side {
    Result,
    Lent(String),
    Other,
}

/// `result ≡ ..` or `y.new ≡ ..`, where nothing joins it to more, and neither the result nor anything at its end stands to the right.
fn side(promise: &str) -> Side {
    if joins(promise) {
        return Side::Other;
    }
    let Some((left, right)) = promise.split_once(" ≡ ") else { return Side::Other };
    let mut words = right.split(|letter: char| !letter.is_alphanumeric() && letter != '_');
    if words.any(|word| ["result", "new", "exit"].contains(&word)) {
        return Side::Other;
    }
    if left == "result" {
        return Side::Result;
    }
    let lent =
        left.strip_suffix(".new").filter(|name| name.chars().all(|one| one.is_alphanumeric() || one == '_'));
    lent.map_or(Side::Other, |name| Side::Lent(name.into()))
}

/// Whether something that joins statements stands outside brackets.
fn joins(body: &str) -> bool {
    let mut depth = 0;
    for letter in body.chars() {
        match letter {
            '(' | '{' => depth += 1,
            ')' | '}' => depth -= 1,
            '×' | '→' | '⊎' | '↔' | '∗' if depth == 0 => return true,
            _ => {}
        }
    }
    false
}
