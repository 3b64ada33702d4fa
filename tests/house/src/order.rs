//! docs/DEFINITIONS.md: each file that it lists exists and needs only files above it, and no file of definitions, and none of theorems in a crate without code, is left out.

use crate::functions::functions;
use crate::tree::{Crate, File, Tree};
use crate::Report;

const LIST: &str = "docs/DEFINITIONS.md";

pub fn check(tree: &Tree, report: &mut Report) {
    let Some(list) = tree.documents.iter().find(|one| one.path == LIST) else {
        report.test(vec![format!("{LIST} is missing")]);
        return;
    };
    let listed: Vec<&str> =
        list.text.split("(../").skip(1).filter_map(|rest| rest.split(')').next()).collect();
    let lost = listed.iter().filter(|path| !tree.root.join(path).exists());
    report.test(lost.map(|path| format!("{LIST}: there is no {path}")).collect());
    let files = tree.crates.iter().flat_map(|one| one.within("specs/", ".antt").chain(theorems(one)));
    for file in files.filter(|file| file.stem() != "Lib") {
        let mut faults = Vec::new();
        if let Some(place) = listed.iter().position(|path| *path == file.path) {
            let later = needed(file).into_iter().filter(|path| listed[place + 1..].contains(&path.as_str()));
            faults.extend(
                later.map(|path| format!("{LIST}: {} stands above {path}, which it needs", file.path)),
            );
        } else if !file.stem().ends_with("Laws") && !names(&list.text, file.stem()) {
            faults.push(format!("{LIST}: {} is left out", file.path));
        }
        report.test(faults);
    }
}

/// The files that stand right in the proofs/ of a crate without functions: there is no function that they could be a part of the proof of.
fn theorems(one: &Crate) -> impl Iterator<Item = &File> {
    let code = one.within("src/", ".rt").any(|file| !functions(&file.text).is_empty());
    let right_in = move |file: &&File| !code && file.path.matches('/').count() == 3;
    one.within("proofs/", ".antt").filter(right_in)
}

/// The files of specs and of proofs that a file names in its `use` lines.
fn needed(file: &File) -> Vec<String> {
    let uses =
        file.text.lines().filter_map(|line| line.trim_start_matches("pub ").strip_prefix("use Rattle."));
    let path = |rest: &str| {
        let mut parts = rest.split('.');
        let (name, part, file) = (parts.next()?, parts.next()?, parts.next()?);
        ["specs", "proofs"].contains(&part).then(|| format!("crates/{name}/{part}/{file}.antt"))
    };
    uses.filter_map(path).collect()
}

/// Whether a text has this word.
fn names(text: &str, word: &str) -> bool {
    text.split(|letter: char| !letter.is_alphanumeric()).any(|one| one == word)
}
