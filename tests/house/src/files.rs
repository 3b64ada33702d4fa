//! No two files of definitions or laws have one name, so that a reader who is told a file finds it. The files of a function's proof go by their folder.

use crate::tree::Tree;
use crate::Report;
use std::collections::BTreeMap;

pub fn check(tree: &Tree, report: &mut Report) {
    let mut places: BTreeMap<&str, Vec<&str>> = BTreeMap::new();
    for one in &tree.crates {
        let all = one.within("specs/", ".antt").chain(one.within("proofs/", ".antt"));
        for file in all.filter(|file| !["Lib", "Proof", "Invariants", "Answers"].contains(&file.stem())) {
            places.entry(file.stem()).or_default().push(&file.path);
        }
    }
    for (name, paths) in places {
        let faults = if paths.len() > 1 { vec![format!("{name}: {}", paths.join(", "))] } else { Vec::new() };
        report.test(faults);
    }
}
