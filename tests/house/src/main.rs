//! The house rules that no prover sees, read off the text of the repository:
//!
//! - `contracts`: every public call of every library asks nothing, and says of its result and of everything that is
//!   lent to be written what it equals;
//! - `files`: no two files of definitions or laws have one name;
//! - `order`: docs/DEFINITIONS.md has all files of definitions, each below those that it needs;
//! - `limits`: no limit stands as a number outside its two homes;
//! - `names`: every name that docs/PROMISES.md, docs/TRACE.md and docs/DEFINITIONS.md put in backquotes exists.
//!
//! usage: house ROOT. The last line is 'N passed, M failed', with exit status 1 if M is not 0.

mod contracts;
mod files;
mod functions;
mod limits;
mod names;
mod order;
mod tree;

use std::process::ExitCode;

/// What was looked at, and what was found wrong.
#[derive(Default)]
pub struct Report {
    passed: usize,
    failed: usize,
    told: usize,
}

impl Report {
    /// Says how many were looked at since the part before.
    fn part(&mut self, what: &str) {
        let all = self.passed + self.failed;
        println!("{}: {}", what, all - self.told);
        self.told = all;
    }

    /// Something was looked at; it is as it should be if it has no faults.
    pub fn test(&mut self, faults: Vec<String>) {
        if faults.is_empty() {
            self.passed += 1;
            return;
        }
        self.failed += 1;
        for fault in faults {
            println!("FAILED {fault}");
        }
    }
}

fn main() -> ExitCode {
    let root = std::env::args().nth(1).unwrap_or_else(|| ".".into());
    let tree = match tree::Tree::read(root.as_ref()) {
        Ok(tree) => tree,
        Err(error) => {
            eprintln!("{root}: {error}");
            return ExitCode::from(2);
        }
    };
    let mut report = Report::default();
    contracts::check(&tree, &mut report);
    report.part("public calls");
    files::check(&tree, &mut report);
    report.part("files of definitions and laws");
    order::check(&tree, &mut report);
    report.part("files in docs/DEFINITIONS.md");
    limits::check(&tree, &mut report);
    report.part("files without a limit as a number");
    names::check(&tree, &mut report);
    report.part("lines of documents that cite names");
    println!("{} passed, {} failed", report.passed, report.failed);
    ExitCode::from(u8::from(report.failed > 0))
}
