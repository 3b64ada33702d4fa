//! Checks that CASES.md names every case and nothing else.

use crate::cases::Case;
use crate::report::Report;
use crate::runner::Form;
use std::{fs, io, path::Path};

/// A test for each name of the table, which some case has, and for each case, which the table names.
pub fn check(report: &mut Report, cases: &[&Case]) -> io::Result<()> {
    let table = fs::read_to_string(Path::new(env!("CARGO_MANIFEST_DIR")).join("CASES.md"))?;
    let names: Vec<String> = cases.iter().map(|case| name(case)).collect();
    let patterns = patterns(&table);
    for pattern in &patterns {
        let meant = names.iter().any(|name| matches(pattern, name));
        report.test(meant, || format!("CASES.md names {pattern}, which is no case"));
    }
    for name in &names {
        let named = patterns.iter().any(|pattern| matches(pattern, name));
        report.test(named, || format!("CASES.md does not name {name}"));
    }
    Ok(())
}

fn name(case: &Case) -> String {
    match case.form {
        Form::Synrun => case.name.clone(),
        Form::Host | Form::Long => format!("host/{}", case.name),
        Form::Print => format!("print/{}", case.name),
        Form::Stat => format!("stat/{}", case.name),
    }
}

/// The names in the last column of the tables.
fn patterns(table: &str) -> Vec<&str> {
    let rows = table.lines().filter(|line| line.starts_with('|'));
    let columns = rows.filter_map(|row| row.trim_end_matches('|').rsplit_once('|'));
    columns.flat_map(|(_, cases)| cases.split('`').skip(1).step_by(2)).collect()
}

/// `*` stands for any letters.
fn matches(pattern: &str, name: &str) -> bool {
    match pattern.split_once('*') {
        None => pattern == name,
        Some((head, rest)) => name.strip_prefix(head).is_some_and(|tail| {
            let ends = tail.char_indices().map(|(place, _)| place).chain([tail.len()]);
            ends.into_iter().any(|place| matches(rest, &tail[place..]))
        }),
    }
}
