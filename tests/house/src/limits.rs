//! A limit stands in its two homes alone: no other line of a library has a number that can only be a limit or follow from
//! one. Small numbers can be anything: that no proof needs them is shown by tests/limits/run.

use crate::tree::{Crate, File, Tree};
use crate::Report;

const CODE: &str = "src/token.rt";
const DEFINITIONS: &str = "specs/Token.antt";
const ORDER_BYTES: u64 = 8;

/// Names whose number is the same by chance: the place in the output up to which one more line is worked.
const BY_CHANCE: [&str; 2] = ["pub const LAST_START: usize = ", "last_start = "];

struct Limits {
    lines: u64,
    actions: u64,
    text: u64,
    room: u64,
}

impl Limits {
    /// As the code says them, if the definitions say the same.
    fn read(tokens: &Crate) -> Option<Limits> {
        let (code, definitions) = (&tokens.files.get(CODE)?.text, &tokens.files.get(DEFINITIONS)?.text);
        let same = |name: &str, kind: &str, defined: &str| {
            let said = value(code, &format!("pub const {name}: {kind} = "))?;
            (value(definitions, &format!("{defined} = "))? == said).then_some(said)
        };
        Some(Limits {
            lines: same("LINES", "usize", "max_lines")?,
            actions: same("ACTIONS", "usize", "max_actions")?,
            text: same("TEXT_SIZE", "usize", "text_size")?,
            room: same("ROOM", "u64", "room")?,
        })
    }

    /// The bytes of a text, the places of a set or near them; the bytes of the order buffer; what places are counted by.
    fn can_be(&self, n: u64) -> bool {
        let buffer = self.lines * self.actions * ORDER_BYTES;
        let set = self.text - 1..self.text + 8 * self.lines;
        set.contains(&n) || [buffer, self.room, 2 * self.room].iter().any(|m| m - 1 <= n && n <= m + 1)
    }
}

/// The number behind a beginning that stands once.
fn value(text: &str, beginning: &str) -> Option<u64> {
    let mut found = text.lines().filter_map(|line| line.strip_prefix(beginning));
    let said = found.next()?.trim_end_matches(';').parse().ok();
    found.next().is_none().then_some(said).flatten()
}

pub fn check(tree: &Tree, report: &mut Report) {
    let Some(limits) = tree.crates.iter().find(|one| one.name == "tokens").and_then(Limits::read) else {
        report.test(vec!["tokens: a limit does not stand once in token.rt and once, the same, in Token.antt".into()]);
        return;
    };
    for one in tree.crates.iter().filter(|one| one.is_library()) {
        for (path, file) in &one.files {
            let home = one.name == "tokens" && [CODE, DEFINITIONS].contains(&path.as_str());
            if !home && (path.ends_with(".rt") || path.ends_with(".antt")) {
                report.test(faults(file, &limits));
            }
        }
    }
}

fn faults(file: &File, limits: &Limits) -> Vec<String> {
    let comment = if file.path.ends_with(".rt") { "//" } else { "--" };
    let mut found = Vec::new();
    for (at, line) in file.text.lines().enumerate() {
        if BY_CHANCE.iter().any(|name| line.starts_with(name)) {
            continue;
        }
        for n in numbers(line.split(comment).next().unwrap_or_default()).filter(|n| limits.can_be(*n)) {
            found.push(format!("{}:{}: {n} is a limit or follows from one, and has a name", file.path, at + 1));
        }
    }
    found
}

/// The numbers of a line: no part of a name, with or without their type.
fn numbers(line: &str) -> impl Iterator<Item = u64> + '_ {
    let words = line.split(|c: char| !c.is_alphanumeric() && c != '_');
    words.filter_map(|word| {
        let number: String = word.chars().take_while(|c| c.is_ascii_digit() || *c == '_').collect();
        number.replace('_', "").parse().ok()
    })
}
