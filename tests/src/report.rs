//! Counts of tests passed and failed, and how a difference is shown.

use std::process::ExitCode;

/// Failures of a part that are shown; the others are counted.
const SHOWN: usize = 5;

#[derive(Default)]
pub struct Report {
    passed: usize,
    failed: usize,
    shown: usize,
}

impl Report {
    /// Begins a part, whose first failures are shown again.
    pub fn part(&mut self) {
        self.shown = 0;
    }

    /// Counts a test; `explain` is asked for the first failures only.
    pub fn test(&mut self, holds: bool, explain: impl FnOnce() -> String) {
        if holds {
            self.passed += 1;
            return;
        }
        self.failed += 1;
        if self.shown < SHOWN {
            self.shown += 1;
            println!("FAILED {}", explain());
        }
    }

    /// Adds the counts of a share of a part.
    pub fn add(&mut self, share: Report) {
        self.passed += share.passed;
        self.failed += share.failed;
    }

    /// The last line of a run, and its exit status.
    pub fn end(&self) -> ExitCode {
        println!("{} passed, {} failed", self.passed, self.failed);
        ExitCode::from(u8::from(self.failed > 0))
    }
}

/// The first line in which two outputs differ.
pub fn difference(expected: &[u8], found: &[u8]) -> String {
    let mut expected_lines = expected.split(|byte| *byte == b'\n');
    let mut found_lines = found.split(|byte| *byte == b'\n');
    for place in 1.. {
        let (left, right) = (expected_lines.next(), found_lines.next());
        if left != right {
            return format!("line {place}: expected {}, found {}", quoted(left), quoted(right));
        }
        if left.is_none() {
            break;
        }
    }
    "no difference".into()
}

fn quoted(line: Option<&[u8]>) -> String {
    line.map_or("nothing".into(), |line| format!("'{}'", line.escape_ascii()))
}

/// An input as it can be read, line by line.
pub fn shown(input: &[u8]) -> String {
    let lines = input.split_inclusive(|byte| *byte == b'\n');
    lines.map(|line| format!("    {}\n", line.escape_ascii())).collect()
}
