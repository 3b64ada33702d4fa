//! What a print of a host session shows, for the coverage report.

use crate::coverage::host_form;
use crate::host_line::LONGEST_PRINT;
use crate::load::TEXT;
use crate::print::BUFFER;

const CODES: [usize; 3] = [0, 22, 24];
/// Lines of a script just before a print that gives code 0.
const BEFORE: [&str; 12] = ["A", "M", "B", "L", "U", "C", "R", "N", "G", "V M", "T", "F"];
/// What is counted beside the codes, and when it is there.
const PATHS: [(&str, fn(&HostPrint) -> bool); 14] = [
    ("0 in 4096", |print| print.code == 0 && print.buffer == BUFFER),
    ("0 in 8192", |print| print.code == 0 && print.buffer == LONGEST_PRINT),
    ("22 in 0", |print| print.code == 22 && print.buffer == 0),
    ("22 in 4095", |print| print.code == 22 && print.buffer == BUFFER - 1),
    ("22 in 4096", |print| print.code == 22 && print.buffer == BUFFER),
    ("24 in 0", |print| print.code == 24 && print.buffer == 0),
    ("24 in 4095", |print| print.code == 24 && print.buffer == BUFFER - 1),
    ("24 by its length", |print| print.code == 24 && print.buffer >= BUFFER),
    ("of nothing", |print| print.code == 0 && print.bytes == 0),
    ("of nothing after a refused load", |print| print.code == 0 && print.bytes == 0 && print.after_refusal),
    ("of the most bytes of a text", |print| print.bytes == TEXT),
    ("of more bytes than a text", |print| print.bytes > TEXT),
    ("to the end of its buffer", |print| print.bytes > 0 && print.bytes == print.buffer),
    ("0 just after a 22", |print| print.code == 0 && print.after_unsound),
];

/// Names for short sessions alone.
const IN_SHORT: [&str; 3] = ["of nothing", "of nothing after a refused load", "after V M"];

/// A print, its buffer, and what came just before it.
pub struct HostPrint {
    code: usize,
    bytes: usize,
    buffer: usize,
    /// The line of the script before it.
    before: Option<String>,
    /// That line loaded a text that was refused.
    after_refusal: bool,
    /// It was a call refused with 22: the state is not sound if the print gives 0.
    after_unsound: bool,
}

impl HostPrint {
    /// The print that a line of a session's output tells of; `before` is the output's line before.
    pub fn read(fields: &[&str], before: &str, script: &[&[u8]]) -> HostPrint {
        let number = |field: &str| field.parse().unwrap_or(0);
        let place: usize = number(fields[1]);
        let asked = String::from_utf8_lossy(script[place - 1]);
        let previous = place.checked_sub(2).map(|place| script[place]);
        let answer: Vec<&str> = before.split(' ').collect();
        let is_load = answer[0] == "L" && previous.is_none_or(|line| line.starts_with(b"N"));
        let is_call = ["C", "H"].contains(&answer[0]) && number(answer[1]) + 1 == place;
        HostPrint {
            code: number(fields[2]),
            bytes: number(fields[3]),
            buffer: asked.split(' ').nth(1).map_or(0, number),
            before: previous.map(host_form),
            after_refusal: is_load && answer[1] != "0",
            after_unsound: is_call && answer[2] == "22",
        }
    }

    /// The names of what it shows.
    pub fn names(&self) -> Vec<String> {
        let mut names = vec![self.code.to_string()];
        let paths = PATHS.iter().filter(|(_, is_there)| is_there(self));
        names.extend(paths.map(|(name, _)| name.to_string()));
        names.extend(self.before.iter().filter(|_| self.code == 0).map(|line| format!("after {line}")));
        names
    }
}

/// Every name that random sessions must show; in long ones no load is refused, and damage is seldom.
pub fn expected(long: bool) -> Vec<String> {
    let codes = CODES.iter().map(usize::to_string);
    let paths = PATHS.iter().map(|(name, _)| name.to_string());
    let all = codes.chain(paths).chain(BEFORE.iter().map(|line| format!("after {line}")));
    all.filter(|name| !long || !IN_SHORT.contains(&name.as_str())).collect()
}
