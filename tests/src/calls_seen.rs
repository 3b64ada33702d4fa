//! Where the lines PE and RS of a script stand, for the coverage report.

/// The lines that are calls.
pub const CALLS: [&str; 2] = ["PE", "RS"];
const FIRST: &str = "as the first line";
const LAST: &str = "as the last line";
const REPEATED: &str = "repeated";
const BEHIND_ALARMED: &str = "behind an alarmed beat";
const BEHIND_REFUSED: &str = "behind a refused beat";
const BEFORE_ERROR: &str = "and an E line behind";
const PLACES: [&str; 6] = [FIRST, LAST, REPEATED, BEHIND_ALARMED, BEHIND_REFUSED, BEFORE_ERROR];

/// A line that was worked: a call by its name, a beat by its code.
#[derive(Clone, Copy, PartialEq, Eq)]
enum Worked {
    Call(&'static str),
    Beat(u8),
}

/// Everything that is counted.
pub fn expected() -> Vec<String> {
    CALLS.iter().flat_map(|call| PLACES.map(|place| format!("{call} {place}"))).collect()
}

/// What the calls of a script meet, by what `synrun` prints for it.
pub fn names(script: &[&[u8]], printed: &str) -> Vec<String> {
    if printed.starts_with("L ") {
        return Vec::new();
    }
    let ended = printed.lines().any(|line| line.starts_with("END "));
    let worked = worked(script, printed);
    let mut names = Vec::new();
    for (place, line) in worked.iter().enumerate() {
        let Worked::Call(call) = line else {
            continue;
        };
        let before = place.checked_sub(1).map(|place| worked[place]);
        let places = [
            (FIRST, before.is_none()),
            (LAST, ended && place + 1 == worked.len()),
            (REPEATED, before == Some(*line)),
            (BEHIND_ALARMED, matches!(before, Some(Worked::Beat(30..)))),
            (BEHIND_REFUSED, matches!(before, Some(Worked::Beat(20..=23)))),
            (BEFORE_ERROR, !ended),
        ];
        names.extend(places.iter().filter(|(_, there)| *there).map(|(name, _)| format!("{call} {name}")));
    }
    names
}

/// The lines up to the end, or up to an ill-formed one.
fn worked(script: &[&[u8]], printed: &str) -> Vec<Worked> {
    let mut codes =
        printed.lines().filter_map(|line| line.strip_prefix("C ")?.split(' ').nth(1)?.parse().ok());
    let call = |line: &[u8]| CALLS.into_iter().find(|call| call.as_bytes() == line);
    let work = |line: &&[u8]| call(line).map(Worked::Call).or_else(|| codes.next().map(Worked::Beat));
    script.iter().map_while(work).collect()
}
