//! Turns tokens one space apart into set text: spaces, comments, empty lines and line ends.

use crate::load::TEXT;
use crate::random::Random;

/// The text of these lines; some are filled up to the most bytes, or one more.
pub fn set_text(random: &mut Random, lines: &[String]) -> Vec<u8> {
    let mut text = lines_text(random, lines);
    if random.chance(3) {
        fill(random, &mut text);
    }
    text
}

pub fn lines_text(random: &mut Random, lines: &[String]) -> Vec<u8> {
    let end: &[u8] = if random.chance(15) { b"\r\n" } else { b"\n" };
    let mut text = Vec::new();
    for line in lines {
        if random.chance(8) {
            text.extend(random.pick(&["", "   ", "; WHEN ( comment", " ;;"]).as_bytes());
            text.extend(end);
        }
        text.extend(spaced(random, line).as_bytes());
        if random.chance(6) {
            text.extend(b" ; ID=1 # \xFF");
        }
        text.extend(end);
    }
    text
}

/// The text of these lines with a space only where two tokens would read otherwise, an LF behind each line.
pub fn tight_text(lines: &[String]) -> Vec<u8> {
    let mut text = String::new();
    for line in lines {
        let mut last = "";
        for token in line.split(' ').filter(|token| !token.is_empty()) {
            if !last.is_empty() && needs_space(last, token) {
                text.push(' ');
            }
            text.push_str(token);
            last = token;
        }
        text.push('\n');
    }
    text.into_bytes()
}

/// Fills up the text with a comment to just the most bytes, or one more.
fn fill(random: &mut Random, text: &mut Vec<u8>) {
    let wanted = TEXT + random.below(2);
    if text.len() + 2 <= wanted {
        text.push(b';');
        text.resize(wanted - 1, b'.');
        text.push(b'\n');
    }
}

/// A line with few, usual or many spaces.
fn spaced(random: &mut Random, line: &str) -> String {
    let tokens: Vec<&str> = line.split(' ').filter(|token| !token.is_empty()).collect();
    let many = random.chance(5);
    let mut text = String::new();
    for (place, token) in tokens.iter().enumerate() {
        let needed = place > 0 && needs_space(tokens[place - 1], token);
        let spaces = if many { random.below(3) } else { usize::from(random.chance(10)) };
        text.push_str(&" ".repeat(spaces.max(usize::from(needed))));
        text.push_str(token);
    }
    text
}

/// Two tokens that would read otherwise without a space.
fn needs_space(left: &str, right: &str) -> bool {
    let first = right.as_bytes()[0];
    let last = left.as_bytes()[left.len() - 1];
    let joins = matches!((last, first), (b'<', b'=' | b'>') | (b'>' | b'=', b'='));
    joins || (last.is_ascii_alphanumeric() && first.is_ascii_alphanumeric())
}
