//! Sets whose print fills the bytes that a text may have, and numbers in them that can grow, so that the print outgrows a text.

use super::layout::tight_text;
use super::print::stands_alone;
use super::RandomSet;
use crate::load::TEXT;
use crate::random::Random;

/// Numbers that are sound wherever an operand stands, most with more bytes than those of the generator.
pub const GROWN: [&str; 6] = ["12", "0.1", "12.5", "0.001", "999999.999", "1000000"];

/// The set with a chain of signs in its last line, in a text as short as it reads the same, of the most bytes or a few fewer. The LF
/// behind the last line is not printed.
pub fn filled(random: &mut Random, set: RandomSet) -> RandomSet {
    let mut lines = set.lines.clone();
    let Some(last) = lines.len().checked_sub(1) else {
        return set;
    };
    let head = format!("{} = {} DO POS [ Y ] =", random.pick(&["ID", "IDS"]), set.numbers[last]);
    lines[last] = format!("{head} 5");
    let wanted = TEXT - random.pick(&[0, 0, 0, 1, 2, 9]);
    let defining: Vec<String> = set.curves.iter().map(|curve| curve.line.clone()).collect();
    let text = |lines: &[String]| tight_text(&[&defining, lines].concat());
    let Some(signs) = wanted.checked_sub(text(&lines).len()) else {
        return set;
    };
    lines[last] = format!("{head} {}5", "- ".repeat(signs));
    RandomSet { text: text(&lines), lines, ..set }
}

/// The places, among the tokens of a line's body, of numbers that are operands.
pub fn operands(body: &[&str]) -> Vec<usize> {
    let before = |place: usize, back: usize| place.checked_sub(back).map_or("", |place| body[place]);
    let is_operand = |place: &usize| {
        let is_number = body[*place].starts_with(|first: char| first.is_ascii_digit());
        is_number && !stands_alone(before(*place, 2), before(*place, 1))
    };
    (0..body.len()).filter(is_operand).collect()
}
