//! Random damage to the curves of a set: lines of a host session.

use super::curve::Curve;
use super::filled::GROWN;
use crate::random::Random;
use crate::written_curves::CURVES;

/// Places of a curve's numbers among its seven: its own, its limits, then its factors.
const LOWER: usize = 1;
const UPPER: usize = 2;
const FACTOR: usize = 3;

/// Parameters put in another's place.
const PARAMETERS: [&str; 9] = ["0", "1", "2.0", "0.5", "3.333", "120", "999999.999", "1000000", "2000000"];
/// Tokens put in another's place.
const TOKENS: [&str; 18] =
    [",", ",", "-", "-", "+", "(", ")", "FCTDEF", "SYNFCT", "ID", "DO", "=", "0", "1", "2", "3", "1.5", "$R"];

impl Curve {
    fn tokens(&self) -> Vec<&str> {
        self.line.split(' ').filter(|token| !token.is_empty()).collect()
    }

    /// The place of a number among the tokens.
    fn place(&self, number: usize) -> usize {
        let tokens = self.tokens();
        let is_number = |place: &usize| tokens[*place].starts_with(|first: char| first.is_ascii_digit());
        (0..tokens.len()).filter(is_number).nth(number).unwrap_or(0)
    }

    /// The line of a session that puts a token in the place of a number.
    fn put(&self, number: usize, token: &str) -> String {
        format!("F {} {} {token}", self.number, self.place(number))
    }
}

/// Damage to one or two of these curves.
pub fn damage(random: &mut Random, curves: &[Curve]) -> Vec<String> {
    let curve = &curves[random.below(curves.len())];
    let other = &curves[random.below(curves.len())];
    let number = curve.number;
    match random.below(24) {
        0..=7 => {
            let at = random.between(LOWER as i64, FACTOR as i64 + 3) as usize;
            vec![curve.put(at, random.pick(&PARAMETERS))]
        }
        8..=9 => vec![growth(random, curves)],
        10..=11 => vec![curve.put(LOWER, "7"), curve.put(UPPER, random.pick(&["6.999", "7", "7.001"]))],
        12..=13 => vec![curve.put(0, &random.between(0, CURVES as i64 + 1).to_string())],
        14..=16 => {
            let place = random.below(curve.tokens().len());
            vec![format!("F {number} {place} {}", random.pick(&TOKENS))]
        }
        17..=19 => vec![start(number, 0)],
        20 => vec![start(random.between(1, CURVES as i64), other.number)],
        21 => vec![start(number, other.number), start(other.number, number)],
        22 => renamed(curve, other),
        _ => moved(random.between(1, CURVES as i64), curve),
    }
}

/// A factor of one of these curves becomes another number: they stay sound.
pub fn growth(random: &mut Random, curves: &[Curve]) -> String {
    let curve = &curves[random.below(curves.len())];
    let factor = FACTOR + random.below(4);
    curve.put(factor, random.pick(&GROWN))
}

fn start(number: i64, other: i64) -> String {
    format!("S F {number} {other}")
}

/// Two curves change places, and their numbers too: they stay sound.
fn renamed(curve: &Curve, other: &Curve) -> Vec<String> {
    let (first, second) = (curve.number, other.number);
    vec![
        start(first, second),
        start(second, first),
        curve.put(0, &second.to_string()),
        other.put(0, &first.to_string()),
    ]
}

/// A curve gets another number, and stands in the place of that.
fn moved(number: i64, curve: &Curve) -> Vec<String> {
    vec![start(curve.number, 0), start(number, curve.number), curve.put(0, &number.to_string())]
}
