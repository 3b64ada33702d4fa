//! Random expressions, as tokens one space apart. Few indices are used, so that lines meet in them.

use crate::random::Random;

pub const AXES: [&str; 6] = ["X", "Y", "Z", "U", "V", "W"];
const CONSTANTS: [&str; 16] = [
    "0", "1", "1", "2", "3", "7", "10", "0.5", "0.001", "0.333", "1.999", "2.5", "12.345", "007", "0.50",
    "100",
];
/// Sums around the edges of values.
const EDGES: [&str; 12] = [
    "99990.001 * 10.001", "1000000 * 1", "999999.999 + 0.001", "- 1000000 - 0", "1 / 3 * 3", "1000000 / 1",
    "0.001 * 0.5", "- 0.003 * 0.5", "- 1.999", "- 999999.999 - 0.001", "1000 / 0.001", "- 1 / 3",
];
/// Values just under, at and just over a half, for markers; and those that lie near the ends of the range.
const HALVES: [&str; 12] = [
    "0.499", "0.5", "0.501", "- 0.499", "- 0.5", "- 0.501", "1.499", "- 1.499", "2.5", "- 2.5", "7.501",
    "- 7.501",
];
const HIGH_HALVES: [&str; 6] =
    ["999999.5", "- 999999.5", "999999.499", "- 999999.499", "999999.501", "- 999999.999"];
const COMPARISONS: [&str; 6] = ["==", "<>", "<", ">", "<=", ">="];

pub fn axis(random: &mut Random) -> &'static str {
    random.pick(&AXES)
}

/// An index from `low` on: mostly one of the first few, now and then any or the last.
pub fn index(random: &mut Random, low: i64, high: i64) -> i64 {
    match random.below(12) {
        0 => high,
        1 => random.between(low, high),
        _ => random.between(low, (low + 3).min(high)),
    }
}

/// A place of the runs of R that FIFOs use.
fn run_index(random: &mut Random) -> i64 {
    100 + 16 * random.between(0, 3) + random.pick(&[0, 0, 1, 1, 2, 15])
}

/// A variable that may be read at any time; FIFO [1] and [2] are not among them, for they alarm when empty.
pub fn readable(random: &mut Random) -> String {
    let fifo = random.between(1, 4);
    match random.below(27) {
        0..=2 => format!("$A_IN [ {} ]", index(random, 1, 16)),
        3..=5 => format!("$A_INA [ {} ]", index(random, 1, 8)),
        6..=7 => format!("$AA_IM [ {} ]", axis(random)),
        8..=9 => format!("$A_OUT [ {} ]", index(random, 1, 16)),
        10..=13 => format!("$AC_MARKER [ {} ]", index(random, 0, 31)),
        14..=15 => format!("$AC_PARAM [ {} ]", index(random, 0, 31)),
        16..=19 => format!("$R [ {} ]", index(random, 0, 99)),
        20..=21 => format!("$R [ {} ]", run_index(random)),
        22..=23 => format!("$AC_TIMER [ {} ]", index(random, 0, 7)),
        24 => format!("$AC_FIFO{fifo} [ 3 ]"),
        _ => format!("$AC_FIFO{fifo} [ 4 ]"),
    }
}

pub fn constant(random: &mut Random) -> String {
    match random.below(40) {
        0 => "1000000".into(),
        1 => format!("{}.{:03}", random.below(100_000), random.below(1000)),
        _ => random.pick(&CONSTANTS).to_string(),
    }
}

/// A value around a half, by itself or beside a whole number.
pub fn half(random: &mut Random) -> String {
    match random.below(5) {
        3..=4 => random.pick(&HIGH_HALVES).into(),
        0 => format!("$A_IN [ {} ] + {}", random.between(1, 4), random.pick(&HALVES)),
        1 => format!("- $A_IN [ {} ] - {}", random.between(1, 4), random.pick(&["0.499", "0.5", "0.501"])),
        _ => random.pick(&HALVES).into(),
    }
}

/// A sum with at most `depth` levels below it.
pub fn number(random: &mut Random, depth: usize) -> String {
    if depth == 0 || random.chance(30) {
        return if random.chance(55) { readable(random) } else { constant(random) };
    }
    let left = number(random, depth - 1);
    match random.below(62) {
        60..=61 => random.pick(&EDGES).to_string(),
        0 => format!("{left} + $AC_FIFO1 [ {} ]", random.between(1, 2)),
        1..=20 => format!("{left} + {}", number(random, depth - 1)),
        21..=32 => format!("{left} - {}", number(random, depth - 1)),
        33..=39 => format!("( {left} ) * {}", constant(random)),
        40..=46 => format!("( {left} ) / {}", random.pick(&["3", "7", "0.3", "- 3", "1000"])),
        47..=50 => format!("( {left} ) * ( {} )", number(random, depth - 1)),
        51 => format!("{left} / ( {} )", number(random, depth - 1)),
        52..=54 => format!("( {left} )"),
        _ => format!("- ( {left} )"),
    }
}

/// A condition that an input switches, so that it goes on and off.
pub fn switched(random: &mut Random) -> String {
    let sense = if random.chance(70) { "== 1" } else { random.pick(&["== 0", "<> 1", "< 0.5", ">= 1"]) };
    format!("$A_IN [ {} ] {sense}", random.between(1, 4))
}

/// A yes/no expression with at most `depth` levels below it.
pub fn condition(random: &mut Random, depth: usize) -> String {
    match random.below(20) {
        0..=8 => switched(random),
        9..=13 => {
            format!("{} {} {}", number(random, 1), random.pick(&COMPARISONS), number(random, 1))
        }
        14 => random.pick(&["TRUE", "TRUE", "FALSE", "NOT FALSE"]).to_string(),
        15 => format!("NOT ( {} )", condition(random, depth.saturating_sub(1))),
        _ if depth > 0 => joined(random, depth),
        _ => switched(random),
    }
}

fn joined(random: &mut Random, depth: usize) -> String {
    let joint = random.pick(&["AND", "OR", "XOR"]);
    let count = random.between(2, 3);
    let members: Vec<String> = (0..count).map(|_| member(random, depth - 1)).collect();
    members.join(&format!(" {joint} "))
}

fn member(random: &mut Random, depth: usize) -> String {
    match random.below(8) {
        0 => random.pick(&["TRUE", "FALSE", "NOT NOT TRUE"]).to_string(),
        1 => format!("NOT ( {} )", condition(random, depth)),
        _ => format!("( {} )", condition(random, depth)),
    }
}

/// An expression of the grammar, now and then just beside it, without regard to kinds.
pub fn loose_expression(random: &mut Random, depth: usize) -> String {
    let first = loose_sum(random, depth);
    match random.below(8) {
        0..=1 => first,
        2..=4 => format!("{first} {} {}", random.pick(&COMPARISONS), loose_sum(random, depth)),
        5..=6 => {
            let joint = random.pick(&["AND", "OR", "XOR"]);
            format!("{first} {joint} {} {joint} {}", loose_sum(random, depth), loose_sum(random, depth))
        }
        _ => {
            let joint = random.pick(&["AND", "OR", "<", "=="]);
            format!("{first} AND {} {joint} {}", loose_sum(random, depth), loose_sum(random, depth))
        }
    }
}

fn loose_sum(random: &mut Random, depth: usize) -> String {
    match random.below(6) {
        0 => {
            let sign = random.pick(&["+", "-", "*", "/"]);
            format!("{} {sign} {}", loose_operand(random, depth), loose_operand(random, depth))
        }
        _ => loose_operand(random, depth),
    }
}

fn loose_operand(random: &mut Random, depth: usize) -> String {
    match random.below(12) {
        0..=2 => random.pick(&["TRUE", "FALSE"]).into(),
        3 => constant(random),
        4 => readable(random),
        5 if depth > 0 => format!("- {}", loose_operand(random, depth - 1)),
        6 if depth > 0 => format!("NOT {}", loose_operand(random, depth - 1)),
        7..=8 if depth > 0 => format!("( {} )", loose_expression(random, depth - 1)),
        _ => format!("( {} )", switched(random)),
    }
}
