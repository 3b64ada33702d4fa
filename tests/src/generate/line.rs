//! Random lines, as tokens one space apart, of sorts that work on each other.

use super::expression::{axis, condition, half, index, number, readable, switched, AXES};
use crate::random::Random;

pub const KEYWORDS: [(usize, &str); 5] =
    [(15, ""), (27, "WHENEVER"), (20, "WHEN"), (13, "FROM"), (25, "EVERY")];

/// Actions that alarm.
pub const ALARMS: [&str; 7] = [
    "$R [ 0 ] = 1000000 + 0.001", "$R [ 0 ] = 1 / 0", "$R [ 0 ] = $AC_FIFO1 [ 2 ]",
    "$R [ 0 ] = $AC_FIFO2 [ 0 ] $AC_FIFO2 [ 0 ] = 1", "$A_OUT [ 1 ] = 2", "FA [ X ] = 0",
    "$AC_FIFO1 [ 4 ] = 1",
];

/// A line of the set with this number; LOCK and UNLOCK name any of `numbers`.
pub fn line(random: &mut Random, number: i64, numbers: &[i64]) -> String {
    let scope = if random.chance(55) { "ID" } else { "IDS" };
    let body = match random.below(20) {
        0..=3 => fifo_line(random),
        4 => lock_line(random, numbers),
        5..=6 => timer_line(random),
        7 => alarm_line(random),
        8..=10 => watching_line(random, &[]),
        _ => any_line(random, numbers),
    };
    format!("{scope} = {number} {body}")
}

fn any_line(random: &mut Random, numbers: &[i64]) -> String {
    let keyword = random.weighted(&KEYWORDS);
    let count = if random.chance(4) { 8 } else { random.between(1, 3) };
    let actions: Vec<String> = (0..count).map(|_| action(random, keyword, numbers)).collect();
    format!("{} DO {}", head(random, keyword), one_move(random, actions).join(" "))
}

/// The actions with no axis moved twice: a second move goes to an axis that is free, or becomes a SETAL.
pub fn one_move(random: &mut Random, mut actions: Vec<String>) -> Vec<String> {
    let mut used: Vec<String> = Vec::new();
    for action in actions.iter_mut().filter(|action| ["POS", "MOV"].contains(&&action[..3])) {
        let free: Vec<&str> =
            AXES.into_iter().filter(|axis| !used.iter().any(|other| other == axis)).collect();
        let axis = action.split(' ').nth(2).unwrap_or("X").to_string();
        if !free.is_empty() && !free.contains(&axis.as_str()) {
            let next = random.pick(&free);
            *action = action.replacen(&format!("[ {axis} ]"), &format!("[ {next} ]"), 1);
            used.push(next.into());
        } else if free.is_empty() {
            *action = format!("SETAL ( {} )", random.between(65000, 69999));
        } else {
            used.push(axis);
        }
    }
    actions
}

fn head(random: &mut Random, keyword: &str) -> String {
    match keyword {
        "" => String::new(),
        _ => format!("{keyword} {}", condition(random, 2)),
    }
}

pub fn any_head(random: &mut Random) -> String {
    let keyword = random.weighted(&KEYWORDS);
    head(random, keyword)
}

/// Fills, reads or drains a FIFO, mostly guarded by its count.
fn fifo_line(random: &mut Random) -> String {
    let fifo = format!("$AC_FIFO{}", random.between(1, 4));
    let guard = |sign: &str, count: i64| format!("WHENEVER {fifo} [ 4 ] {sign} {count} DO");
    match random.below(9) {
        0..=1 => format!("{} {fifo} [ 0 ] = {}", guard("<", 16), number(random, 1)),
        2 => format!(
            "{} DO {fifo} [ 0 ] = {} {fifo} [ 0 ] = $A_INA [ 1 ]",
            any_head(random),
            number(random, 1)
        ),
        3 => {
            let values = ["1000000", "1000000", "- 1000000"].map(|value| format!("{fifo} [ 0 ] = {value}"));
            format!("{} {}", guard("<", 13), values.join(" "))
        }
        4..=5 => format!("{} {} = {fifo} [ 0 ]", guard(">", random.between(0, 6)), writable(random)),
        6 => format!("{} $R [ 0 ] = {fifo} [ 1 ] - {fifo} [ 2 ]", guard(">=", 1)),
        7 => format!("{} {fifo} [ 4 ] = 0", guard(">", random.between(3, 15))),
        _ => format!("{} DO {} = {fifo} [ 0 ]", any_head(random), writable(random)),
    }
}

fn lock_line(random: &mut Random, numbers: &[i64]) -> String {
    let keyword = random.pick(&["EVERY", "WHENEVER", "WHENEVER", "WHEN"]);
    format!("{keyword} {} DO {}", switched(random), lock(random, numbers))
}

/// Bodies of three lines: two that lock and unlock the line `number` by an input, and its own.
pub fn held_lines(random: &mut Random, number: i64) -> [String; 3] {
    let input = random.between(1, 4);
    let keyword = random.pick(&["EVERY", "EVERY", "WHEN", "FROM"]);
    let sign = random.pick(&["+", "-"]);
    [
        format!("WHENEVER $A_IN [ {input} ] == 1 DO LOCK ( {number} )"),
        format!("WHENEVER $A_IN [ {input} ] == 0 DO UNLOCK ( {number} )"),
        format!("{keyword} {} DO $AC_MARKER [ 2 ] = $AC_MARKER [ 2 ] {sign} 1", switched(random)),
    ]
}

pub fn lock(random: &mut Random, numbers: &[i64]) -> String {
    let word = random.pick(&["LOCK", "UNLOCK"]);
    format!("{word} ( {} )", random.pick(numbers))
}

fn timer_line(random: &mut Random) -> String {
    let timer = index(random, 0, 7);
    let start = random.pick(&["0", "0", "0.002", "- 1", "- 0.001", "999999.999"]);
    if random.chance(50) {
        format!("EVERY {} DO $AC_TIMER [ {timer} ] = {start}", switched(random))
    } else {
        let limit = random.pick(&["0.008", "0.02", "0.1"]);
        format!("WHENEVER $AC_TIMER [ {timer} ] >= {limit} DO $AC_TIMER [ {timer} ] = {start}")
    }
}

/// Raises an alarm when two inputs meet, so that it passes again.
fn alarm_line(random: &mut Random) -> String {
    let alarm = random.pick(&ALARMS);
    format!("WHENEVER ( {} ) AND ( {} ) DO {alarm}", switched(random), switched(random))
}

/// Makes variables seen in orders: those that `others` use, or any.
pub fn watching_line(random: &mut Random, others: &[String]) -> String {
    let used = used_variables(others);
    let count = if used.is_empty() { random.between(1, 5) } else { random.between(3, 6) };
    let watch = |random: &mut Random| match used.len() {
        0 => readable(random),
        length => used[random.below(length)].clone(),
    };
    let actions: Vec<String> =
        (0..count).map(|_| format!("POS [ {} ] = {}", axis(random), watch(random))).collect();
    format!("DO {}", one_move(random, actions).join(" "))
}

/// The variables in these lines, for a FIFO its sum.
fn used_variables(lines: &[String]) -> Vec<String> {
    let mut found = Vec::new();
    for line in lines {
        let tokens: Vec<&str> = line.split(' ').collect();
        for place in tokens.windows(4).filter(|place| place[0].starts_with('$')) {
            let index = if place[0].contains("FIFO") { "3" } else { place[2] };
            found.push(format!("{} [ {index} ]", place[0]));
        }
    }
    found
}

/// A variable that may be written with almost any value.
fn writable(random: &mut Random) -> String {
    match random.below(12) {
        0..=3 => format!("$AC_MARKER [ {} ]", index(random, 0, 31)),
        4..=5 => format!("$AC_PARAM [ {} ]", index(random, 0, 31)),
        6..=9 => format!("$R [ {} ]", index(random, 0, 99)),
        10 => format!("$AC_TIMER [ {} ]", index(random, 0, 7)),
        _ => format!("$AC_FIFO{} [ 0 ]", random.between(1, 4)),
    }
}

pub fn action(random: &mut Random, keyword: &str, numbers: &[i64]) -> String {
    let place = index(random, 0, 31);
    match random.below(25) {
        0..=2 => format!("$AC_MARKER [ {place} ] = $AC_MARKER [ {place} ] + 1"),
        24 => format!("$AC_MARKER [ {} ] = {}", random.between(28, 31), half(random)),
        3..=8 => format!("{} = {}", writable(random), number(random, 2)),
        9..=10 => format!("$A_OUT [ {} ] = $A_IN [ {} ]", index(random, 1, 16), index(random, 1, 16)),
        11 => format!("$A_OUT [ 1 ] = 1 - $A_OUT [ {} ]", index(random, 1, 16)),
        12..=14 => format!("POS [ {} ] = {}", axis(random), number(random, 2)),
        15 => format!(
            "FA [ {} ] = {}",
            axis(random),
            random.pick(&["1", "0.001", "1000000", "$A_INA [ 8 ] + 10"])
        ),
        16..=17 => format!("MOV [ {} ] = {}", axis(random), number(random, 1)),
        18..=19 if ["WHEN", "EVERY"].contains(&keyword) => format!("M = {}", random.between(0, 99)),
        20 => format!("SETAL ( {} )", random.between(65000, 69999)),
        21..=22 => lock(random, numbers),
        _ => format!("$R [ {} ] = {}", index(random, 0, 99), number(random, 2)),
    }
}
