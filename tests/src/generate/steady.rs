//! Full sets that run for thousands of beats: what their lines write stays in range, so that alarms come from inputs
//! and pass with them.

use super::curve::{curves, steady_lines, steady_sorts};
use super::expression::{axis, half};
use super::layout::lines_text;
use super::line::{held_lines, lock, one_move, watching_line, ALARMS, KEYWORDS};
use super::{distinct_numbers, RandomSet};
use crate::load::TEXT;
use crate::random::Random;
use crate::set::LINES;

/// Bytes of a line, spaces not counted, after which it gets no further action.
const ROOM: usize = 130;
/// A body for lines of a text that is too long.
const SHORT_BODY: &str = "DO POS [ X ] = 1";

/// A set that is taken when loaded; in half of them most lines are IDS lines, which outlive a control reset.
pub fn full_set(random: &mut Random) -> RandomSet {
    let sorts = steady_sorts(random);
    let curves = if random.chance(70) { curves(random, &sorts) } else { Vec::new() };
    let most = LINES - curves.len();
    let count = if random.chance(80) { most } else { random.between(21, most as i64 - 1) as usize };
    let numbers = distinct_numbers(random, count);
    let ids = random.pick(&[20, 45, 80, 95]);
    let crowded = random.chance(25);
    let mut bodies: Vec<String> = (0..count).map(|_| acting_line(random, &numbers, crowded)).collect();
    for first in [1, 4] {
        bodies[first..first + 3].clone_from_slice(&held_lines(random, numbers[first + 2]));
    }
    bodies[7] = alarm_line(random);
    bodies[8] = alarm_line(random);
    bodies[9..12].clone_from_slice(&fifo_lines(random));
    bodies[12..14].clone_from_slice(&self_locking_lines(random, numbers[12]));
    if !curves.is_empty() {
        let steady = steady_lines(random, &curves);
        bodies[14..14 + steady.len()].clone_from_slice(&steady);
    }
    bodies[0] = watching_line(random, &bodies[1..]);
    let scope = |random: &mut Random| if random.chance(ids) { "IDS" } else { "ID" };
    let head = |random: &mut Random, number: i64| format!("{} = {number}", scope(random));
    let mut lines: Vec<String> = numbers
        .iter()
        .zip(bodies)
        .map(|(number, body)| format!("{} {body}", head(random, *number)))
        .collect();
    let defining: Vec<String> = curves.iter().map(|curve| curve.line.clone()).collect();
    let mut text = lines_text(random, &[&defining[..], &lines].concat());
    while text.len() > TEXT {
        let (place, number) = longest(&lines, &numbers);
        lines[place] = format!("{} {SHORT_BODY}", head(random, number));
        text = lines_text(random, &[&defining[..], &lines].concat());
    }
    RandomSet { curves, numbers, lines, text, faulty: false }
}

fn longest(lines: &[String], numbers: &[i64]) -> (usize, i64) {
    let place = (0..lines.len()).max_by_key(|place| lines[*place].len()).unwrap_or(0);
    (place, numbers[place])
}

/// A line of any keyword, with actions up to its room: few of every sort, or up to eight orders.
fn acting_line(random: &mut Random, numbers: &[i64], crowded: bool) -> String {
    let keyword = random.weighted(&KEYWORDS);
    let head = if keyword.is_empty() { "DO".into() } else { format!("{keyword} {} DO", condition(random)) };
    let most = if crowded { 8 } else { random.between(2, 7) };
    let mut room = ROOM.saturating_sub(bytes(&head));
    let mut actions = Vec::new();
    for _ in 0..most {
        let next = if crowded { short_order(random) } else { action(random, keyword, numbers) };
        if !actions.is_empty() && bytes(&next) > room {
            break;
        }
        room = room.saturating_sub(bytes(&next));
        actions.push(next);
    }
    format!("{head} {}", one_move(random, actions).join(" "))
}

fn bytes(line: &str) -> usize {
    line.bytes().filter(|byte| *byte != b' ').count()
}

/// A condition by an input: 1 to 4 switch often, 5 to 8 now and then, 9 to 12 seldom.
fn switched(random: &mut Random) -> String {
    let input = random.weighted(&[(6, 1), (3, 5), (1, 9)]) + random.between(0, 3);
    format!("$A_IN [ {input} ] {}", random.pick(&["== 1", "== 1", "== 0", "<> 1", ">= 1"]))
}

fn condition(random: &mut Random) -> String {
    match random.below(20) {
        0..=9 => switched(random),
        10..=11 => format!("$A_INA [ {} ] > {}", random.between(1, 3), random.pick(&["0", "1.5", "- 2"])),
        12 => format!("$AA_IM [ {} ] < 0", axis(random)),
        13 => format!("$AC_MARKER [ {} ] > {}", random.between(0, 7), random.pick(&["3", "20", "300"])),
        14 => format!("$AC_TIMER [ {} ] >= 0.1", random.between(0, 3)),
        15 => format!("$AC_FIFO1 [ 4 ] > {}", random.between(0, 9)),
        16 => format!("$R [ {} ] <= 0.5", random.between(0, 7)),
        17 => format!("NOT ( {} )", switched(random)),
        _ => {
            let joint = random.pick(&["AND", "OR", "XOR"]);
            format!("( {} ) {joint} ( {} )", switched(random), switched(random))
        }
    }
}

/// A variable whose value stays small, unless the host lends a large one.
fn source(random: &mut Random) -> String {
    match random.below(6) {
        0..=1 => format!("$A_INA [ {} ]", random.between(1, 3)),
        2 => format!("$AA_IM [ {} ]", axis(random)),
        3 => format!("$AC_MARKER [ {} ]", random.between(0, 7)),
        4 => format!("$AC_TIMER [ {} ]", random.between(0, 3)),
        _ => "$AC_FIFO1 [ 4 ]".into(),
    }
}

/// Counters, and values that shrink more than they grow.
fn action(random: &mut Random, keyword: &str, numbers: &[i64]) -> String {
    let (to, from) = (random.between(0, 7), random.between(0, 7));
    match random.below(28) {
        24..=27 => format!("$AC_MARKER [ {} ] = {}", random.between(28, 31), half(random)),
        0..=4 => format!("$AC_MARKER [ {to} ] = $AC_MARKER [ {to} ] + 1"),
        5 => format!("$AC_MARKER [ {to} ] = 0"),
        6..=8 => format!("$R [ {to} ] = $R [ {from} ] / 3 + {}", source(random)),
        9..=10 => format!("$AC_PARAM [ {to} ] = $R [ {from} ] * 0.5 - {}", source(random)),
        11 => format!("$A_OUT [ {} ] = $A_IN [ {} ]", to + 1, from + 1),
        12 => format!("$A_OUT [ {} ] = 1 - $A_OUT [ {} ]", to + 1, from + 1),
        13 => format!("POS [ {} ] = {}", axis(random), source(random)),
        14 => format!("POS [ {} ] = $R [ {} ]", axis(random), 100 + 16 * random.between(0, 3) + to),
        15 => format!("MOV [ {} ] = {} - 1", axis(random), source(random)),
        16 => format!("FA [ {} ] = $AC_TIMER [ {} ] + 1", axis(random), random.between(0, 3)),
        17..=18 if ["WHEN", "EVERY"].contains(&keyword) => format!("M = {}", random.between(0, 99)),
        19..=20 if ["", "FROM"].contains(&keyword) => format!("UNLOCK ( {} )", random.pick(numbers)),
        19..=20 => lock(random, numbers),
        21 if keyword == "EVERY" => format!("$AC_FIFO{} [ 4 ] = 0", random.between(1, 4)),
        21 => format!("$AC_TIMER [ {} ] = {}", random.between(0, 3), random.pick(&["0", "0", "- 1"])),
        _ => short_order(random),
    }
}

fn short_order(random: &mut Random) -> String {
    match random.below(8) {
        0 => format!("SETAL ( {} )", random.between(65000, 69999)),
        1 => format!("MOV [ {} ] = - 1", axis(random)),
        2 => format!("FA [ {} ] = 2", axis(random)),
        _ => format!("POS [ {} ] = {}", axis(random), random.between(0, 99)),
    }
}

/// A line that alarms when an input of 13 to 16 flashes.
fn alarm_line(random: &mut Random) -> String {
    let full = ["$AC_FIFO4 [ 0 ] = 1"; 4].join(" ");
    let alarm = if random.chance(25) { full } else { random.pick(&ALARMS).to_string() };
    let keyword = random.pick(&["WHENEVER", "WHENEVER", "EVERY", "WHEN"]);
    format!("{keyword} $A_IN [ {} ] == 1 DO {alarm}", random.between(13, 16))
}

/// A line that locks itself, and one that frees it.
fn self_locking_lines(random: &mut Random, number: i64) -> [String; 2] {
    let keyword = random.pick(&["EVERY", "WHENEVER", "FROM"]);
    let own = format!("{keyword} {} DO LOCK ( {number} ) {}", switched(random), short_order(random));
    [own, format!("EVERY {} DO UNLOCK ( {number} )", switched(random))]
}

/// Lines that fill and drain a FIFO by its count, and read from it.
fn fifo_lines(random: &mut Random) -> [String; 3] {
    let fifo = format!("$AC_FIFO{}", random.between(1, 3));
    [
        format!(
            "WHENEVER {fifo} [ 4 ] < {} DO {fifo} [ 0 ] = {} / 100",
            random.between(4, 16),
            source(random)
        ),
        format!("WHENEVER {fifo} [ 4 ] > {} DO $AC_PARAM [ 1 ] = {fifo} [ 0 ]", random.between(1, 12)),
        format!("WHENEVER {fifo} [ 4 ] >= 1 DO $R [ 1 ] = {fifo} [ 1 ] - {fifo} [ 2 ] + {fifo} [ 3 ]"),
    ]
}
