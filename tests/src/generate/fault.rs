//! Near misses: changes to lines that reach each load code, and their neighbours that pass.

use super::expression::loose_expression;
use crate::random::Random;

/// Bytes and words that make no token.
const NO_TOKENS: [&str; 23] = [
    "#", "a", "$R1", "$AC_FIFO5", "1.", ".5", "1A", "_", "\t", "\r", "ELSE", "X1", "M7", "1_", "$", "when",
    "!", "A", "1.5.2", "\u{7f}", "AUTOMATIC", "12DO", "$A_INX",
];
/// Tokens for lines that leave the grammar.
const TOKENS: [&str; 21] = [
    "(", ")", "[", "]", "=", "==", "<", "<>", "AND", "OR", "NOT", "-", "+", "*", "1", "1.0", "DO", "X",
    "TRUE", "$R", ",",
];
/// The other tokens, for lines that still may be in it.
const MORE_TOKENS: [&str; 18] = [
    "FALSE", "XOR", ">", "<=", ">=", "/", "ID", "IDS", "WHEN", "FROM", "M", "SETAL", "LOCK", "POS", "$AA_IM",
    "$AC_FIFO1", "FCTDEF", "SYNFCT",
];
const KIND_FAULTS: [&str; 6] = [
    "$R [ 9 ] = TRUE", "$R [ 9 ] = ( 1 < 2 )", "$R [ 9 ] = 1 + NOT TRUE", "POS [ X ] = FALSE",
    "MOV [ Y ] = - TRUE", "$R [ 9 ] = NOT 1",
];
const CONDITION_FAULTS: [&str; 3] = ["WHEN 1 DO", "WHEN NOT 1 DO", "EVERY $AC_FIFO1 [ 0 ] == 1 DO"];
const RANGE_FAULTS: [&str; 19] = [
    "$R [ 164 ] = 1", "$A_OUT [ 0 ] = 1", "$A_OUT [ 17 ] = 1", "$AC_MARKER [ 32 ] = 1",
    "$AC_TIMER [ 8 ] = 1", "$AC_FIFO1 [ 5 ] = 1", "$R [ 9 ] = $A_INA [ 9 ]", "$R [ 9 ] = $A_IN [ 0 ]",
    "$R [ 9 ] = 1000000.001", "$R [ 9 ] = 00000001", "$R [ 9 ] = 1.0000", "$R [ 9 ] = 1000001",
    "SETAL ( 64999 )", "SETAL ( 70000 )", "LOCK ( 0 )", "UNLOCK ( 256 )", "$R [ 99999999 ] = 1",
    "$AC_PARAM [ 32 ] = 0", "$A_IN [ 17 ] = 1",
];
const PLACE_FAULTS: [&str; 14] = [
    "$A_IN [ 1 ] = 1", "$A_INA [ 1 ] = 1", "$AA_IM [ X ] = 1", "$R [ 100 ] = 1", "$R [ 163 ] = 1",
    "$AC_FIFO1 [ 1 ] = 1", "$AC_FIFO2 [ 3 ] = 0", "$R [ 9 ] = ( $AC_FIFO1 [ 0 ] )",
    "$R [ 9 ] = - $AC_FIFO1 [ 0 ]", "POS [ X ] = $AC_FIFO1 [ 0 ]", "$R [ 9 ] = $AC_FIFO1 [ 0 ] + 0",
    "$R [ 9 ] = 1 * $AC_FIFO1 [ 0 ]", "MOV [ X ] = $AC_FIFO4 [ 00 ]", "$AC_FIFO3 [ 2 ] = 1",
];
const PASSING: [&str; 12] = [
    "$R [ 99 ] = 1", "$R [ 9 ] = $R [ 163 ]", "$R [ 9 ] = 1000000.000", "$R [ 9 ] = 0000001",
    "SETAL ( 65000 )", "SETAL ( 69999 )", "$R [ 9 ] = ( ( ( ( ( ( ( ( 1 ) ) ) ) ) ) ) )",
    "$AC_MARKER [ 31 ] = 1", "$A_OUT [ 16 ] = 1", "$AC_TIMER [ 7 ] = 0", "$AC_PARAM [ 031 ] = 0.999",
    "$R [ 9 ] = - - 1",
];
/// Two moves of one axis, and what just passes if the line moves none of these axes.
const MOVES: [&str; 12] = [
    "POS [ X ] = 1 POS [ X ] = 2", "POS [ Y ] = 1 MOV [ Y ] = 0", "MOV [ Z ] = 1 MOV [ Z ] = - 1",
    "MOV [ U ] = 0 $R [ 9 ] = 1 POS [ U ] = 0", "POS [ W ] = 1 FA [ W ] = 1 POS [ W ] = 1",
    "POS [ V ] = 1 FA [ V ] = 2 FA [ V ] = 1", "MOV [ W ] = 1 FA [ W ] = 1", "FA [ X ] = 1 FA [ X ] = 1",
    "POS [ U ] = 1 MOV [ V ] = 1", "FA [ Y ] = 1 POS [ Y ] = 2", "POS [ Z ] = 1", "MOV [ X ] = 0",
];
/// Actions for lines of more than eight, with other faults among them.
const MANY: [&str; 9] = [
    "$R [ 9 ] = 1", "$R [ 8 ] = 2", "POS [ X ] = 1", "FA [ X ] = 1", "MOV [ X ] = 1", "SETAL ( 65000 )",
    "$R [ 9 ] = 0.5", "M = 5", "$A_OUT [ 2 ] = 1",
];
const DEPTH_FAULTS: [&str; 3] =
    ["$R [ 9 ] = ( ( ( ( ( ( ( ( ( 1 ) ) ) ) ) ) ) ) )", "( ( ( ( ( ( ( ( (", ") ) ( ( ( ( ( ( ( ( ("];

/// Puts two moves of one axis into a line, and mostly one of the faults that are told before or after them.
pub fn add_move_fault(random: &mut Random, lines: &mut [String], numbers: &[i64]) {
    let place = random.below(lines.len());
    append(&mut lines[place], random.pick(&MOVES[..5]));
    match random.below(7) {
        0..=2 => renumber(&mut lines[place], &numbers[0].to_string()),
        3 => append(&mut lines[place], "SYNFCT ( 2 , $R [ 9 ] , $R [ 8 ] )"),
        4 => append(&mut lines[0], &format!("LOCK ( {} )", missing(random, numbers))),
        5 => append(&mut lines[place], random.pick(&["$R [ 100 ] = 1", "M = 5", "$R [ 164 ] = 1"])),
        _ => {}
    }
}

/// Puts one to three faults, or things that just pass, into lines of the set, mostly into one.
pub fn add_faults(random: &mut Random, lines: &mut Vec<String>, numbers: &[i64]) {
    let mut place = random.below(lines.len());
    for _ in 0..random.between(1, 3) {
        if random.chance(40) {
            place = random.below(lines.len());
        }
        let fault = random.below(20);
        match fault {
            0 => more_lines(random, lines, numbers),
            1 => used_number(random, &mut lines[place], numbers),
            _ => fault_in_line(random, fault, &mut lines[place], numbers),
        }
    }
}

fn fault_in_line(random: &mut Random, fault: usize, line: &mut String, numbers: &[i64]) {
    match fault {
        2 => insert(random, line, &NO_TOKENS),
        3 => append(line, random.pick(&DEPTH_FAULTS)),
        4 => insert(random, line, &TOKENS),
        5 => remove(random, line),
        6 => append(line, random.pick(&KIND_FAULTS)),
        7 => *line = line.replacen("DO", random.pick(&CONDITION_FAULTS), 1),
        8 => append(line, random.pick(&RANGE_FAULTS)),
        9 => append(line, random.pick(&PLACE_FAULTS)),
        10 => append(line, random.pick(&["M = 5", "M = 100", "M = 0", "M = 99", "M = 1.0"])),
        11 => (0..random.between(5, 9)).for_each(|_| append(line, random.pick(&MANY))),
        12 => insert(random, line, &MORE_TOKENS),
        13..=14 => *line = loose_line(random, line),
        15 => replace(random, line),
        17..=18 => append(line, random.pick(&MOVES)),
        16 => append(line, &format!("{} ( {} )", random.pick(&["LOCK", "UNLOCK"]), missing(random, numbers))),
        _ => append(line, random.pick(&PASSING)),
    }
}

pub fn append(line: &mut String, tokens: &str) {
    line.push(' ');
    line.push_str(tokens);
}

pub fn insert(random: &mut Random, line: &mut String, from: &[&str]) {
    let mut tokens: Vec<&str> = line.split(' ').collect();
    tokens.insert(random.below(tokens.len() + 1), random.pick(from));
    *line = tokens.join(" ");
}

pub fn remove(random: &mut Random, line: &mut String) {
    let mut tokens: Vec<&str> = line.split(' ').collect();
    tokens.remove(random.below(tokens.len()));
    *line = tokens.join(" ");
}

/// Puts a token in another's place, from elsewhere in the line.
fn replace(random: &mut Random, line: &mut String) {
    let mut tokens: Vec<&str> = line.split(' ').collect();
    let place = random.below(tokens.len());
    tokens[place] = random.pick(&tokens);
    *line = tokens.join(" ");
}

/// The line with a condition that may confuse kinds or leave the grammar.
fn loose_line(random: &mut Random, line: &str) -> String {
    let head: Vec<&str> = line.split(' ').take(3).collect();
    let actions = line.split_once("DO ").map_or("", |(_, actions)| actions);
    let keyword = random.pick(&["WHEN", "WHENEVER", "FROM", "EVERY"]);
    format!("{} {keyword} {} DO {actions}", head.join(" "), loose_expression(random, 2))
}

/// Changes, adds or drops a few bytes anywhere.
pub fn spoil_bytes(random: &mut Random, input: &mut Vec<u8>) {
    for _ in 0..random.between(1, 3) {
        let place = random.below(input.len() + 1);
        let byte = random.pick(b" ;\r\n\t$[]()=<>-.019AMX#*_\xFF");
        match random.below(3) {
            0 => input.insert(place, byte),
            _ if place == input.len() => {}
            1 => input[place] = byte,
            _ => drop(input.remove(place)),
        }
    }
}

/// Gives a line a number that is another's, or out of range, or written in another way.
fn used_number(random: &mut Random, line: &mut String, numbers: &[i64]) {
    let number = match random.below(6) {
        0 => random.pick(&["0", "256", "1.0", "00000001", "-1"]).to_string(),
        1 => format!("00{}", random.pick(numbers)),
        _ => random.pick(numbers).to_string(),
    };
    renumber(line, &number);
}

fn renumber(line: &mut String, number: &str) {
    let tokens: Vec<&str> = line.splitn(4, ' ').collect();
    if let [scope, assign, _, body] = tokens[..] {
        *line = format!("{scope} {assign} {number} {body}");
    }
}

/// Brings the set to 32 or 33 lines.
fn more_lines(random: &mut Random, lines: &mut Vec<String>, numbers: &[i64]) {
    let wanted = random.between(32, 33) as usize;
    let free = (1..=255).filter(|number| !numbers.contains(number));
    let more: Vec<i64> = free.take(wanted.saturating_sub(lines.len())).collect();
    lines.extend(more.iter().map(|number| format!("ID = {number} DO $R [ 8 ] = 1")));
}

/// A number that is no line's.
pub fn missing(random: &mut Random, numbers: &[i64]) -> i64 {
    let any = random.between(1, 255);
    (0..255).map(|step| (any + step) % 255 + 1).find(|number| !numbers.contains(number)).unwrap_or(255)
}
