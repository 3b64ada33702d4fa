//! Set text for prints: needless zeros, chains of signs, deep brackets, and texts that fill the most bytes.

use super::{beats, distinct_numbers, layout, random_lines};
use crate::load::TEXT;
use crate::random::Random;

/// Brackets that may be open at once.
const DEPTH: usize = 8;
/// Lines as a print writes them, words and numbers in every neighbourhood.
const PLAIN_CURVES: [&str; 3] = [
    "FCTDEF(2,0,120,160,-2,0,0)\n", "FCTDEF(1,-0.5,1,-0,0,0.001,1000000)\n",
    "FCTDEF(3,-100,-10.01,1,2,3,4)\n",
];
const PLAIN_BODIES: [&str; 6] = [
    " DO$R[1]=1.5$R[2]=$A_INA[1]POS[X]=0.001", " WHEN NOT TRUE DO M=7 M=99",
    " FROM(1<2)AND TRUE DO FA[U]=10 SETAL(65000)", " EVERY 1<=$A_IN[1]DO$AC_MARKER[0]=--1",
    " WHENEVER((TRUE))DO MOV[W]=-(1-2)", " WHENEVER TRUE XOR NOT NOT FALSE DO$A_OUT[16]=1000000",
];

/// What `synprint` reads; the beats are not looked at.
pub fn input(random: &mut Random) -> Vec<u8> {
    let mut input = if random.chance(12) { full_text(random) } else { dressed_text(random) };
    if random.chance(60) {
        if input.last().is_some_and(|byte| *byte != b'\n') {
            input.push(b'\n');
        }
        input.extend(b"*\n");
        input.extend(beats::script(random, false));
    }
    input
}

/// A set whose lines are written at length; every sixth has near misses, and some have no line, or curves alone.
fn dressed_text(random: &mut Random) -> Vec<u8> {
    if random.chance(2) {
        return layout::set_text(random, &["".into(), " ".into(), "".into()]);
    }
    let mut set = random_lines(random, 16);
    if random.chance(4) {
        set.lines.clear();
    }
    let lines: Vec<String> = set.all_lines().iter().map(|line| dressed(random, line)).collect();
    layout::set_text(random, &lines)
}

/// The line with zeros at its numbers, and with signs and brackets before its operands.
fn dressed(random: &mut Random, line: &str) -> String {
    let tokens: Vec<&str> = line.split(' ').filter(|token| !token.is_empty()).collect();
    let mut written: Vec<String> = Vec::new();
    let mut open: usize = 0;
    for (place, token) in tokens.iter().enumerate() {
        let before = |back: usize| place.checked_sub(back).map_or("", |place| tokens[place]);
        open = match *token {
            "(" => open + 1,
            ")" => open.saturating_sub(1),
            _ => open,
        };
        written.push(match *token {
            "TRUE" | "FALSE" | "NOT" if random.chance(40) => format!("{}{token}", chain(random, "NOT ")),
            _ if !token.starts_with(|first: char| first.is_ascii_digit()) => token.to_string(),
            _ if stands_alone(before(2), before(1)) => zeros(random, token, false),
            _ if tokens[0] == "FCTDEF" => zeros(random, token, true),
            _ => operand(random, token, DEPTH.saturating_sub(open)),
        });
    }
    written.join(" ")
}

/// The number after these two tokens is one without a point: an index, or that of a line, a curve, M, SETAL, LOCK or UNLOCK.
pub fn stands_alone(first: &str, second: &str) -> bool {
    let named = ["ID", "IDS", "M", "SETAL", "LOCK", "UNLOCK", "FCTDEF", "SYNFCT"].contains(&first);
    second == "[" || (named && ["=", "("].contains(&second))
}

/// An operand that is a number, with signs before it and up to `room` brackets around it.
fn operand(random: &mut Random, number: &str, room: usize) -> String {
    let inner = format!("{}{}", signs(random), zeros(random, number, true));
    let brackets = match random.below(10) {
        0 => room,
        1 => random.below(room + 1),
        _ => 0,
    };
    let outer = if brackets > 0 { signs(random) } else { String::new() };
    format!("{outer}{}{inner}{}", "( ".repeat(brackets), " )".repeat(brackets))
}

fn signs(random: &mut Random) -> String {
    if random.chance(15) {
        chain(random, "- ")
    } else {
        String::new()
    }
}

/// The sign or word a few times, seldom often.
fn chain(random: &mut Random, sign: &str) -> String {
    let most = if random.chance(3) { 60 } else { 4 };
    sign.repeat(random.between(1, most) as usize)
}

/// The number with needless zeros, up to the digits that it may have; behind the point only if it may have one.
fn zeros(random: &mut Random, number: &str, pointed: bool) -> String {
    let (whole, places) = number.split_once('.').unwrap_or((number, ""));
    let most = if random.chance(2) { 8 } else { 7 };
    let before = if random.chance(30) { random.below(most + 1) } else { 0 };
    let behind = if pointed && random.chance(30) { random.below(4) } else { 0 };
    let places = format!("{places:0<behind$}");
    let point = if places.is_empty() { "" } else { "." };
    format!("{whole:0>before$}{point}{places}")
}

/// A text that is its own print but for the order of its lines, filled up to the most bytes, or one fewer or more.
fn full_text(random: &mut Random) -> Vec<u8> {
    let curves = PLAIN_CURVES[..random.below(4)].concat();
    let count = random.between(1, 29) as usize;
    let numbers = distinct_numbers(random, count);
    let lines: Vec<String> = numbers
        .iter()
        .map(|number| format!("{}={number}{}", random.pick(&["ID", "IDS"]), random.pick(&PLAIN_BODIES)))
        .collect();
    let text = curves + &lines.join("\n");
    let wanted = TEXT + 1 - random.pick(&[0, 1, 1, 1, 1, 2]);
    let head = if text.ends_with(|last: char| last.is_ascii_digit()) { " POS[Y]=" } else { "POS[Y]=" };
    let signs = wanted.saturating_sub(text.len() + head.len() + 1);
    format!("{text}{head}{}5", "-".repeat(signs)).into_bytes()
}
