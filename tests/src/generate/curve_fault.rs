//! Near misses of curves: changes that reach each code of FCTDEF and SYNFCT, and their neighbours that pass.

use super::curve::{synfct, Curve, Sort};
use super::fault::{append, insert, missing, remove};
use crate::random::Random;

/// FCTDEF lines beside the grammar or outside its ranges; `#` stands for a free number.
const CURVES: [&str; 22] = [
    "FCTDEF ( # , 0 , 1 , 0 , 0 , 0 )", "FCTDEF ( # , 0 , 1 , 0 , 0 , 0 , 0 , 0 )",
    "FCTDEF ( # , - - 0 , 1 , 0 , 0 , 0 , 0 )", "FCTDEF ( # , 0 , ( 1 ) , 0 , 0 , 0 , 0 )",
    "FCTDEF ( #.0 , 0 , 1 , 0 , 0 , 0 , 0 )", "FCTDEF ( - # , 0 , 1 , 0 , 0 , 0 , 0 )",
    "FCTDEF ( # , 0 , 1 , $R [ 1 ] , 0 , 0 , 0 )", "FCTDEF ( # , 0 , 1 , 0 , 0 , 0 , 0 ) DO $R [ 1 ] = 1",
    "FCTDEF ( 0 , 0 , 1 , 0 , 0 , 0 , 0 )", "FCTDEF ( 4 , 1 , 0 , 0 , 0 , 0 , 0 )",
    "FCTDEF ( # , 0 , 1 , 1000000.001 , 0 , 0 , 0 )", "FCTDEF ( # , 0 , 1 , 00000000 , 0 , 0 , 0 )",
    "FCTDEF ( # , 0 , 1 , 0 , 0 , 0.0000 , 0 )", "FCTDEF ( # , 0.001 , 0 , 0 , 0 , 0 , 0 )",
    "FCTDEF ( # , - 1 , - 1.001 , 0 , 0 , 0 , 0 )", "FCTDEF ( # , 1 , 0 , 0 , 0 , 0 , 0 )",
    "FCTDEF ( # , 0 , - 0 , 0 , 0 , 0 , 0 )", "FCTDEF ( 00# , 1 , 1.000 , 0 , 0 , 0 , 0 )",
    "FCTDEF ( ( ( ( ( ( ( ( ( # , 0 , 1", "FCTDEF ( # , 0 , 1 , 0 , 0 , 0 , 0 ) a",
    "FCTDEF ( # , - 1000000 , 1000000 , 0 , 0 , 0 , 0 )", "SYNFCT ( # , $R [ 1 ] , $R [ 2 ] )",
];
/// SYNFCT actions beside the grammar, its ranges and what may be written or read; `#` is a number that is defined.
const SYNFCTS: [&str; 22] = [
    "SYNFCT ( # , POS [ X ] , $R [ 9 ] )", "SYNFCT ( # , $R [ 9 ] , 1 )",
    "SYNFCT ( # , $R [ 9 ] , - $R [ 9 ] )", "SYNFCT ( # , $R [ 9 ] , ( $R [ 9 ] ) )",
    "SYNFCT ( #.0 , $R [ 9 ] , $R [ 9 ] )", "SYNFCT ( # , $R [ 9 ] )",
    "SYNFCT ( # , $R [ 9 ] , $R [ 9 ] , 1 )", "FCTDEF ( # , 0 , 1 , 0 , 0 , 0 , 0 )",
    "SYNFCT ( 0 , $R [ 9 ] , $R [ 9 ] )", "SYNFCT ( 4 , $R [ 9 ] , $R [ 9 ] )",
    "SYNFCT ( # , $R [ 164 ] , $R [ 9 ] )", "SYNFCT ( # , $R [ 9 ] , $A_IN [ 0 ] )",
    "SYNFCT ( # , $A_IN [ 1 ] , $R [ 9 ] )", "SYNFCT ( # , $R [ 100 ] , $R [ 9 ] )",
    "SYNFCT ( # , $AC_FIFO1 [ 2 ] , $R [ 9 ] )", "SYNFCT ( # , $AA_IM [ X ] , $R [ 9 ] )",
    "SYNFCT ( # , $R [ 9 ] , $AC_FIFO1 [ 0 ] )", "SYNFCT ( # , $R [ 9 ] , $AC_FIFO2 [ 00 ] )",
    "SYNFCT ( ( ( ( ( ( ( ( ( #", "SYNFCT ( # , $R [ 99 ] , $R [ 163 ] )",
    "SYNFCT ( 00# , $R [ 9 ] , $AC_FIFO1 [ 4 ] )", "SYNFCT ( # , $R [ 9 ] , $R [ 9 ] ) , $R [ 9 ] = 1",
];

/// Puts a fault, or what just passes, into the curves of a set or the lines that use them.
pub fn add_fault(random: &mut Random, curves: &mut Vec<Curve>, lines: &mut Vec<String>, numbers: &[i64]) {
    let defined = curves.first().map_or(1, |curve| curve.number);
    let free = (1..=3).find(|number| curves.iter().all(|curve| curve.number != *number)).unwrap_or(1);
    let place = random.below(lines.len());
    match random.below(9) {
        8 => many(random, &mut lines[place], defined),
        0..=1 => add_curve(random, curves, free),
        2 => add_curve(random, curves, defined),
        3..=4 => append(&mut lines[place], &random_line(random, &SYNFCTS, defined)),
        5 => undefined(random, lines, numbers, free),
        6 => behind_a_line(random, curves, lines),
        _ => change(random, curves),
    }
}

fn random_line(random: &mut Random, from: &[&str], number: i64) -> String {
    random.pick(from).replace('#', &number.to_string())
}

fn add_curve(random: &mut Random, curves: &mut Vec<Curve>, number: i64) {
    let line = random_line(random, &CURVES, number);
    let place = random.below(curves.len() + 1);
    curves.insert(place, Curve { number, sort: Sort::Any, line });
}

/// A SYNFCT of a curve that is not defined, now and then below a LOCK of a missing line.
fn undefined(random: &mut Random, lines: &mut [String], numbers: &[i64], number: i64) {
    let last = lines.len() - 1;
    append(&mut lines[last], &synfct(number, "$R [ 9 ]", "$R [ 8 ]"));
    if random.chance(50) {
        append(&mut lines[0], &format!("LOCK ( {} )", missing(random, numbers)));
    }
}

/// Brings a line to eight actions or more, M at times among them.
fn many(random: &mut Random, line: &mut String, number: i64) {
    if random.chance(30) {
        append(line, "M = 5");
    }
    let one = synfct(number, "$R [ 9 ]", "$R [ 8 ]");
    append(line, &vec![one; random.between(5, 9) as usize].join(" "));
}

/// Moves a curve, or one that would be faulty in its place, behind a numbered line.
fn behind_a_line(random: &mut Random, curves: &mut Vec<Curve>, lines: &mut Vec<String>) {
    let line = curves.pop().map_or_else(|| random_line(random, &CURVES, 1), |curve| curve.line);
    let place = random.below(lines.len() + 1);
    lines.insert(place, line);
}

/// Adds, drops or moves a token of a curve.
fn change(random: &mut Random, curves: &mut [Curve]) {
    if let Some(curve) = curves.first_mut() {
        match random.below(3) {
            0 => insert(random, &mut curve.line, &[",", "-", "1", "(", ")", "0.5", "a", "DO", "X"]),
            1 => remove(random, &mut curve.line),
            _ => append(&mut curve.line, random.pick(&[",", ")", "FCTDEF", "; comment"])),
        }
    }
}
