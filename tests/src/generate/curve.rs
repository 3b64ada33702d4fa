//! Random curves and the lines that use them.

use super::expression::{axis, index, readable, switched};
use super::line::any_head;
use crate::random::Random;

/// What a curve gives, which decides where it goes.
#[derive(Clone, Copy, PartialEq, Eq)]
pub enum Sort {
    /// 0 or 1 at 0 and 1.
    Bit,
    Zero,
    Any,
    /// Small values wherever it is worked.
    Mild,
    /// An alarm at most places: at 1 in a sum, beyond it in the product before.
    Alarm,
}

/// A curve of the set, and the line that defines it.
#[derive(Clone)]
pub struct Curve {
    pub number: i64,
    pub sort: Sort,
    pub line: String,
}

const BITS: [&str; 4] = [
    "0 , 1 , 0 , 1 , 0 , 0", "0 , 1 , 1 , - 1 , 0 , 0", "1 , 1 , 0 , 0 , 0 , 0",
    "0 , 1 , - 0.5 , 1000 , 0 , 0",
];
const ZEROS: [&str; 3] =
    ["0 , 0 , 5 , 1 , 0 , 0", "- 0 , 0.000 , 0 , 0 , 0 , 0", "0 , - 0 , - 1 , 2 , 3 , 0"];
const ALARMS: [&str; 6] = [
    "0 , 1 , 0 , 0 , 1 , 1000000", "0 , 1 , 0 , 1 , 1000000 , 0", "0 , 1 , 1 , 1000000 , 0 , 0",
    "0 , 1 , 0 , 0 , - 1 , - 1000000", "0 , 1 , 0 , - 1 , - 1000000 , 0", "0 , 1 , - 1 , - 1000000 , 0 , 0",
];
const LIMITS: [&str; 9] = [
    "- 1000000 , 1000000", "0 , 120", "- 100 , 100", "- 1 , 1", "0.5 , 1.5", "- 2.5 , - 0.499", "3 , 3.000",
    "- 0.001 , 0.001", "- 007 , 12.50",
];
const FACTORS: [&str; 14] =
    ["0", "0", "0", "1", "- 2", "0.5", "- 0.001", "160", "- 100", "- 0", "500", "0.333", "- 1.999", "12.345"];

/// Curves of these sorts, with distinct numbers in no order.
pub fn curves(random: &mut Random, sorts: &[Sort]) -> Vec<Curve> {
    let mut numbers = vec![1, 2, 3];
    let take = |sort: &Sort| {
        let number = numbers.remove(random.below(numbers.len()));
        let parameters = parameters(random, *sort);
        Curve { number, sort: *sort, line: format!("FCTDEF ( {number} , {parameters} )") }
    };
    sorts.iter().map(take).collect()
}

/// None to three curves of any sort.
pub fn some_curves(random: &mut Random) -> Vec<Curve> {
    let count = random.weighted(&[(60, 0), (16, 1), (14, 2), (10, 3)]);
    let sort = |random: &mut Random| {
        random.weighted(&[(5, Sort::Any), (2, Sort::Bit), (1, Sort::Zero), (2, Sort::Alarm)])
    };
    let sorts: Vec<Sort> = (0..count).map(|_| sort(random)).collect();
    curves(random, &sorts)
}

fn parameters(random: &mut Random, sort: Sort) -> String {
    let mild_limits = &LIMITS[1..];
    match sort {
        Sort::Bit => random.pick(&BITS).into(),
        Sort::Zero => random.pick(&ZEROS).into(),
        Sort::Alarm => random.pick(&ALARMS).into(),
        Sort::Any => {
            let factors: Vec<&str> = (0..4).map(|_| random.pick(&FACTORS)).collect();
            format!("{} , {}", random.pick(&LIMITS), factors.join(" , "))
        }
        Sort::Mild => {
            let (a0, a1) = (random.pick(&FACTORS), random.pick(&["0", "1", "- 2", "0.5", "- 0", "12.345"]));
            let (a2, a3) = (random.pick(&["0", "- 0.5", "0.333"]), random.pick(&["0", "0", "- 0.001"]));
            format!("{} , {a0} , {a1} , {a2} , {a3}", random.pick(mild_limits))
        }
    }
}

pub fn synfct(number: i64, target: &str, source: &str) -> String {
    format!("SYNFCT ( {number} , {target} , {source} )")
}

/// The body of a line that works one of these curves.
pub fn line(random: &mut Random, curves: &[Curve]) -> String {
    let curve = &curves[random.below(curves.len())];
    if curve.sort == Sort::Alarm {
        let alarm = synfct(curve.number, "$R [ 0 ]", &alarm_source(random));
        return format!("WHENEVER ( {} ) AND ( {} ) DO {alarm}", switched(random), switched(random));
    }
    if random.chance(12) {
        return fifo_line(random, curve);
    }
    let count = random.between(1, 3);
    let actions: Vec<String> = (0..count).map(|_| action(random, curve)).collect();
    format!("{} DO {}", any_head(random), actions.join(" "))
}

/// Puts results into a FIFO with room, or reads from one that is not empty.
fn fifo_line(random: &mut Random, curve: &Curve) -> String {
    let fifo = format!("$AC_FIFO{}", random.between(1, 4));
    if random.chance(50) {
        let append = synfct(curve.number, &format!("{fifo} [ 0 ]"), &readable(random));
        return format!("WHENEVER {fifo} [ 4 ] < 16 DO {append}");
    }
    let place = format!("{fifo} [ {} ]", random.between(1, 3));
    format!("WHENEVER {fifo} [ 4 ] > 0 DO {}", synfct(curve.number, "$R [ 1 ]", &place))
}

fn action(random: &mut Random, curve: &Curve) -> String {
    let fifo = random.between(1, 4);
    match curve.sort {
        Sort::Bit if random.chance(60) => {
            let target = format!("$A_OUT [ {} ]", index(random, 1, 16));
            synfct(curve.number, &target, &format!("$A_IN [ {} ]", index(random, 1, 16)))
        }
        Sort::Zero if random.chance(60) => {
            synfct(curve.number, &format!("$AC_FIFO{fifo} [ 4 ]"), &readable(random))
        }
        _ => synfct(curve.number, &target(random), &source(random)),
    }
}

/// Any variable that may be written; some alarm with most values.
fn target(random: &mut Random) -> String {
    match random.below(40) {
        0..=11 => format!("$AC_MARKER [ {} ]", index(random, 0, 31)),
        12..=18 => format!("$AC_PARAM [ {} ]", index(random, 0, 31)),
        19..=31 => format!("$R [ {} ]", index(random, 0, 99)),
        32..=36 => format!("$AC_TIMER [ {} ]", index(random, 0, 7)),
        37 => format!("$A_OUT [ {} ]", index(random, 1, 16)),
        38 => format!("$AC_FIFO{} [ 4 ]", random.between(1, 4)),
        _ => format!("$AC_FIFO{} [ 0 ]", random.between(1, 4)),
    }
}

/// Any variable that a SYNFCT may read.
fn source(random: &mut Random) -> String {
    match random.below(20) {
        0 => format!("$AC_FIFO{} [ {} ]", random.between(1, 4), random.between(1, 2)),
        _ => readable(random),
    }
}

/// 0 or 1, or mostly more.
fn alarm_source(random: &mut Random) -> String {
    match random.below(3) {
        0 => format!("$A_INA [ {} ]", index(random, 1, 8)),
        1 => format!("$AC_MARKER [ {} ]", random.between(0, 7)),
        _ => format!("$A_IN [ {} ]", random.between(1, 4)),
    }
}

// ---- lines that run for thousands of beats

/// The sorts of curves of a full set.
pub fn steady_sorts(random: &mut Random) -> [Sort; 3] {
    [Sort::Mild, Sort::Alarm, random.pick(&[Sort::Bit, Sort::Zero, Sort::Mild])]
}

/// Bodies of lines over curves of these sorts: what they write stays small, and alarms come with inputs that flash.
pub fn steady_lines(random: &mut Random, curves: &[Curve]) -> Vec<String> {
    let (any, alarm) = (curves[0].number, curves[1].number);
    let flashing = |random: &mut Random| format!("WHENEVER $A_IN [ {} ] == 1 DO", random.between(13, 16));
    let fifo = format!("$AC_FIFO{}", random.between(1, 3));
    let place = format!("{fifo} [ {} ]", random.between(1, 2));
    let heads = ["WHENEVER", "EVERY", "FROM"];
    vec![
        format!("DO {} {}", steady_synfct(random, any), steady_synfct(random, any)),
        format!("{} {} DO {}", random.pick(&heads), switched(random), steady_synfct(random, any)),
        format!(
            "WHENEVER {fifo} [ 4 ] < 9 DO {}",
            synfct(any, &format!("{fifo} [ 0 ]"), &steady_source(random))
        ),
        format!("WHENEVER {fifo} [ 4 ] > 0 DO {}", synfct(any, "$R [ 2 ]", &place)),
        format!("EVERY {} DO {}", switched(random), last_synfct(random, &curves[2])),
        format!("{} {}", flashing(random), synfct(alarm, "$R [ 0 ]", &alarm_source(random))),
        format!("{} {}", flashing(random), write_or_read_alarm(random, any)),
    ]
}

fn steady_synfct(random: &mut Random, number: i64) -> String {
    let target = match random.below(8) {
        0..=2 => format!("$R [ {} ]", random.between(0, 7)),
        3..=4 => format!("$AC_PARAM [ {} ]", random.between(0, 7)),
        5..=6 => format!("$AC_MARKER [ {} ]", random.between(0, 7)),
        _ => format!("$AC_TIMER [ {} ]", random.between(4, 7)),
    };
    synfct(number, &target, &steady_source(random))
}

fn steady_source(random: &mut Random) -> String {
    match random.below(11) {
        0 => format!("$A_IN [ {} ]", random.between(1, 8)),
        1..=2 => format!("$A_INA [ {} ]", random.between(1, 3)),
        3 => format!("$AA_IM [ {} ]", axis(random)),
        4 => format!("$A_OUT [ {} ]", random.between(1, 8)),
        5 => format!("$AC_MARKER [ {} ]", random.between(0, 7)),
        6 => format!("$AC_PARAM [ {} ]", random.between(0, 7)),
        7 => format!("$R [ {} ]", random.between(0, 7)),
        8 => format!("$R [ {} ]", 100 + 16 * random.between(0, 3)),
        9 => format!("$AC_TIMER [ {} ]", random.between(0, 3)),
        _ => format!("$AC_FIFO{} [ {} ]", random.between(1, 3), random.between(3, 4)),
    }
}

/// The third curve to a place that takes what it gives.
fn last_synfct(random: &mut Random, curve: &Curve) -> String {
    match curve.sort {
        Sort::Bit => {
            let target = format!("$A_OUT [ {} ]", random.between(1, 8));
            synfct(curve.number, &target, &format!("$A_IN [ {} ]", random.between(1, 8)))
        }
        Sort::Zero => {
            let target = format!("$AC_FIFO{} [ 4 ]", random.between(1, 4));
            synfct(curve.number, &target, &steady_source(random))
        }
        _ => steady_synfct(random, curve.number),
    }
}

/// An alarm in the reading before the steps or in the writing behind them.
fn write_or_read_alarm(random: &mut Random, number: i64) -> String {
    match random.below(4) {
        0 => synfct(number, "$R [ 0 ]", "$AC_FIFO4 [ 1 ]"),
        1 => format!(
            "$AC_FIFO4 [ 0 ] = 1000000 $AC_FIFO4 [ 0 ] = 1000000 {}",
            synfct(number, "$R [ 0 ]", "$AC_FIFO4 [ 3 ]")
        ),
        2 => vec![synfct(number, "$AC_FIFO4 [ 0 ]", "$A_INA [ 1 ]"); 4].join(" "),
        _ => synfct(number, random.pick(&["$A_OUT [ 9 ]", "$AC_FIFO4 [ 4 ]"]), &steady_source(random)),
    }
}
