//! Curves in a set: what sound means for them, also for lines that no host session can put there, and a curve's six steps.

use reference::code::Code;
use reference::control::Control;
use reference::load::load;
use reference::print::print;
use reference::seen::Seen;
use reference::set::{Set, LINES};
use reference::slip::Slip;
use reference::token::{tokens, Token};
use reference::tree::Curve;
use reference::value::{Value, TOP};

const CURVES: &str = "FCTDEF(2,-1,1,0,0,0,0)\nFCTDEF(1,0,0,0,0,0,0)\n";
const USE: &str = "ID=1 DO SYNFCT(1,$R[1],$R[2])\n";

fn set(text: &str) -> Set {
    load(text.as_bytes(), Slip::None).expect("the text is taken")
}

fn line(text: &str) -> Vec<Token> {
    tokens(text.as_bytes()).expect("tokens")
}

/// Whether the set is sound once its curves 1 to 3 have these lines; an empty one stands for none.
fn sound_with(curves: [&str; 3], lines: &str) -> bool {
    let mut set = set(&format!("{CURVES}{lines}"));
    let written = |curve: &str| Some(line(curve)).filter(|line| !line.is_empty());
    for (number, curve) in (1..).zip(curves) {
        set.damage_curves(|curves| curves.put_line(number, written(curve)));
    }
    set.lines().is_ok()
}

#[test]
fn curves_of_a_sound_set_have_their_numbers_and_are_allowed() {
    let [one, two, three] = [1, 2, 3].map(|number| format!("FCTDEF({number},-1,1,0,0,0,0)"));
    assert!(sound_with(["", "", ""], ""));
    assert!(sound_with([&one, &two, &three], USE));
    assert!(sound_with([&one, "", &three], USE));
    assert!(!sound_with([&one, &three, ""], USE));
    assert!(!sound_with(["", &two, &three], USE));
    assert!(sound_with(["", &two, &three], ""));
    assert!(!sound_with([&two, &three, ""], USE));
    assert!(!sound_with([&two, &one, ""], USE));
    assert!(!sound_with([&one, &one, ""], USE));
    assert!(sound_with(["FCTDEF(1,1,1,0,0,0,0)", "", ""], USE));
    assert!(!sound_with(["FCTDEF(1,1,0.999,0,0,0,0)", "", ""], USE));
    assert!(!sound_with(["FCTDEF(0,0,1,0,0,0,0)", "", ""], ""));
    assert!(!sound_with(["FCTDEF(4,0,1,0,0,0,0)", "", ""], ""));
    assert!(!sound_with(["FCTDEF(1,0,1,0,0,0)", "", ""], ""));
    assert!(!sound_with(["ID=2 DO $R[1]=1", "", ""], ""));
}

#[test]
fn curves_and_lines_are_together_at_most_32() {
    let lines: String = (1..=LINES - 2).map(|number| format!("ID={number} DO $R[1]=1\n")).collect();
    let mut set = set(&format!("{CURVES}{lines}"));
    assert!(set.lines().is_ok());
    set.damage_curves(|curves| curves.put_line(3, Some(line("FCTDEF(3,0,1,0,0,0,0)"))));
    assert_eq!(print(&set, Slip::None), Err(Code::NotSound));
    set.damage(|_, count| *count -= 1);
    assert!(set.lines().is_ok());
}

#[test]
fn every_call_refuses_a_set_with_damaged_curves() {
    let mut control = Control::new(Slip::None, Seen::default());
    control.load(format!("{CURVES}{USE}").as_bytes()).expect("the text is taken");
    control.set.damage_curves(|curves| [curves.put_start(1, 2), curves.put_start(2, 1)]);
    assert_eq!([control.lock(1), control.cancel(9), control.control_reset()], [Code::NotSound; 3]);
    control.set.damage_curves(|curves| [curves.put_start(1, 1), curves.put_start(2, 2)]);
    assert_eq!(control.control_reset(), Code::Success);
    let printed = print(&control.set, Slip::None).expect("the set is sound");
    assert_eq!(printed, b"FCTDEF(1,0,0,0,0,0,0)\nFCTDEF(2,-1,1,0,0,0,0)\nID=1 DO SYNFCT(1,$R[1],$R[2])");
}

fn at(x: Value, limits: [Value; 2], factors: [Value; 4]) -> Result<Value, Code> {
    let curve = Curve { number: 1, lower: limits[0], upper: limits[1], factors };
    curve.work(x, Slip::None, &mut Seen::default())
}

#[test]
fn the_examples_of_document_02() {
    let feed = |x| at(x, [0, 120_000], [160_000, -2000, 0, 0]);
    assert_eq!([30_000, 80_000, 10_000].map(feed), [Ok(100_000), Ok(0), Ok(120_000)]);
    let speed = |x| at(x, [-100_000, 100_000], [500_000, -100_000, 0, 0]);
    assert_eq!([5000, 6000].map(speed), [Ok(0), Ok(-100_000)]);
}

#[test]
fn each_of_the_six_steps_is_ranged() {
    let wide = [-TOP, TOP];
    for sign in [1, -1] {
        for (place, below) in [(3, 2), (2, 1), (1, 0)] {
            let mut factors = [0; 4];
            factors[place] = sign * TOP;
            assert_eq!(at(1001, wide, factors), Err(Code::ValueOutOfRange));
            assert_eq!(at(1000, wide, factors), Ok(sign * TOP));
            factors[below] = sign;
            assert_eq!(at(1000, wide, factors), Err(Code::ValueOutOfRange));
            assert_eq!(at(0, [0, 0], factors), Ok(0));
        }
    }
}
