//! The proved walks over tokens: the working of all expressions of a set, beside the trees of the reference and of the lean interpreter, and the check of its lines.

use crate::lean;
use crate::loaded::{self, Loaded, Worked};
use crate::measure::{Measure, Row};
use crate::memory::World;
use crate::proved::{self, Memory};
use reference::beat::Beat;
use reference::seen::Seen;
use reference::slip::Slip;
use std::hint::black_box;

/// A row by tokens.
fn row(name: &str, tokens: usize) -> Row<'_> {
    Row { name, size: format!("{tokens} tokens"), unit: "token", units: tokens }
}

/// The working of all expressions, in nanoseconds a token of theirs.
pub fn working(measure: &Measure, name: &str, loaded: &Loaded, world: &World) {
    let expressions = loaded.expressions();
    let (memory, inputs) = (world.memory(), world.inputs());
    let mut seen = Seen::default();
    let mut beat = Beat::new(loaded.lines(), &world.state, &inputs, Slip::None, &mut seen);
    let mut by_walk = || walk(loaded, &memory, &expressions);
    let mut by_reference = || {
        for worked in &expressions {
            if worked.is_condition {
                _ = black_box(beat.truth(worked.tree));
            } else {
                _ = black_box(beat.number(worked.tree));
            }
        }
    };
    let mut by_lean = || {
        for worked in &expressions {
            if worked.is_condition {
                _ = black_box(lean::truth(world, worked.tree));
            } else {
                _ = black_box(lean::number(world, worked.tree));
            }
        }
    };
    let works: &mut [&mut dyn FnMut()] = &mut [&mut by_walk, &mut by_reference, &mut by_lean];
    measure.row(&row(name, loaded::sizes(&expressions)), works);
}

/// Works all expressions by the proved walk.
fn walk(loaded: &Loaded, memory: &Memory, expressions: &[Worked]) {
    let set = &loaded.laid.set;
    for worked in expressions {
        if worked.is_condition {
            black_box(proved::condition(set, memory, worked.place));
        } else {
            black_box(proved::right_side(set, memory, worked.place));
        }
    }
}

/// The check of all lines, in nanoseconds a token of theirs.
pub fn check(measure: &Measure, name: &str, loaded: &Loaded) {
    let mut by_check = || {
        for start in &loaded.laid.starts {
            black_box(proved::line_fault(&loaded.laid.set, *start));
        }
    };
    measure.row(&row(name, loaded.tokens), &mut [&mut by_check]);
}
