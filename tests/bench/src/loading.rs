//! Loading a set text: what it takes by the proved call and by the reference, which makes trees of it.

use crate::measure::{Measure, Row};
use crate::proved::{self, SIZE};
use crate::sets;
use reference::load;
use reference::slip::Slip;
use std::hint::black_box;

pub fn rows(measure: &Measure) {
    row(measure, "load example", sets::EXAMPLE);
    row(measure, "load cutter", sets::CUTTER);
    row(measure, "load signs", &sets::signs());
    for lines in [1, 2, 4, 8, 16, 32] {
        row(measure, &format!("load lines {lines}"), &sets::full(lines));
    }
}

fn row(measure: &Measure, name: &str, text: &str) {
    let text = text.as_bytes();
    let mut set = Box::new([0; SIZE]);
    let mut by_load = || _ = black_box(proved::load(black_box(text), &mut set));
    let mut by_reference = || _ = black_box(load::load(black_box(text), Slip::None));
    let row = Row { name, size: format!("{} bytes", text.len()), unit: "text", units: 1 };
    measure.row(&row, &mut [&mut by_load, &mut by_reference]);
}
