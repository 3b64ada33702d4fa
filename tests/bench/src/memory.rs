//! The same variables for both: the reference's state and inputs, and R and the cells of the proved walk.

use crate::proved::{Memory, CELLS, RS};
use reference::beat::{Inputs, Mode};
use reference::random::Random;
use reference::state::State;
use reference::value::{Value, TOP, UNIT};

/// The first cell of each sort of variable: crates/working/specs/Variables.
const INA: usize = 16;
const OUT: usize = 30;
const MARKER: usize = 46;
const PARAM: usize = 78;
const TIMER: usize = 110;
const COUNT: usize = 118;

/// A state and the inputs of a beat.
pub struct World {
    pub state: State,
    pub word: u16,
    /// Eight analogues, then the positions X to W.
    pub numbers: [i32; 14],
}

impl World {
    pub fn inputs(&self) -> Inputs<'_> {
        let analogues = std::array::from_fn(|channel| Value::from(self.numbers[channel]));
        Inputs { mode: Mode::Automatic, word: self.word, analogues, positions: &self.numbers[8..] }
    }

    pub fn memory(&self) -> Memory {
        let mut cells = [0; CELLS];
        for (input, cell) in cells[..16].iter_mut().enumerate() {
            *cell = i32::from(self.word >> input & 1) * UNIT as i32;
        }
        cells[INA..OUT].copy_from_slice(&self.numbers);
        let state = &self.state;
        fill(&mut cells[OUT..], state.outputs);
        fill(&mut cells[MARKER..], state.markers);
        fill(&mut cells[PARAM..], state.params);
        fill(&mut cells[TIMER..], state.timers.map(|timer| timer.value));
        fill(&mut cells[COUNT..], state.fifo_counts.map(|count| count as Value));
        let mut r = [0; RS];
        fill(&mut r, state.r);
        Memory { r, cells }
    }
}

fn fill<const N: usize>(cells: &mut [i32], values: [Value; N]) {
    for (cell, value) in cells.iter_mut().zip(values) {
        *cell = value as i32;
    }
}

/// A cutter that runs: five cuts wait in FIFO 1, and no expression of the sets in `sets` alarms.
pub fn running() -> World {
    let mut state = State::power_on();
    for (index, value) in state.r.iter_mut().take(100).enumerate() {
        *value = 1500 + 250 * index as Value;
    }
    state.fifo_counts[0] = 5;
    for (place, value) in state.r[100..105].iter_mut().enumerate() {
        *value = 812_000 + 1_250 * place as Value;
    }
    state.markers[0] = 17 * UNIT;
    state.markers[1] = UNIT;
    state.outputs[2] = UNIT;
    state.timers[0].value = 120;
    World { state, word: 0b1011_0111, numbers: [420, 610, 75, 0, 0, 0, 0, 0, 2_400, 811_400, 0, 0, 0, 0] }
}

/// A sound state and inputs at random: mostly small numbers, some at the ends of the range.
pub fn random(random: &mut Random) -> World {
    let mut state = State::power_on();
    state.r.iter_mut().take(100).for_each(|value| *value = number(random));
    state.params.iter_mut().for_each(|value| *value = number(random));
    state.markers.iter_mut().for_each(|value| *value = number(random) / UNIT * UNIT);
    state.outputs.iter_mut().for_each(|value| *value = random.between(0, 1) * UNIT);
    state.timers.iter_mut().for_each(|timer| timer.value = number(random).abs());
    for fifo in 1..=4 {
        for _ in 0..random.pick(&[0, 0, 1, 2, 5, 16]) {
            let value = number(random);
            state.fifo(fifo).write(0, value).expect("a place is free");
        }
    }
    let word = random.below(1 << 16) as u16;
    World { state, word, numbers: std::array::from_fn(|_| number(random) as i32) }
}

fn number(random: &mut Random) -> Value {
    match random.below(8) {
        0 => random.pick(&[-TOP, TOP, 0, 1, -1, UNIT]),
        1 => random.between(-TOP, TOP),
        2 | 3 => random.between(-5, 5),
        _ => random.between(-20, 20) * UNIT,
    }
}
