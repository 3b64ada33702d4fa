//! The state of the control: variables, timers, FIFOs, and what is known of each line and each analogue channel.

use crate::reading::{Channel, CHANNELS};
use crate::set::LINES;
use crate::value::{in_range, Value, TOP, UNIT};

/// The number of acts at which a line's count stays.
pub const TOP_ACTS: u32 = 4_000_000_000;
/// Thousandths that a running timer grows by in a beat.
const GROWTH: Value = 4;
/// Places of a FIFO, and where the run of R of the first one starts.
const PLACES: usize = 16;
const RUNS: usize = 100;

#[derive(Clone, Copy, PartialEq, Eq, Default, Debug)]
pub struct Timer {
    pub value: Value,
    pub running: bool,
}

/// What is known of a line. Memory: WHEN and FROM have acted; EVERY's turn before was true. Acts: how often it acted since the load
/// or the last control reset that left it live.
#[derive(Clone, Copy, PartialEq, Eq, Default, Debug)]
pub struct LineState {
    pub locked: bool,
    pub cancelled: bool,
    pub memory: bool,
    pub acts: u32,
}

#[derive(Clone, PartialEq, Eq, Debug)]
pub struct State {
    pub outputs: [Value; 16],
    pub markers: [Value; 32],
    pub params: [Value; 32],
    pub r: [Value; 164],
    pub timers: [Timer; 8],
    pub fifo_counts: [usize; 4],
    pub lines: [LineState; LINES],
    pub channels: [Channel; CHANNELS],
}

impl State {
    pub fn power_on() -> State {
        State {
            outputs: [0; 16],
            markers: [0; 32],
            params: [0; 32],
            r: [0; 164],
            timers: [Timer::default(); 8],
            fifo_counts: [0; 4],
            lines: [LineState::default(); LINES],
            channels: [Channel::default(); CHANNELS],
        }
    }

    /// FIFO 1 to 4 with its run of R.
    pub fn fifo(&mut self, fifo: usize) -> crate::fifo::Fifo<'_> {
        let start = run_start(fifo);
        crate::fifo::Fifo { run: &mut self.r[start..start + PLACES], count: &mut self.fifo_counts[fifo - 1] }
    }

    /// The start of a beat.
    pub fn grow_timers(&mut self) {
        for timer in self.timers.iter_mut().filter(|timer| timer.running) {
            timer.value = (timer.value + GROWTH).min(TOP);
        }
    }

    /// The state's part of what sound means, for a set of `lines` lines.
    pub fn is_sound(&self, lines: usize) -> bool {
        self.outputs.iter().all(|value| [0, UNIT].contains(value))
            && self.markers.iter().all(|value| in_range(*value) && *value % UNIT == 0)
            && self.params.iter().chain(&self.r).all(|value| in_range(*value))
            && self.timers.iter().all(|timer| (0..=TOP).contains(&timer.value))
            && (1..=4).all(|fifo| self.fifo_is_sound(fifo))
            && self.lines.iter().all(|line| !line.cancelled || !(line.locked || line.memory))
            && self.lines.iter().all(|line| line.acts <= TOP_ACTS)
            && self.lines[lines..].iter().all(|line| *line == LineState::default())
            && self.channels.iter().all(|channel| channel.is_sound())
    }

    fn fifo_is_sound(&self, fifo: usize) -> bool {
        let start = run_start(fifo);
        let count = self.fifo_counts[fifo - 1];
        count <= PLACES && self.r[start + count..start + PLACES].iter().all(|value| *value == 0)
    }
}

fn run_start(fifo: usize) -> usize {
    RUNS + PLACES * (fifo - 1)
}
