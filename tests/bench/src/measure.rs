//! Times as minima: on a machine that does other work too, the least of many short runs is nearest to what the work takes.

use std::time::Instant;

/// The least time that one run of a round should take.
const RUN_NANOSECONDS: f64 = 20_000.0;

/// What is measured how often.
pub struct Measure {
    pub rounds: usize,
    /// The proved call without the others.
    pub alone: bool,
}

/// What a row is about: its name, how many of what, and the unit whose time is given, of which a go works so many.
pub struct Row<'a> {
    pub name: &'a str,
    pub size: String,
    pub unit: &'a str,
    pub units: usize,
}

impl Measure {
    /// Prints a row, fields apart by tabs: name, size, unit, nanoseconds a unit of the proved call, of the reference and of the limit.
    pub fn row(&self, row: &Row, works: &mut [&mut dyn FnMut()]) {
        let measured = if self.alone { 1 } else { works.len() };
        let times = least_times(&mut works[..measured], self.rounds);
        let figures: Vec<String> =
            times.iter().map(|time| format!("{:.4}", time / row.units as f64)).collect();
        println!("{}\t{}\t{}\t{}", row.name, row.size, row.unit, figures.join("\t"));
    }
}

/// Each work's least time of one go, in nanoseconds. The works take turns, so that all meet the same load.
fn least_times(works: &mut [&mut dyn FnMut()], rounds: usize) -> Vec<f64> {
    let goes: Vec<usize> = works.iter_mut().map(|work| goes(work)).collect();
    let mut least = vec![f64::INFINITY; works.len()];
    for _ in 0..rounds {
        for (place, work) in works.iter_mut().enumerate() {
            least[place] = least[place].min(time(work, goes[place]));
        }
    }
    least
}

/// How many goes make a run.
fn goes(work: &mut dyn FnMut()) -> usize {
    let one = (0..50).map(|_| time(work, 1)).fold(f64::INFINITY, f64::min);
    (RUN_NANOSECONDS / one.max(1.0)).ceil() as usize
}

/// The time of one of `goes` goes.
fn time(work: &mut dyn FnMut(), goes: usize) -> f64 {
    let start = Instant::now();
    for _ in 0..goes {
        work();
    }
    start.elapsed().as_nanos() as f64 / goes as f64
}
