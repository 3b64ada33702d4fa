//! Random inputs by seed: set text with beats, for `synrun` and for `synstat`, host sessions, short and long, and set text for prints.

mod beats;
mod curve;
mod curve_damage;
mod curve_fault;
mod expression;
mod fault;
mod filled;
mod host;
mod layout;
mod line;
mod long;
mod print;
mod steady;

use crate::load::TEXT;
use crate::random::Random;
use crate::runner::Form;
use crate::set::LINES;
use curve::Curve;

/// A random set: its curves, and its numbered lines. `faulty` says that near misses were put in.
struct RandomSet {
    curves: Vec<Curve>,
    numbers: Vec<i64>,
    lines: Vec<String>,
    text: Vec<u8>,
    faulty: bool,
}

/// The input of this form that the seed gives.
pub fn input(form: Form, seed: u64) -> Vec<u8> {
    match form {
        Form::Synrun if seed % 10 == 0 => long_synrun_input(&mut Random::new(4 * seed)),
        Form::Synrun => synrun_input(&mut Random::new(4 * seed)),
        Form::Stat if seed % 10 == 0 => long_synrun_input(&mut Random::new(!seed)),
        Form::Stat => synrun_input(&mut Random::new(!seed)),
        Form::Host => host::session(&mut Random::new(4 * seed + 1)),
        Form::Long => long::session(&mut Random::new(4 * seed + 2)),
        Form::Print => print::input(&mut Random::new(4 * seed + 3)),
    }
}

fn synrun_input(random: &mut Random) -> Vec<u8> {
    let mut input = random_set(random, 40).text;
    if random.chance(98) {
        let star: &[u8] = if random.chance(5) { b"*\r\n" } else { b"*\n" };
        input.extend(star);
        input.extend(beats::script(random, false));
    }
    if random.chance(5) {
        fault::spoil_bytes(random, &mut input);
    }
    input
}

/// A thousand beats and more, over a full set or a small one.
fn long_synrun_input(random: &mut Random) -> Vec<u8> {
    let small = Some(random_set(random, 0)).filter(|set| set.text.len() <= TEXT && random.chance(50));
    let mut input = small.unwrap_or_else(|| steady::full_set(random)).text;
    input.extend(b"*\n");
    input.extend(beats::script(random, true));
    input
}

/// A set that has near misses in `percent` of a hundred.
fn random_set(random: &mut Random, percent: usize) -> RandomSet {
    let set = random_lines(random, percent);
    RandomSet { text: layout::set_text(random, &set.all_lines()), ..set }
}

impl RandomSet {
    /// The lines that define curves, and then the numbered lines.
    fn all_lines(&self) -> Vec<String> {
        self.curves.iter().map(|curve| &curve.line).chain(&self.lines).cloned().collect()
    }
}

/// Such a set without its text.
fn random_lines(random: &mut Random, percent: usize) -> RandomSet {
    let mut curves = curve::some_curves(random);
    let count = if random.chance(4) { random.below(LINES + 1) } else { random.between(1, 9) as usize };
    let count = count.min(LINES - curves.len());
    let numbers = distinct_numbers(random, count);
    let mut lines: Vec<String> = numbers.iter().map(|number| line::line(random, *number, &numbers)).collect();
    if count > 3 && random.chance(25) {
        for (place, body) in (1..).zip(line::held_lines(random, numbers[3])) {
            lines[place] = format!("{} = {} {body}", random.pick(&["ID", "IDS"]), numbers[place]);
        }
    }
    for (place, line) in lines.iter_mut().enumerate() {
        if !curves.is_empty() && random.chance(30) {
            *line = format!(
                "{} = {} {}",
                random.pick(&["ID", "IDS"]),
                numbers[place],
                curve::line(random, &curves)
            );
        }
    }
    if count > 0 && random.chance(75) {
        lines[0] = format!("IDS = {} {}", numbers[0], line::watching_line(random, &lines[1..]));
    }
    let faulty = count > 0 && random.chance(percent);
    let in_curves = faulty && random.chance(35);
    if in_curves {
        curve_fault::add_fault(random, &mut curves, &mut lines, &numbers);
    }
    let in_moves = faulty && random.chance(15);
    if in_moves {
        fault::add_move_fault(random, &mut lines, &numbers);
    }
    if faulty && (!(in_curves || in_moves) || random.chance(25)) {
        fault::add_faults(random, &mut lines, &numbers);
    }
    RandomSet { curves, numbers, lines, text: Vec::new(), faulty }
}

/// Distinct line numbers in no order, mostly small, the highest first so that a watching line comes last.
fn distinct_numbers(random: &mut Random, count: usize) -> Vec<i64> {
    let top = if random.chance(70) { 40 } else { 255 };
    let mut numbers: Vec<i64> = Vec::new();
    while numbers.len() < count {
        let number = random.between(1, top);
        if !numbers.contains(&number) {
            numbers.push(number);
        }
    }
    if let Some(highest) = (0..count).max_by_key(|place| numbers[*place]) {
        numbers.swap(0, highest);
    }
    numbers
}
