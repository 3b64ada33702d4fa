//! That the proved calls, the reference and the lean interpreter answer alike.

use crate::lean;
use crate::loaded::{self, Loaded, Worked};
use crate::memory::{self, World};
use crate::proved::{self, Answer, Memory, Set, SIZE};
use crate::tokens;
use reference::beat::Beat;
use reference::check;
use reference::generate;
use reference::load;
use reference::random::Random;
use reference::runner::Form;
use reference::seen::Seen;
use reference::slip::Slip;
use reference::text;
use reference::token;
use reference::tree::{Expression, Line};
use std::ops::Range;

/// Tokens that one line of a set has room for.
const ROOM: usize = 4096;
/// Worlds in which each random line is worked.
const WORLDS: usize = 3;

#[derive(Default)]
pub struct Agreement {
    pub passed: usize,
    pub failed: usize,
}

impl Agreement {
    /// Every line of the set has no fault, and its expressions have the same values.
    pub fn set(&mut self, loaded: &Loaded, world: &World) {
        for (start, line) in loaded.laid.starts.iter().zip(loaded.lines()) {
            let fault = proved::line_fault(&loaded.laid.set, *start);
            self.note(fault == 0, || format!("fault {fault} of line {}", line.number));
            let expressions = loaded::expressions(&loaded.laid, *start, line);
            self.values(&loaded.laid.set, line, &expressions, world);
        }
    }

    /// The text is loaded alike: the same code and line, and every place of the set.
    pub fn text(&mut self, text: &[u8]) {
        let mut set = Box::new([u32::MAX; SIZE]);
        let found = proved::load(text, &mut set);
        let (expected, laid) = match load::load(text, Slip::None) {
            Ok(_) => ((0, 0), tokens::set(text)),
            Err(refusal) => ((refusal.code.number(), refusal.line as u64), tokens::laid(&[])),
        };
        self.note(found == expected, || format!("loading: {found:?} for {expected:?}: {text:?}"));
        self.note(set == laid.set, || format!("the set of {text:?}"));
    }

    /// The random sets by these seeds: loaded alike; of their lines the same faults, and the same values in random worlds.
    pub fn random(&mut self, seeds: Range<u64>) {
        for seed in seeds {
            let mut random = Random::new(seed);
            let input = generate::input(Form::Synrun, seed);
            self.text(text::split_at_star(&input).0);
            for line in text::lines(&input).map(text::without_comment).take_while(|line| *line != b"*") {
                self.line(&mut random, line);
            }
        }
    }

    fn line(&mut self, random: &mut Random, text: &[u8]) {
        let numbers = std::str::from_utf8(text).ok().and_then(tokens::tokens);
        let expected = token::tokens(text);
        self.note(numbers.is_some() == expected.is_some(), || format!("tokens of {text:?}"));
        let (Some(numbers), Some(expected)) = (numbers, expected) else { return };
        if numbers.is_empty() || numbers.len() > ROOM {
            return;
        }
        let laid = tokens::laid(&[numbers]);
        let fault = proved::line_fault(&laid.set, proved::FIRST);
        match check::line(&expected) {
            Err(code) => {
                self.note(fault == u32::from(code.number()), || format!("{fault} for {code:?}: {text:?}"))
            }
            Ok(line) => {
                self.note(fault == 0, || format!("fault {fault}: {text:?}"));
                let expressions = loaded::expressions(&laid, proved::FIRST, &line);
                for _ in 0..WORLDS {
                    self.values(&laid.set, &line, &expressions, &memory::random(random));
                }
            }
        }
    }

    fn values(&mut self, set: &Set, line: &Line, expressions: &[Worked], world: &World) {
        let memory = world.memory();
        let inputs = world.inputs();
        let mut seen = Seen::default();
        let mut beat = Beat::new(std::slice::from_ref(line), &world.state, &inputs, Slip::None, &mut seen);
        for worked in expressions {
            let proved = by_walk(set, &memory, worked);
            let expected = by_reference(&mut beat, worked);
            let lean = by_lean(world, worked);
            let alike = proved == expected && lean == expected;
            self.note(alike, || format!("{proved:?}, {lean:?} for {expected:?}: {:?}", worked.tree));
        }
    }

    fn note(&mut self, holds: bool, what: impl FnOnce() -> String) {
        if holds {
            self.passed += 1;
        } else {
            self.failed += 1;
            if self.failed <= 5 {
                println!("differs: {}", what());
            }
        }
    }
}

fn by_walk(set: &Set, memory: &Memory, worked: &Worked) -> Answer {
    let walk = if worked.is_condition { proved::condition } else { proved::right_side };
    proved::answer(walk(set, memory, worked.place))
}

fn by_reference(beat: &mut Beat, worked: &Worked) -> Answer {
    let value = match worked.is_condition {
        true => beat.truth(worked.tree).map(i64::from),
        false => beat.number(worked.tree),
    };
    value.map_err(|code| code.number())
}

fn by_lean(world: &World, worked: &Worked) -> Answer {
    let tree: &Expression = worked.tree;
    let value = match worked.is_condition {
        true => lean::truth(world, tree).map(i64::from),
        false => lean::number(world, tree),
    };
    value.map_err(|code| code.number())
}
