//! One beat: the turns of the lines on a copy of the state, until an alarm.

use crate::code::Code;
use crate::history::Entry;
use crate::order::Order;
use crate::reading::CHANNELS;
use crate::seen::Seen;
use crate::set::Set;
use crate::slip::Slip;
use crate::state::{LineState, State, TOP_ACTS};
use crate::token::{Keyword, Motion, Scope};
use crate::tree::{Action, Curve, Line, Synfct};
use crate::value::Value;
use crate::witness::Witness;

#[derive(Clone, Copy, PartialEq, Eq, Debug)]
pub enum Mode {
    Automatic,
    Manual,
}

/// What a line does when its turn comes.
#[derive(Clone, Copy, PartialEq, Eq, Debug)]
pub enum Turn {
    /// It takes none.
    Skipped,
    /// It works no condition.
    Settled { acts: bool },
    /// It works its condition, and acts if that is true and this says so.
    Tried { acts_if_true: bool },
}

/// What the host gives to a beat, in range.
pub struct Inputs<'a> {
    pub mode: Mode,
    pub word: u16,
    /// The values of the analogues, as the readings of their channels give them.
    pub analogues: [Value; CHANNELS],
    /// X to W.
    pub positions: &'a [i32],
}

pub struct Beat<'a> {
    lines: &'a [Line],
    pub curves: &'a [Curve],
    pub inputs: &'a Inputs<'a>,
    pub slip: Slip,
    pub seen: &'a mut Seen,
    pub witness: Option<&'a mut Witness>,
    /// The state as it stood at the beat's start, for a slip only.
    pub start: Option<State>,
    pub state: State,
    pub orders: Vec<Order>,
    /// The lines that acted, bit by rank.
    pub acted: u32,
}

impl<'a> Beat<'a> {
    /// A beat over these lines, without curves.
    pub fn new(
        lines: &'a [Line],
        state: &State,
        inputs: &'a Inputs<'a>,
        slip: Slip,
        seen: &'a mut Seen,
    ) -> Beat<'a> {
        let (curves, orders) = (&[], Vec::new());
        let mut state = state.clone();
        state.grow_timers();
        let start = (slip == Slip::ReadAtBeatStart).then(|| state.clone());
        Beat { lines, curves, inputs, slip, seen, witness: None, start, state, orders, acted: 0 }
    }

    /// Works the turns; the first alarm ends them.
    pub fn work(&mut self, set: &Set) -> Result<(), Code> {
        for rank in set.turns() {
            self.turn(*rank)?;
        }
        Ok(())
    }

    fn turn(&mut self, rank: usize) -> Result<(), Code> {
        let line = &self.lines[rank];
        let turn = self.decide(line, rank);
        if let Some(witness) = &mut self.witness {
            witness.compare(rank, line, turn);
            self.seen.held_high(witness, rank);
        }
        let (gave, acts) = match turn {
            Turn::Skipped => return Ok(()),
            Turn::Settled { acts } => (false, acts),
            Turn::Tried { acts_if_true } => {
                let gave = self.condition(line, rank)?;
                (gave, gave && acts_if_true)
            }
        };
        self.seen.turn(turn, gave, acts, line.keyword());
        if let Some(witness) = &mut self.witness {
            witness.acts(rank, gave);
        }
        if acts || self.slip == Slip::TurnsCounted {
            self.count_act(rank);
        }
        if acts {
            self.acted |= 1 << rank;
            for action in &line.actions {
                self.act(rank, action)?;
            }
        }
        Ok(())
    }

    /// One act more, up to the top.
    fn count_act(&mut self, rank: usize) {
        let acts = &mut self.state.lines[rank].acts;
        if *acts < TOP_ACTS || self.slip == Slip::ActsPastTheTop {
            *acts += 1;
        } else {
            self.seen.note("acts stay at the top");
        }
    }

    /// What the line does, by the flags of its state.
    fn decide(&mut self, line: &Line, rank: usize) -> Turn {
        let known = &mut self.state.lines[rank];
        let kept_off = if known.cancelled {
            Some("skip by cancel")
        } else if known.locked {
            Some("skip by lock")
        } else if line.scope == Scope::Id && self.inputs.mode != Mode::Automatic {
            Some("skip by mode")
        } else {
            None
        };
        if let Some(way) = kept_off {
            known.memory &= self.slip != Slip::MemoryClearedAtSkip;
            self.seen.skip(way, line.keyword());
            return Turn::Skipped;
        }
        match line.keyword() {
            None => Turn::Settled { acts: true },
            Some(Keyword::When) if known.memory => Turn::Settled { acts: false },
            Some(Keyword::From) if known.memory => Turn::Settled { acts: true },
            Some(Keyword::Every) => {
                Turn::Tried { acts_if_true: !known.memory || self.slip == Slip::EveryByLevel }
            }
            _ => Turn::Tried { acts_if_true: true },
        }
    }

    /// Works the condition, and keeps in the line's memory what it gave.
    fn condition(&mut self, line: &Line, rank: usize) -> Result<bool, Code> {
        let Some((keyword, condition)) = &line.condition else {
            return Ok(true);
        };
        let gave = self.truth(condition)?;
        if *keyword != Keyword::Whenever {
            self.state.lines[rank].memory = gave;
        }
        if let Some(witness) = &mut self.witness {
            witness.write(Entry::Gave(rank, gave));
        }
        Ok(gave)
    }

    fn act(&mut self, rank: usize, action: &Action) -> Result<(), Code> {
        match action {
            Action::Assign(variable, side) => {
                let value = self.number(side)?;
                self.write(*variable, value)
            }
            Action::Move(motion, axis, side) => {
                let value = self.number(side)?;
                self.motion(rank, *motion, *axis, value)
            }
            Action::M(number) => self.order(rank, "order M", 4, 0, *number),
            Action::Setal(number) => self.order(rank, "order SETAL", 5, 0, *number),
            Action::Lock(number) => self.lock(rank, *number, true),
            Action::Unlock(number) => self.lock(rank, *number, false),
            Action::Synfct(synfct) => self.synfct(*synfct),
        }
    }

    /// Reads the source, works the curve on it, and writes the limited result by the target's own rules.
    fn synfct(&mut self, synfct: Synfct) -> Result<(), Code> {
        let x = self.read(synfct.source);
        self.seen.synfct_read(synfct.source, x);
        let curve = self.curves.iter().find(|curve| curve.number == synfct.curve);
        let curve = curve.expect("a SYNFCT that the checks refuse");
        let value = curve.work(x?, self.slip, self.seen)?;
        let written = self.write(synfct.target, value);
        self.seen.synfct_write(synfct.target, written);
        written
    }

    fn motion(&mut self, rank: usize, motion: Motion, axis: u8, value: Value) -> Result<(), Code> {
        match motion {
            Motion::Pos => self.order(rank, "order POS", 1, axis, value),
            Motion::Fa if value <= 0 => Err(Code::ValueNotAllowed),
            Motion::Fa => self.order(rank, "order FA", 2, axis, value),
            Motion::Mov => self.order(rank, "order MOV", 3, axis, value.signum()),
        }
    }

    fn order(&mut self, rank: usize, event: &str, kind: u8, target: u8, value: i64) -> Result<(), Code> {
        self.seen.note(event);
        let line = self.lines[rank].number as u8;
        self.orders.push(Order { kind, line, target, value: value as i32 });
        Ok(())
    }

    /// LOCK or UNLOCK in text; a cancelled line stays as it is.
    fn lock(&mut self, from: usize, number: i64, locks: bool) -> Result<(), Code> {
        let Some(rank) = self.lines.iter().position(|line| line.number == number) else {
            return Ok(());
        };
        self.seen.lock(locks, rank.cmp(&from), self.state.lines[rank].cancelled);
        if let Some(witness) = &mut self.witness {
            witness.text_lock(rank, locks);
        }
        let line = &mut self.state.lines[rank];
        if !line.cancelled {
            set_lock(line, locks, self.slip);
        }
        Ok(())
    }
}

/// Locks or unlocks a line that is not cancelled, by text or host.
pub fn set_lock(line: &mut LineState, locks: bool, slip: Slip) {
    line.locked = locks;
    if !locks && slip == Slip::MemoryClearedAtUnlock {
        line.memory = false;
    }
}
