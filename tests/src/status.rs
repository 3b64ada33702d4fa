//! The status picture: what the screen shows of each line.

use crate::state::LineState;
use crate::token::Scope;
use crate::tree::Line;
use std::fmt;

/// Whether a line is locked, cancelled, or waiting, which is neither.
#[derive(Clone, Copy, PartialEq, Eq, Debug)]
pub enum Standing {
    Waiting,
    Locked,
    Cancelled,
}

impl Standing {
    pub fn word(self) -> &'static str {
        match self {
            Standing::Waiting => "waiting",
            Standing::Locked => "locked",
            Standing::Cancelled => "cancelled",
        }
    }
}

/// One line of the picture.
#[derive(Clone, Copy, PartialEq, Eq, Debug)]
pub struct Status {
    pub scope: Scope,
    pub number: i64,
    pub standing: Standing,
    pub acts: u32,
}

impl Status {
    /// That of a line of which this is known, in a sound state.
    pub fn of(line: &Line, known: &LineState) -> Status {
        let standing = match (known.cancelled, known.locked) {
            (true, _) => Standing::Cancelled,
            (false, true) => Standing::Locked,
            (false, false) => Standing::Waiting,
        };
        Status { scope: line.scope, number: line.number, standing, acts: known.acts }
    }
}

impl fmt::Display for Status {
    fn fmt(&self, out: &mut fmt::Formatter) -> fmt::Result {
        let scope = match self.scope {
            Scope::Id => "ID",
            Scope::Ids => "IDS",
        };
        write!(out, "S {scope} {} {} {}", self.number, self.standing.word(), self.acts)
    }
}
