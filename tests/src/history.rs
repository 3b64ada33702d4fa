//! Demand 3 a second time: the history from a load on, and a rule that only looks back over it.

use crate::beat::{Mode, Turn};
use crate::set::LINES;
use crate::slip::Slip;
use crate::token::{Keyword, Scope};

/// What is written down; a line is named by its rank.
#[derive(Clone, Copy, PartialEq, Eq, Debug)]
pub enum Entry {
    /// A beat begins, in this mode.
    Beat(Mode),
    /// A line's condition was worked and gave this.
    Gave(usize, bool),
    Lock(usize),
    Release(usize),
    Cancel(usize),
    /// A line acts, by the rule below.
    Act(usize),
    ControlReset,
}

/// Everything written down since the load: for each entry the places at which it stands, so that looking back for one
/// need not pass all others. Nothing is ever changed but by writing on, or by cutting off a failed beat.
#[derive(Clone)]
pub struct History {
    places: Vec<Vec<usize>>,
    length: usize,
    slip: Slip,
}

impl History {
    pub fn new(slip: Slip) -> History {
        History { places: vec![Vec::new(); Entry::COUNT], length: 0, slip }
    }

    pub fn length(&self) -> usize {
        self.length
    }

    pub fn write(&mut self, entry: Entry) {
        self.places[entry.index()].push(self.length);
        self.length += 1;
    }

    /// Takes back what was written from this length on: a failed beat adds nothing.
    pub fn cut(&mut self, length: usize) {
        for places in &mut self.places {
            places.truncate(places.partition_point(|place| *place < length));
        }
        self.length = length;
    }

    /// Where this entry last stands. None, for nowhere, lies before every place.
    pub fn last(&self, entry: Entry) -> Option<usize> {
        self.places[entry.index()].last().copied()
    }

    /// Where it last stands, and where before that.
    fn last_two(&self, entry: Entry) -> (Option<usize>, Option<usize>) {
        let mut back = self.places[entry.index()].iter().rev().copied();
        (back.next(), back.next())
    }

    // ---- the rule

    /// What the line does if its turn comes now.
    pub fn turn(&self, line: usize, scope: Scope, keyword: Option<Keyword>) -> Turn {
        let kept_off_by_mode = scope == Scope::Id && !self.automatic();
        if self.is_cancelled(line, scope) || self.is_locked(line) || kept_off_by_mode {
            return Turn::Skipped;
        }
        match keyword {
            None => Turn::Settled { acts: true },
            Some(Keyword::Whenever) => Turn::Tried { acts_if_true: true },
            Some(Keyword::When) if self.has_been_true(line) => Turn::Settled { acts: false },
            Some(Keyword::From) if self.has_been_true(line) => Turn::Settled { acts: true },
            Some(Keyword::When | Keyword::From) => Turn::Tried { acts_if_true: true },
            Some(Keyword::Every) => Turn::Tried { acts_if_true: !self.was_true_before(line) },
        }
    }

    /// The beat under way is one in AUTOMATIC.
    fn automatic(&self) -> bool {
        self.last(Entry::Beat(Mode::Automatic)) > self.last(Entry::Beat(Mode::Manual))
    }

    /// A cancel of the line since the load; a control reset is one of every ID line.
    fn is_cancelled(&self, line: usize, scope: Scope) -> bool {
        let by_control_reset = scope == Scope::Id && self.last(Entry::ControlReset).is_some();
        by_control_reset || self.last(Entry::Cancel(line)).is_some()
    }

    /// A lock since the start, and no release after it.
    fn is_locked(&self, line: usize) -> bool {
        self.last(Entry::Lock(line)) > self.last(Entry::Release(line)).max(self.last(Entry::ControlReset))
    }

    /// At some turn since the start the condition was true: a WHEN or FROM line has acted.
    fn has_been_true(&self, line: usize) -> bool {
        self.last(Entry::Gave(line, true)) > self.start(line)
    }

    /// At the turn before, if there was one since the start, the condition was true.
    fn was_true_before(&self, line: usize) -> bool {
        self.last(Entry::Gave(line, true)) > self.last(Entry::Gave(line, false)).max(self.start(line))
    }

    /// The start at which looking back for conditions ends: the last control reset, or nowhere, which is the load.
    fn start(&self, line: usize) -> Option<usize> {
        match self.slip {
            Slip::PastControlReset => None,
            Slip::BackToRelease => self.last(Entry::ControlReset).max(self.last(Entry::Release(line))),
            _ => self.last(Entry::ControlReset),
        }
    }

    // ---- what follows from it

    /// The acts of the line since the load or the last control reset that left it live: one before its cancel, and none of an ID line.
    pub fn acts(&self, line: usize, scope: Scope) -> usize {
        let cancelled = self.places[Entry::Cancel(line).index()].first().copied().unwrap_or(self.length);
        let starts = &self.places[Entry::ControlReset.index()];
        let start = match scope {
            Scope::Id => None,
            Scope::Ids => starts[..starts.partition_point(|start| *start < cancelled)].last(),
        };
        let acts = &self.places[Entry::Act(line).index()];
        acts.len() - acts.partition_point(|act| Some(act) < start)
    }

    /// Between two starts a WHEN line acts at most once, and an EVERY line only where its condition is true and was false,
    /// or never tried, at its turn before. The line acted in the beat that began at this place.
    pub fn allows_act(&self, line: usize, keyword: Option<Keyword>, beat: usize) -> bool {
        let (now, earlier) = self.last_two(Entry::Gave(line, true));
        match keyword {
            Some(Keyword::When) => now > Some(beat) && earlier <= self.start(line),
            Some(Keyword::Every) => {
                now > Some(beat) && earlier <= self.last(Entry::Gave(line, false)).max(self.start(line))
            }
            _ => true,
        }
    }
}

impl Entry {
    const COUNT: usize = 3 + 6 * LINES;

    /// A number for each entry.
    fn index(self) -> usize {
        match self {
            Entry::Beat(Mode::Automatic) => 0,
            Entry::Beat(Mode::Manual) => 1,
            Entry::ControlReset => 2,
            Entry::Gave(line, false) => 3 + 6 * line,
            Entry::Gave(line, true) => 4 + 6 * line,
            Entry::Lock(line) => 5 + 6 * line,
            Entry::Release(line) => 6 + 6 * line,
            Entry::Cancel(line) => 7 + 6 * line,
            Entry::Act(line) => 8 + 6 * line,
        }
    }
}
