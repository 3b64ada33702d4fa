//! Writes the history of a session beside the interpreter's flags, and holds both against each other at each turn.

use crate::beat::{Mode, Turn};
use crate::history::{Entry, History};
use crate::slip::Slip;
use crate::state::{LineState, TOP_ACTS};
use crate::tree::Line;

/// Off, as it is by default, it writes nothing.
#[derive(Clone, Default)]
pub struct Witness {
    slip: Option<Slip>,
    /// None when off, and from damage to a line's flags or the set on, of which no history tells, until the next load.
    pub history: Option<History>,
    /// The first turn that the rule and the flags decide otherwise, or act that the history does not allow.
    pub difference: Option<String>,
    /// The length of the history before the beat under way, and that beat's number among those worked.
    before: usize,
    beats: usize,
    /// What the rule says of the turn under way.
    turn: Option<Turn>,
}

impl Witness {
    pub fn watching(slip: Slip) -> Witness {
        Witness { slip: Some(slip), ..Witness::default() }
    }

    /// A load begins a new history.
    pub fn load(&mut self) {
        self.history = self.slip.map(History::new);
    }

    pub fn damage(&mut self) {
        self.history = None;
    }

    pub fn write(&mut self, entry: Entry) {
        if let Some(history) = &mut self.history {
            history.write(entry);
        }
    }

    /// Program end is the cancel of each ID line still live, and no start.
    pub fn program_end(&mut self, ended: &[usize]) {
        if self.slip == Some(Slip::ProgramEndIsAStart) {
            return self.write(Entry::ControlReset);
        }
        ended.iter().for_each(|rank| self.write(Entry::Cancel(*rank)));
    }

    /// LOCK or UNLOCK in text, of a cancelled line too.
    pub fn text_lock(&mut self, line: usize, locks: bool) {
        if self.slip != Some(Slip::TextLocksNotWritten) {
            self.write(if locks { Entry::Lock(line) } else { Entry::Release(line) });
        }
    }

    pub fn begin_beat(&mut self, mode: Mode) {
        self.beats += 1;
        self.before = self.history.as_ref().map_or(0, History::length);
        self.write(Entry::Beat(mode));
    }

    /// A failed beat adds nothing; in a good one the lines of the word `acted`, bit by rank, acted as the history allows.
    pub fn end_beat(&mut self, lines: &[Line], known: &[LineState], acted: u32, good: bool) {
        let Some(history) = &mut self.history else {
            return;
        };
        if !good {
            if self.slip != Some(Slip::FailedBeatsWritten) {
                history.cut(self.before);
            }
            return;
        }
        let allowed = |rank, line: &Line| history.allows_act(rank, line.keyword(), self.before);
        let mut acted = (0..).zip(lines).filter(|(rank, _)| acted >> rank & 1 == 1);
        if let Some((_, line)) = acted.find(|(rank, line)| !allowed(*rank, line)) {
            return self.differ(line, "acts against the history".into());
        }
        let counts = |rank, line: &Line| history.acts(rank, line.scope).min(TOP_ACTS as usize);
        let mut counted = lines.iter().zip(known).enumerate();
        if let Some((_, (line, _))) =
            counted.find(|(rank, (line, known))| counts(*rank, line) != known.acts as usize)
        {
            self.differ(line, "the count is not that of the history".into());
        }
    }

    /// Holds what the flags decide of a line's turn against the rule.
    pub fn compare(&mut self, rank: usize, line: &Line, by_flags: Turn) {
        let Some(history) = &self.history else {
            return;
        };
        let by_history = history.turn(rank, line.scope, line.keyword());
        self.turn = Some(by_history);
        if by_history != by_flags {
            self.differ(line, format!("by flags {by_flags:?}, by history {by_history:?}"));
        }
    }

    /// Writes down whether the line acts by the rule; `gave` is what its condition gave, if it was worked.
    pub fn acts(&mut self, rank: usize, gave: bool) {
        let acts = match self.turn {
            Some(Turn::Settled { acts }) => acts,
            Some(Turn::Tried { acts_if_true }) => gave && acts_if_true,
            Some(Turn::Skipped) | None => false,
        };
        if acts {
            self.write(Entry::Act(rank));
        }
    }

    fn differ(&mut self, line: &Line, how: String) {
        let beat = self.beats;
        self.difference.get_or_insert_with(|| format!("beat {beat}, line {}: {how}", line.number));
    }

    /// The line was true at its turn before, and has been locked and released since.
    pub fn was_held_high(&self, rank: usize) -> bool {
        self.history.as_ref().is_some_and(|history| {
            let last = |entry| history.last(entry);
            let turn = last(Entry::Gave(rank, true)).max(last(Entry::ControlReset));
            let high = turn > last(Entry::Gave(rank, false)).max(last(Entry::ControlReset));
            high && last(Entry::Lock(rank)) > turn && last(Entry::Release(rank)) > last(Entry::Lock(rank))
        })
    }
}
