//! The control as the host sees it: load, beat, lock, unlock, cancel, program end, control reset, status.

use crate::beat::{set_lock, Beat, Inputs};
use crate::beat_line::BeatLine;
use crate::code::Code;
use crate::history::{Entry, History};
use crate::load::{load, Refusal};
use crate::order;
use crate::reading::{Channel, Reading, CHANNELS};
use crate::seen::Seen;
use crate::set::Set;
use crate::slip::Slip;
use crate::state::{LineState, State, Timer};
use crate::status::Status;
use crate::token::Scope;
use crate::value::{in_range, Value};
use crate::witness::Witness;

/// Bytes that the order buffer must have.
pub const BUFFER: usize = 2048;
/// Positions that the host lends to a beat.
pub const POSITIONS: usize = 6;

#[derive(Clone)]
pub struct Control {
    pub set: Set,
    pub state: State,
    pub slip: Slip,
    pub seen: Seen,
    pub witness: Witness,
}

/// Set and state as a host keeps them, with the history that led there.
pub type Kept = (Set, State, Option<History>);

/// The answer of a beat; with any code but success there are no orders and no line acted.
#[derive(Clone, Copy, PartialEq, Eq, Debug)]
pub struct Answer {
    pub code: Code,
    pub orders: usize,
    pub acted: u32,
}

impl Control {
    /// A control with an empty set, at power-on.
    pub fn new(slip: Slip, seen: Seen) -> Control {
        let witness = Witness::default();
        Control { set: Set::new(&[], &[], slip), state: State::power_on(), slip, seen, witness }
    }

    /// A control that writes its history and holds its flags against it.
    pub fn watched(slip: Slip, seen: Seen) -> Control {
        Control { witness: Witness::watching(slip), ..Control::new(slip, seen) }
    }

    pub fn keep(&self) -> Kept {
        (self.set.clone(), self.state.clone(), self.witness.history.clone())
    }

    pub fn give_back(&mut self, kept: &Kept) {
        (self.set, self.state, self.witness.history) = kept.clone();
    }

    /// Loads set text. The state is that of power-on afterwards; on refusal the set is empty.
    pub fn load(&mut self, text: &[u8]) -> Result<(), Refusal> {
        self.state = State::power_on();
        self.set = Set::new(&[], &[], self.slip);
        self.witness.load();
        self.set = load(text, self.slip)?;
        Ok(())
    }

    /// One beat. Orders go to the front of the buffer; with a code nothing changes.
    pub fn beat(&mut self, line: &BeatLine, buffer: &mut [u8]) -> Answer {
        let answer = self.work_beat(line, buffer);
        answer.unwrap_or_else(|code| {
            let alarm = code >= Code::ValueOutOfRange;
            let event = if alarm { "row through an alarmed beat" } else { "row through a refused beat" };
            self.seen.row_stays(&self.state.channels, event);
            Answer { code, orders: 0, acted: 0 }
        })
    }

    fn work_beat(&mut self, line: &BeatLine, buffer: &mut [u8]) -> Result<Answer, Code> {
        let BeatLine { mode, word, readings, ref positions } = *line;
        self.seen.curve_damage(&self.set);
        self.demand_sound()?;
        if buffer.len() < BUFFER {
            return Err(Code::BufferTooShort);
        }
        if positions.len() != POSITIONS || !positions.iter().all(|place| in_range(Value::from(*place))) {
            return Err(Code::BadNumbers);
        }
        let (channels, analogues) = self.read_channels(&readings)?;
        let inputs = Inputs { mode, word, analogues, positions };
        self.witness.begin_beat(mode);
        let mut beat = Beat::new(self.set.lines()?, &self.state, &inputs, self.slip, &mut self.seen);
        beat.curves = self.set.curves()?;
        beat.state.channels = channels;
        beat.witness = Some(&mut self.witness);
        let result = beat.work(&self.set);
        let (state, orders, acted) = (beat.state, beat.orders, beat.acted);
        self.witness.end_beat(self.set.lines()?, &state.lines, acted, result.is_ok());
        self.seen.acted(self.set.lines()?, acted, result.is_ok());
        self.seen.worked(&self.state, &state, result.is_ok());
        if result.is_ok() || self.slip == Slip::WritesKeptAtAlarm {
            self.state = state;
        } else if self.slip == Slip::FaultsCountedWhenUndone {
            self.state.channels = channels;
        }
        result?;
        for (place, order) in buffer.chunks_exact_mut(order::SIZE).zip(&orders) {
            place.copy_from_slice(&order.bytes());
        }
        Ok(Answer { code: Code::Success, orders: orders.len(), acted })
    }

    /// The records of the channels after a beat with these readings, and the values that it reads.
    fn read_channels(
        &mut self,
        readings: &[Reading; CHANNELS],
    ) -> Result<([Channel; CHANNELS], [Value; CHANNELS]), Code> {
        let (mut channels, mut values) = (self.state.channels, [0; CHANNELS]);
        let places = channels.iter_mut().zip(&mut values).zip(readings);
        let mut first = Ok(());
        for ((channel, value), reading) in places {
            match channel.next(*reading, self.slip, &mut self.seen) {
                Ok(next) => (*channel, *value) = next,
                Err(code) => first = first.and(Err(code)),
            }
        }
        if first.is_err() && self.slip == Slip::OthersKeptAt23 {
            self.state.channels = channels;
        }
        first.map(|()| (channels, values))
    }

    pub fn lock(&mut self, number: u8) -> Code {
        let slip = self.slip;
        self.on_line(number, Entry::Lock, |line| set_lock(line, true, slip))
    }

    pub fn unlock(&mut self, number: u8) -> Code {
        let slip = self.slip;
        self.on_line(number, Entry::Release, |line| set_lock(line, false, slip))
    }

    pub fn cancel(&mut self, number: u8) -> Code {
        let slip = self.slip;
        self.on_line(number, Entry::Cancel, |line| cancel(line, slip))
    }

    /// Program end: cancels each ID line still live, as the host's cancel does, and nothing else.
    pub fn program_end(&mut self) -> Code {
        if let Err(code) = self.demand_sound() {
            return code;
        }
        if self.slip == Slip::ProgramEndIsControlReset {
            return self.control_reset();
        }
        let mut ended = Vec::new();
        for (rank, line) in self.set.lines().into_iter().flatten().enumerate() {
            let meant = line.scope == Scope::Id || self.slip == Slip::ProgramEndCancelsAll;
            let known = &mut self.state.lines[rank];
            self.seen.program_end(line.scope, known);
            if meant && !known.cancelled {
                cancel(known, self.slip);
                ended.push(rank);
            }
        }
        self.seen.row_stays(&self.state.channels, "row through a program end");
        self.witness.program_end(&ended);
        Code::Success
    }

    /// Control reset: cancels ID lines, frees IDS lines, clears markers, parameters and timers.
    pub fn control_reset(&mut self) -> Code {
        if let Err(code) = self.demand_sound() {
            return code;
        }
        for (line, known) in self.set.lines().into_iter().flatten().zip(&mut self.state.lines) {
            if line.scope == Scope::Id {
                cancel(known, self.slip);
            }
            known.locked = false;
            known.memory &= self.slip == Slip::MemoryKeptAtControlReset;
            let keeps = known.cancelled && self.slip != Slip::ActsOfCancelledClearedAtControlReset;
            self.seen.acts_at_control_reset(known.acts, known.cancelled);
            if !keeps && self.slip != Slip::ActsKeptAtControlReset {
                known.acts = 0;
            }
        }
        self.state.markers.fill(0);
        self.state.params.fill(0);
        self.state.timers.fill(Timer::default());
        if self.slip == Slip::ChannelsClearedAtControlReset {
            self.state.channels.fill(Channel::default());
        }
        self.seen.row_stays(&self.state.channels, "row through a control reset");
        self.witness.write(Entry::ControlReset);
        Code::Success
    }

    /// The status picture: each line of the set by rising number, or code 22.
    pub fn status(&mut self) -> Result<Vec<Status>, Code> {
        self.demand_sound()?;
        let lines = self.set.lines()?.iter().zip(&self.state.lines);
        let picture: Vec<Status> = lines.map(|(line, known)| Status::of(line, known)).collect();
        self.seen.status(&picture);
        Ok(picture)
    }

    /// A host call that names a line, and what is written of it.
    fn on_line(
        &mut self,
        number: u8,
        entry: impl FnOnce(usize) -> Entry,
        change: impl FnOnce(&mut LineState),
    ) -> Code {
        match self.find_line(number) {
            Ok(rank) => {
                change(&mut self.state.lines[rank]);
                self.witness.write(entry(rank));
                Code::Success
            }
            Err(code) => code,
        }
    }

    /// The rank of a line that is in the set and not cancelled.
    fn find_line(&self, number: u8) -> Result<usize, Code> {
        self.demand_sound()?;
        let rank = self.set.lines()?.iter().position(|line| line.number == i64::from(number));
        rank.filter(|rank| !self.state.lines[*rank].cancelled).ok_or(Code::NoSuchLine)
    }

    /// Code 22 unless set and state are sound.
    fn demand_sound(&self) -> Result<(), Code> {
        let lines = self.set.lines()?.len();
        if self.state.is_sound(lines) {
            Ok(())
        } else {
            Err(Code::NotSound)
        }
    }
}

/// Cancelling clears the line's lock and memory, and leaves its count.
fn cancel(line: &mut LineState, slip: Slip) {
    let acts = if slip == Slip::ActsClearedAtCancel { 0 } else { line.acts };
    *line = LineState { cancelled: true, acts, ..LineState::default() };
}
