//! The lines of a script: program end, control reset, and a beat with its mode, input word, up to eight readings and up to six positions.

use crate::beat::Mode;
use crate::control::POSITIONS;
use crate::fields::{fields, signed, unsigned};
use crate::reading::{Reading, CHANNELS};

/// A line of a script of `synrun`.
#[derive(Clone, PartialEq, Eq, Debug)]
pub enum ScriptLine {
    Beat(BeatLine),
    ProgramEnd,
    ControlReset,
}

impl ScriptLine {
    /// None if the line is ill-formed.
    pub fn read(line: &[u8]) -> Option<ScriptLine> {
        match line {
            b"PE" => Some(ScriptLine::ProgramEnd),
            b"RS" => Some(ScriptLine::ControlReset),
            _ => BeatLine::read(line).map(ScriptLine::Beat),
        }
    }
}

#[derive(Clone, PartialEq, Eq, Debug)]
pub struct BeatLine {
    pub mode: Mode,
    pub word: u16,
    pub readings: [Reading; CHANNELS],
    pub positions: Vec<i32>,
}

impl BeatLine {
    /// None if the line is ill-formed.
    pub fn read(line: &[u8]) -> Option<BeatLine> {
        let mut fields = fields(line);
        let mode = mode(fields.next()?)?;
        let word = input_word(fields.next()?)?;
        BeatLine::lent(mode, word, fields, POSITIONS)
    }

    /// A beat whose further fields are these: eight readings, then `length` positions. Those left off are 0.
    pub fn lent<'a>(
        mode: Mode,
        word: u16,
        mut fields: impl Iterator<Item = &'a [u8]>,
        length: usize,
    ) -> Option<BeatLine> {
        let mut readings = [Reading::LEFT_OFF; CHANNELS];
        for (reading, field) in readings.iter_mut().zip(fields.by_ref()) {
            *reading = Reading::read(field)?;
        }
        let mut positions: Vec<i32> = fields.map(signed).collect::<Option<_>>()?;
        if positions.len() > length {
            return None;
        }
        positions.resize(length, 0);
        Some(BeatLine { mode, word, readings, positions })
    }
}

pub fn mode(field: &[u8]) -> Option<Mode> {
    match field {
        b"A" => Some(Mode::Automatic),
        b"M" => Some(Mode::Manual),
        _ => None,
    }
}

pub fn input_word(field: &[u8]) -> Option<u16> {
    unsigned(field, i64::from(u16::MAX)).map(|word| word as u16)
}
