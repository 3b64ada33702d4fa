//! A line of a host session, as HOST-SESSIONS.md describes it.

use crate::beat_line::{input_word, mode, BeatLine};
use crate::control::BUFFER;
use crate::fields::{fields, signed, unsigned};
use crate::reading::{bits, is_nan};
use crate::token::{self, Token};
use crate::written_curves::CURVES;
use std::ops::RangeInclusive;

/// The longest order buffer and list of positions that a line may ask for.
pub const LONGEST_BUFFER: i64 = 4096;
pub const LONGEST_LIST: i64 = 16;
/// The longest buffer for a print.
pub const LONGEST_PRINT: usize = 8192;

/// The letters of the places of the state, in the order of a dump.
pub const PLACE_LETTERS: &[u8] = b"OMPRTUFLCEKBQA";

#[derive(Clone, PartialEq, Eq, Debug)]
pub enum HostLine {
    Beat {
        beat: BeatLine,
        buffer: usize,
    },
    Lock(u8),
    Unlock(u8),
    Cancel(u8),
    ProgramEnd,
    ControlReset,
    /// A print into a buffer of so many bytes.
    Print(usize),
    Status,
    /// Load the first bytes of the set text.
    Load(usize),
    Keep,
    GiveBack,
    Dump,
    Place {
        letter: u8,
        index: usize,
        value: i64,
    },
    LineNumber {
        rank: usize,
        number: i64,
    },
    LineScope {
        rank: usize,
        ids: bool,
    },
    LineCount(usize),
    SwapLines(usize, usize),
    Token {
        rank: usize,
        place: usize,
        token: Token,
    },
    /// A token of the line that was loaded as a curve.
    CurveToken {
        number: usize,
        place: usize,
        token: Token,
    },
    /// A curve starts where another did when it was loaded, or nowhere for 0.
    CurveStart {
        number: usize,
        other: usize,
    },
}

impl HostLine {
    /// None if the line is ill-formed.
    pub fn read(line: &[u8]) -> Option<HostLine> {
        let mut rest = fields(line);
        let first = rest.next()?;
        let rest: Vec<&[u8]> = rest.collect();
        match (first, &rest[..]) {
            (b"A" | b"M", _) => Some(HostLine::Beat { beat: BeatLine::read(line)?, buffer: BUFFER }),
            (b"B", _) => lent_beat(&rest),
            (b"L", [number]) => Some(HostLine::Lock(byte(number)?)),
            (b"U", [number]) => Some(HostLine::Unlock(byte(number)?)),
            (b"C", [number]) => Some(HostLine::Cancel(byte(number)?)),
            (b"E", []) => Some(HostLine::ProgramEnd),
            (b"R", []) => Some(HostLine::ControlReset),
            (b"I", []) => Some(HostLine::Status),
            (b"P", [bytes]) => Some(HostLine::Print(below(bytes, LONGEST_PRINT as i64)?)),
            (b"N", [bytes]) => Some(HostLine::Load(below(bytes, 1_000_000)?)),
            (b"K", []) => Some(HostLine::Keep),
            (b"G", []) => Some(HostLine::GiveBack),
            (b"D", []) => Some(HostLine::Dump),
            (b"V", [letter, index, value]) => state_place(letter, index, value),
            (b"S", [letter, first, second]) => set_place(letter, first, second),
            (b"T", [rank, place, text]) => token_place(rank, place, text),
            (b"F", [number, place, text]) => curve_token(number, place, text),
            _ => None,
        }
    }
}

/// `B mode word buffer list readings.. positions..`
fn lent_beat(fields: &[&[u8]]) -> Option<HostLine> {
    let [first, word, buffer, list, given @ ..] = fields else {
        return None;
    };
    let buffer = unsigned(buffer, LONGEST_BUFFER)? as usize;
    let list = unsigned(list, LONGEST_LIST)? as usize;
    let beat = BeatLine::lent(mode(first)?, input_word(word)?, given.iter().copied(), list)?;
    Some(HostLine::Beat { beat, buffer })
}

fn state_place(letter: &[u8], index: &[u8], value: &[u8]) -> Option<HostLine> {
    let &[letter] = letter else {
        return None;
    };
    let (first, last) = indices(letter)?;
    let index = unsigned(index, last).filter(|index| *index >= first)? as usize;
    let value = match letter {
        b'B' => i64::from(bits(value).filter(|bits| !is_nan(*bits))?),
        b'A' => unsigned(value, u32::MAX.into())?,
        _ => signed(value).map(i64::from).filter(|value| values(letter).contains(value))?,
    };
    Some(HostLine::Place { letter, index, value })
}

/// The value of a place as a script writes it.
pub fn written(letter: u8, value: i64) -> String {
    match letter {
        b'B' => format!("{value:08X}"),
        _ => value.to_string(),
    }
}

/// The first and last index of a place of the state.
pub fn indices(letter: u8) -> Option<(i64, i64)> {
    Some(match letter {
        b'O' => (1, 16),
        b'R' => (0, 163),
        b'T' | b'U' => (0, 7),
        b'F' => (1, 4),
        b'K' | b'B' | b'Q' => (1, 8),
        b'M' | b'P' | b'L' | b'C' | b'E' | b'A' => (0, 31),
        _ => return None,
    })
}

/// The raw values that a place of the state can be given; bits are written in hex digits, and are not those of a NaN.
fn values(letter: u8) -> RangeInclusive<i64> {
    match letter {
        b'F' | b'Q' => 0..=255,
        b'U' | b'L' | b'C' | b'E' | b'K' => 0..=1,
        _ => i64::from(i32::MIN)..=i64::from(i32::MAX),
    }
}

fn set_place(letter: &[u8], first: &[u8], second: &[u8]) -> Option<HostLine> {
    match letter {
        b"N" => Some(HostLine::LineNumber { rank: rank(first)?, number: unsigned(second, 255)? }),
        b"I" => Some(HostLine::LineScope { rank: rank(first)?, ids: unsigned(second, 1)? == 1 }),
        b"C" if unsigned(first, 0).is_some() => Some(HostLine::LineCount(unsigned(second, 255)? as usize)),
        b"X" => Some(HostLine::SwapLines(rank(first)?, rank(second)?)),
        b"F" => Some(HostLine::CurveStart { number: curve(first)?, other: below(second, CURVES as i64)? }),
        _ => None,
    }
}

/// `T rank place token`
fn token_place(rank_field: &[u8], place: &[u8], text: &[u8]) -> Option<HostLine> {
    Some(HostLine::Token { rank: rank(rank_field)?, place: below(place, 4096)?, token: one_token(text)? })
}

/// `F number place token`
fn curve_token(number: &[u8], place: &[u8], text: &[u8]) -> Option<HostLine> {
    Some(HostLine::CurveToken { number: curve(number)?, place: below(place, 4096)?, token: one_token(text)? })
}

/// One token of set text.
fn one_token(text: &[u8]) -> Option<Token> {
    match token::tokens(text)?[..] {
        [token] => Some(token),
        _ => None,
    }
}

/// The number of a curve.
fn curve(field: &[u8]) -> Option<usize> {
    below(field, CURVES as i64).filter(|number| *number > 0)
}

fn rank(field: &[u8]) -> Option<usize> {
    below(field, 31)
}

fn below(field: &[u8], top: i64) -> Option<usize> {
    unsigned(field, top).map(|value| value as usize)
}

fn byte(field: &[u8]) -> Option<u8> {
    unsigned(field, 255).map(|value| value as u8)
}
