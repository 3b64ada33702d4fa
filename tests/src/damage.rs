//! Damage: raw values put into state and set, as a host with a bad memory would give them.

use crate::control::Control;
use crate::host_line::{indices, written, HostLine, PLACE_LETTERS};
use crate::set::{plain, scope_token, HEAD};
use crate::state::State;
use crate::token::{Number, Token};
use crate::value::{Value, UNIT};

/// The places of the state that a history tells of.
const LINE_FLAGS: &[u8] = b"LCEA";

/// Puts a raw value into set or state. None if the set has no such line, curve or token.
pub fn damage(control: &mut Control, line: &HostLine) -> Option<()> {
    if !matches!(line, HostLine::Place { letter, .. } if !LINE_FLAGS.contains(letter)) {
        control.witness.damage();
    }
    match *line {
        HostLine::Place { letter, index, value } => put(&mut control.state, letter, index, value),
        HostLine::LineNumber { rank, number } => {
            let value = number * UNIT;
            put_token(control, rank, HEAD - 1, Token::Number(Number { value, pointed: false, fits: true }))?;
        }
        HostLine::LineScope { rank, ids } => put_token(control, rank, 0, scope_token(ids))?,
        HostLine::LineCount(lines) => control.set.damage(|_, count| *count = lines),
        HostLine::SwapLines(first, second) => {
            let lines = control.set.written().len();
            if first >= lines || second >= lines {
                return None;
            }
            control.set.damage(|written, _| written.swap(first, second));
        }
        HostLine::Token { rank, place, token } => put_token(control, rank, HEAD + place, plain(token))?,
        HostLine::CurveToken { number, place, token } => {
            control.set.damage_curves(|curves| curves.put_token(number, place, plain(token)))?;
        }
        HostLine::CurveStart { number, other } => {
            control.set.damage_curves(|curves| curves.put_start(number, other))?;
        }
        _ => return None,
    }
    Some(())
}

fn put_token(control: &mut Control, rank: usize, place: usize, token: Token) -> Option<()> {
    control.set.written().get(rank)?.get(place)?;
    control.set.damage(|written, _| written[rank][place] = token);
    Some(())
}

fn put(state: &mut State, letter: u8, index: usize, raw: Value) {
    let flag = raw == 1;
    match letter {
        b'O' => state.outputs[index - 1] = raw,
        b'M' => state.markers[index] = raw,
        b'P' => state.params[index] = raw,
        b'R' => state.r[index] = raw,
        b'T' => state.timers[index].value = raw,
        b'U' => state.timers[index].running = flag,
        b'F' => state.fifo_counts[index - 1] = raw as usize,
        b'L' => state.lines[index].locked = flag,
        b'C' => state.lines[index].cancelled = flag,
        b'E' => state.lines[index].memory = flag,
        b'K' => state.channels[index - 1].known = flag,
        b'B' => state.channels[index - 1].bits = raw as u32,
        b'Q' => state.channels[index - 1].faults = raw as u8,
        _ => state.lines[index].acts = raw as u32,
    }
}

fn get(state: &State, letter: u8, index: usize) -> Value {
    match letter {
        b'O' => state.outputs[index - 1],
        b'M' => state.markers[index],
        b'P' => state.params[index],
        b'R' => state.r[index],
        b'T' => state.timers[index].value,
        b'U' => Value::from(state.timers[index].running),
        b'F' => state.fifo_counts[index - 1] as Value,
        b'L' => Value::from(state.lines[index].locked),
        b'C' => Value::from(state.lines[index].cancelled),
        b'E' => Value::from(state.lines[index].memory),
        b'K' => Value::from(state.channels[index - 1].known),
        b'B' => Value::from(state.channels[index - 1].bits),
        b'Q' => Value::from(state.channels[index - 1].faults),
        _ => Value::from(state.lines[index].acts),
    }
}

/// Every place of the state that is not 0: letter, index, value as written.
pub fn places(state: &State) -> Vec<(char, usize, String)> {
    let mut found = Vec::new();
    for letter in PLACE_LETTERS {
        let (first, last) = indices(*letter).unwrap_or((1, 0));
        for index in first as usize..=last as usize {
            let value = get(state, *letter, index);
            if value != 0 {
                found.push((char::from(*letter), index, written(*letter, value)));
            }
        }
    }
    found
}
