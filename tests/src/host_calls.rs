//! A host session worked by the program `hosting`: each line becomes requests in numbers, and the program's answers become
//! the lines that a session prints. HOST-SESSIONS.md gives the form of both.

use crate::beat::Mode;
use crate::beat_line::BeatLine;
use crate::host_line::{indices, written, HostLine, PLACE_LETTERS};
use crate::host_session::checksum;
use crate::load;
use crate::reading::{Reading, CHANNELS};
use crate::set::{HEAD, LINES};
use crate::synrun::print_orders;
use crate::text;
use crate::token::{Comparison, Joint, Keyword, Motion, Name, Scope, Token};
use crate::value::{Arithmetic, Value, TOP, UNIT};
use crate::written_curves::CURVES;
use std::io::{self, Read, Write};

/// Bytes that hold the set text, before the requests.
const TEXT: usize = 16384;
/// Numbers of a request, its letter among them.
const NUMBERS: usize = 37;
/// The places of a set: the count of lines, where each line starts, the places of 3 curves and of 8 lists of 16 lines, the tokens, an END
/// behind those of each line.
const SET: usize = CURVE_STARTS + CURVES + 8 * (1 + 16) + load::TEXT + 1;
const STARTS: usize = 1;
/// Where each curve starts, 0 for one that the set does not have.
const CURVE_STARTS: usize = STARTS + LINES;
/// Those that are answered at once.
const AT_ONCE: usize = 1024;
const END: u32 = 0;
/// The cells of a state: outputs, and from these places on markers, parameters, timers and the counts of the four FIFOs.
const MARKERS: usize = 16;
const PARAMETERS: usize = MARKERS + 32;
const TIMERS: usize = PARAMETERS + 32;
const COUNTS: usize = TIMERS + 8;
/// The arrays of a state: R, cells, timers that run, locks, cancels, memories; of the channels whether each was ever good,
/// the bits of its last good reading, and its faulty beats in a row; the acts of the lines.
const ARRAYS: [usize; 10] = [164, COUNTS + 4, 8, LINES, LINES, LINES, CHANNELS, CHANNELS, CHANNELS, LINES];
/// A state as its arrays.
type State = [Places; ARRAYS.len()];

type Places = Vec<u32>;

/// A session over the pipes of a program.
pub struct HostCalls<'a, W: Write, R: Read> {
    set_text: &'a [u8],
    requests: W,
    answers: R,
    out: Vec<u8>,
    /// Lines that the set had when it was loaded.
    lines: usize,
    /// Where its curves then started.
    curves: [u32; CURVES],
    /// Set and state as last kept.
    kept: (Places, State),
    /// Calls, those with a code, orders.
    totals: [u32; 3],
}

/// The lines that the session prints; they end early where the program does.
pub fn run(input: &[u8], requests: impl Write, answers: impl Read) -> Vec<u8> {
    let (set_text, script) = text::split_at_star(input);
    let kept = Default::default();
    let (out, curves, totals) = (Vec::new(), [0; CURVES], [0; 3]);
    let mut calls = HostCalls { set_text, requests, answers, out, lines: 0, curves, kept, totals };
    let ended = calls.session(script);
    let HostCalls { requests, mut answers, mut out, .. } = calls;
    drop(requests);
    let mut left = Vec::new();
    answers.read_to_end(&mut left).ok();
    if let Err(error) = ended {
        out.extend(format!("{error}\n").into_bytes());
    }
    if !left.is_empty() {
        out.extend(b"answers are left\n");
    }
    out
}

impl<W: Write, R: Read> HostCalls<'_, W, R> {
    fn session(&mut self, script: &[u8]) -> io::Result<()> {
        let mut text = self.set_text.to_vec();
        if text.len() > TEXT {
            return Err(io::Error::other("the set text is too long for the program"));
        }
        text.resize(TEXT, 0);
        self.requests.write_all(&text)?;
        self.load(self.set_text.len())?;
        let mut number = 0;
        for line in text::lines(script) {
            number += 1;
            let worked = match HostLine::read(line) {
                Some(line) => self.line(number, &line)?,
                None => None,
            };
            if worked.is_none() {
                return writeln!(self.out, "E {number}");
            }
        }
        let [calls, coded, orders] = self.totals;
        writeln!(self.out, "END {calls} {coded} {orders}")
    }

    /// Works one line; None if it is ill-formed.
    fn line(&mut self, number: usize, line: &HostLine) -> io::Result<Option<()>> {
        match *line {
            HostLine::Beat { ref beat, buffer } => self.beat(number, beat, buffer)?,
            HostLine::Lock(line) => self.host_call(number, b'L', line)?,
            HostLine::Unlock(line) => self.host_call(number, b'U', line)?,
            HostLine::Cancel(line) => self.host_call(number, b'C', line)?,
            HostLine::ProgramEnd => self.host_call(number, b'E', 0)?,
            HostLine::ControlReset => self.host_call(number, b'R', 0)?,
            HostLine::Status => self.status(number)?,
            HostLine::Print(length) => self.print(number, length)?,
            HostLine::Load(bytes) if bytes > self.set_text.len() => return Ok(None),
            HostLine::Load(bytes) => self.load(bytes)?,
            HostLine::Keep => self.kept = (self.set()?, self.state()?),
            HostLine::GiveBack => self.give_back()?,
            HostLine::Dump => self.dump()?,
            HostLine::Place { letter, index, value } => {
                let (array, place) = place(letter, index);
                self.put_in_state(array, place, value as u32)?;
            }
            HostLine::LineNumber { rank, number } => {
                return self.put_token(rank, HEAD - 1, number_token(number * UNIT))
            }
            HostLine::LineScope { rank, ids } => {
                let scope = if ids { Scope::Ids } else { Scope::Id };
                return self.put_token(rank, 0, token_number(Token::Scope(scope)));
            }
            HostLine::LineCount(lines) => self.put_in_set(0, lines as u32)?,
            HostLine::SwapLines(first, second) => return self.swap(first, second),
            HostLine::Token { rank, place, token } => {
                return self.put_token(rank, HEAD + place, token_number(token))
            }
            HostLine::CurveToken { number, place, token } => {
                return self.put_token_at(self.curves[number - 1], place, token_number(token))
            }
            HostLine::CurveStart { number, other } => return self.put_curve(number, other),
        }
        Ok(Some(()))
    }

    // ---- calls

    /// Every load keeps set and state.
    fn load(&mut self, bytes: usize) -> io::Result<()> {
        self.request(b'N', &[bytes as u32])?;
        let [code, line, ..] = self.numbers()?;
        self.kept = (self.set()?, self.state()?);
        self.lines = self.kept.0[0] as usize;
        self.curves.copy_from_slice(&self.kept.0[CURVE_STARTS..CURVE_STARTS + CURVES]);
        writeln!(self.out, "L {code} {line}")
    }

    fn beat(&mut self, number: usize, beat: &BeatLine, length: usize) -> io::Result<()> {
        let mode = u32::from(beat.mode == Mode::Automatic);
        let mut numbers = vec![mode, beat.word.into(), length as u32, beat.positions.len() as u32];
        numbers.extend(beat.readings.iter().flat_map(|reading| reading_numbers(*reading)));
        numbers.extend(beat.positions.iter().map(|position| *position as u32));
        self.request(b'B', &numbers)?;
        let [code, orders, low, high] = self.numbers()?;
        let acted = u64::from(high) << 32 | u64::from(low);
        let buffer = self.bytes(length)?;
        self.count(code, orders);
        writeln!(self.out, "C {number} {code} {orders} {acted} {}", checksum(&buffer))?;
        print_orders(&buffer, orders as usize, &mut self.out)
    }

    fn host_call(&mut self, number: usize, letter: u8, line: u8) -> io::Result<()> {
        self.request(letter, &[line.into()])?;
        let [code, ..] = self.numbers()?;
        self.count(code, 0);
        writeln!(self.out, "H {number} {code}")
    }

    fn status(&mut self, number: usize) -> io::Result<()> {
        self.request(b'I', &[])?;
        let [code, lines, ..] = self.numbers()?;
        self.count(code, 0);
        writeln!(self.out, "I {number} {code} {lines}")?;
        for _ in 0..lines {
            let [scope, line, standing, acts] = self.numbers()?;
            let scope = ["ID", "IDS"].get(scope as usize).unwrap_or(&"?");
            let standing = ["waiting", "locked", "cancelled"].get(standing as usize).unwrap_or(&"?");
            writeln!(self.out, "S {scope} {line} {standing} {acts}")?;
        }
        Ok(())
    }

    fn print(&mut self, number: usize, length: usize) -> io::Result<()> {
        self.request(b'Q', &[length as u32])?;
        let [code, bytes, ..] = self.numbers()?;
        let buffer = self.bytes(length)?;
        self.count(code, 0);
        writeln!(self.out, "P {number} {code} {bytes} {}", checksum(&buffer))
    }

    fn count(&mut self, code: u32, orders: u32) {
        self.totals[0] += 1;
        self.totals[1] += u32::from(code != 0);
        self.totals[2] = self.totals[2].saturating_add(orders);
    }

    // ---- set and state

    fn set(&mut self) -> io::Result<Places> {
        let mut set = Places::new();
        while set.len() < SET {
            self.request(b'W', &[set.len() as u32])?;
            set.extend(self.places(AT_ONCE)?);
        }
        set.truncate(SET);
        Ok(set)
    }

    fn state(&mut self) -> io::Result<State> {
        self.request(b'D', &[])?;
        let mut state = State::default();
        for (array, places) in state.iter_mut().zip(ARRAYS) {
            *array = self.places(places)?;
        }
        Ok(state)
    }

    fn put_in_set(&mut self, at: usize, number: u32) -> io::Result<()> {
        self.request(b'P', &[at as u32, number])
    }

    fn put_in_state(&mut self, array: usize, at: usize, number: u32) -> io::Result<()> {
        self.request(b'V', &[array as u32, at as u32, number])
    }

    /// Puts what differs from set and state as last kept.
    fn give_back(&mut self) -> io::Result<()> {
        let (set, state) = self.kept.clone();
        for (at, number) in changed(&self.set()?, &set) {
            self.put_in_set(at, number)?;
        }
        for (array, now) in self.state()?.iter().enumerate() {
            for (at, number) in changed(now, &state[array]) {
                self.put_in_state(array, at, number)?;
            }
        }
        Ok(())
    }

    /// A token of the line of a rank becomes another. None if the set has no such line or token.
    fn put_token(&mut self, rank: usize, place: usize, token: u32) -> io::Result<Option<()>> {
        if rank >= self.lines {
            return Ok(None);
        }
        let start = self.set()?[STARTS + rank];
        self.put_token_at(start, place, token)
    }

    /// The same for the line that starts at this place of the set; at 0 there is none.
    fn put_token_at(&mut self, start: u32, place: usize, token: u32) -> io::Result<Option<()>> {
        let set = self.set()?;
        let start = start as usize;
        let line = set.get(start..).unwrap_or_default().iter().take_while(|token| **token != END);
        if start == 0 || place >= line.count() {
            return Ok(None);
        }
        self.put_in_set(start + place, token).map(Some)
    }

    /// A curve starts where another did when it was loaded, or nowhere. None if the set had no such one.
    fn put_curve(&mut self, number: usize, other: usize) -> io::Result<Option<()>> {
        let start = other.checked_sub(1).map_or(0, |other| self.curves[other]);
        if other > 0 && start == 0 {
            return Ok(None);
        }
        self.put_in_set(CURVE_STARTS + number - 1, start).map(Some)
    }

    fn swap(&mut self, first: usize, second: usize) -> io::Result<Option<()>> {
        if first.max(second) >= self.lines {
            return Ok(None);
        }
        let set = self.set()?;
        self.put_in_set(STARTS + first, set[STARTS + second])?;
        self.put_in_set(STARTS + second, set[STARTS + first]).map(Some)
    }

    fn dump(&mut self) -> io::Result<()> {
        let lines = self.set()?[0];
        writeln!(self.out, "D {lines}")?;
        let state = self.state()?;
        for letter in PLACE_LETTERS {
            let (first, last) = indices(*letter).unwrap_or((1, 0));
            for index in first as usize..=last as usize {
                let (array, place) = place(*letter, index);
                let number = state[array][place];
                if number != 0 {
                    let is_signed = !b"BA".contains(letter);
                    let value = if is_signed { i64::from(number as i32) } else { number.into() };
                    writeln!(self.out, "V {} {index} {}", char::from(*letter), written(*letter, value))?;
                }
            }
        }
        Ok(())
    }

    // ---- numbers

    fn request(&mut self, letter: u8, numbers: &[u32]) -> io::Result<()> {
        let mut request = vec![u32::from(letter)];
        request.extend(numbers);
        request.resize(NUMBERS, 0);
        let bytes: Vec<u8> = request.into_iter().flat_map(u32::to_le_bytes).collect();
        self.requests.write_all(&bytes)
    }

    fn bytes(&mut self, count: usize) -> io::Result<Vec<u8>> {
        let mut bytes = vec![0; count];
        self.answers.read_exact(&mut bytes)?;
        Ok(bytes)
    }

    fn places(&mut self, count: usize) -> io::Result<Places> {
        let bytes = self.bytes(4 * count)?;
        Ok(bytes
            .chunks_exact(4)
            .map(|word| u32::from_le_bytes([word[0], word[1], word[2], word[3]]))
            .collect())
    }

    /// What a call answers.
    fn numbers(&mut self) -> io::Result<[u32; 4]> {
        let numbers = self.places(4)?;
        Ok([numbers[0], numbers[1], numbers[2], numbers[3]])
    }
}

/// The places whose numbers differ from the wanted ones, which come with them.
fn changed<'a>(now: &'a [u32], wanted: &'a [u32]) -> impl Iterator<Item = (usize, u32)> + 'a {
    now.iter()
        .zip(wanted)
        .enumerate()
        .filter(|(_, (now, wanted))| now != wanted)
        .map(|(at, (_, wanted))| (at, *wanted))
}

/// A reading's kind, and its bits; a fault has none.
fn reading_numbers(reading: Reading) -> [u32; 2] {
    match reading {
        Reading::Volts(bits) => [0, bits],
        Reading::Break => [1, 0],
        Reading::Short => [2, 0],
    }
}

/// Where a place of the state stands: the array and the place in it.
fn place(letter: u8, index: usize) -> (usize, usize) {
    match letter {
        b'R' => (0, index),
        b'O' => (1, index - 1),
        b'M' => (1, MARKERS + index),
        b'P' => (1, PARAMETERS + index),
        b'T' => (1, TIMERS + index),
        b'F' => (1, COUNTS + index - 1),
        b'U' => (2, index),
        b'L' => (3, index),
        b'C' => (4, index),
        b'E' => (5, index),
        b'K' => (6, index - 1),
        b'B' => (7, index - 1),
        b'Q' => (8, index - 1),
        _ => (9, index),
    }
}

/// The number of a token in a set.
fn token_number(token: Token) -> u32 {
    match token {
        Token::Assign => 1,
        Token::Comparison(Comparison::Equal) => 2,
        Token::Comparison(Comparison::Unequal) => 3,
        Token::Comparison(Comparison::Less) => 4,
        Token::Comparison(Comparison::Greater) => 5,
        Token::Comparison(Comparison::AtMost) => 6,
        Token::Comparison(Comparison::AtLeast) => 7,
        Token::Arithmetic(Arithmetic::Plus) => 8,
        Token::Arithmetic(Arithmetic::Minus) => 9,
        Token::Arithmetic(Arithmetic::Times) => 10,
        Token::Arithmetic(Arithmetic::Over) => 11,
        Token::Open => 12,
        Token::Close => 13,
        Token::OpenIndex => 14,
        Token::CloseIndex => 15,
        Token::Scope(Scope::Id) => 16,
        Token::Scope(Scope::Ids) => 17,
        Token::Keyword(Keyword::When) => 18,
        Token::Keyword(Keyword::Whenever) => 19,
        Token::Keyword(Keyword::From) => 20,
        Token::Keyword(Keyword::Every) => 21,
        Token::Do => 22,
        Token::Truth(true) => 23,
        Token::Truth(false) => 24,
        Token::Not => 25,
        Token::Joint(Joint::And) => 26,
        Token::Joint(Joint::Or) => 27,
        Token::Joint(Joint::Xor) => 28,
        Token::Variable(Name::In) => 32,
        Token::Variable(Name::Ina) => 33,
        Token::Variable(Name::Out) => 34,
        Token::Variable(Name::Marker) => 35,
        Token::Variable(Name::Param) => 36,
        Token::Variable(Name::R) => 37,
        Token::Variable(Name::Timer) => 38,
        Token::Variable(Name::Fifo(fifo)) => 38 + fifo as u32,
        Token::Variable(Name::Im) => 43,
        Token::Motion(Motion::Pos) => 48,
        Token::Motion(Motion::Fa) => 49,
        Token::Motion(Motion::Mov) => 50,
        Token::M => 51,
        Token::Setal => 52,
        Token::Lock => 53,
        Token::Unlock => 54,
        Token::Comma => 29,
        Token::Fctdef => 30,
        Token::Synfct => 56,
        Token::Axis(axis) => 56 + u32::from(axis),
        Token::Number(number) if !number.fits => number_token(TOP + UNIT),
        Token::Number(number) => number_token(number.value),
    }
}

/// That of a number, by its thousandths.
fn number_token(thousandths: Value) -> u32 {
    (1 << 31) + 2 * thousandths as u32
}
