//! What the program `synrun` prints for its input.

use crate::beat_line::ScriptLine;
use crate::code::Code;
use crate::control::{Answer, Control, BUFFER};
use crate::load::Refusal;
use crate::order::Order;
use crate::text;
use std::io::{self, Write};

/// Lines of a script, after which the program ends.
const LINES: usize = 1_000_000;

/// Counts that the END line gives.
#[derive(Default)]
pub struct Totals {
    pub calls: usize,
    pub coded: usize,
    pub orders: usize,
}

impl Totals {
    pub fn count(&mut self, code: Code, orders: usize) {
        self.calls += 1;
        self.coded += usize::from(code != Code::Success);
        self.orders += orders;
    }

    pub fn print(&self, out: &mut dyn Write) -> io::Result<()> {
        writeln!(out, "END {} {} {}", self.calls, self.coded, self.orders)
    }
}

/// How the input of a program ends.
#[derive(Clone, Copy, PartialEq, Eq, Debug)]
pub enum End {
    Refused(Refusal),
    /// At an ill-formed line, counted from 1.
    IllFormed(usize),
    Whole,
}

impl End {
    /// The line that tells why it ended early.
    pub fn print(self, out: &mut dyn Write) -> io::Result<()> {
        match self {
            End::Refused(refusal) => writeln!(out, "L {} {}", refusal.code.number(), refusal.line),
            End::IllFormed(line) => writeln!(out, "E {line}"),
            End::Whole => Ok(()),
        }
    }
}

/// Loads the set text and works the script; each beat's answer and buffer go to `tell`.
pub fn work(
    input: &[u8],
    control: &mut Control,
    tell: &mut dyn FnMut(Answer, &[u8]) -> io::Result<()>,
) -> io::Result<End> {
    let (set_text, script) = text::split_at_star(input);
    if let Err(refusal) = control.load(set_text) {
        return Ok(End::Refused(refusal));
    }
    let mut buffer = [0; BUFFER];
    for (number, line) in (1..).zip(text::lines(script).take(LINES)) {
        match ScriptLine::read(line) {
            None => return Ok(End::IllFormed(number)),
            Some(ScriptLine::ProgramEnd) => sound(control.program_end()),
            Some(ScriptLine::ControlReset) => sound(control.control_reset()),
            Some(ScriptLine::Beat(beat)) => {
                let answer = control.beat(&beat, &mut buffer);
                tell(answer, &buffer)?;
            }
        }
    }
    Ok(End::Whole)
}

/// The answer of a call that only a set or state not sound can refuse.
fn sound(code: Code) {
    assert!(code == Code::Success, "a loaded set and its state are sound");
}

pub fn run(input: &[u8], control: &mut Control, out: &mut dyn Write) -> io::Result<()> {
    let mut totals = Totals::default();
    let end = work(input, control, &mut |answer, buffer| {
        totals.count(answer.code, answer.orders);
        writeln!(out, "C {} {} {}", totals.calls, answer.code.number(), answer.orders)?;
        print_orders(buffer, answer.orders, out)
    })?;
    if end == End::Whole {
        return totals.print(out);
    }
    end.print(out)
}

pub fn print_orders(buffer: &[u8], count: usize, out: &mut dyn Write) -> io::Result<()> {
    for Order { kind, line, target, value } in Order::read(buffer, count) {
        writeln!(out, "O {line} {kind} {target} {value}")?;
    }
    Ok(())
}
