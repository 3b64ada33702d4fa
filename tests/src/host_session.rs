//! What a host session prints: calls of every sort, damage and dumps. HOST-SESSIONS.md describes it.

use crate::beat_line::BeatLine;
use crate::code::Code;
use crate::control::{Control, Kept};
use crate::damage;
use crate::host_line::HostLine;
use crate::print::print_into;
use crate::synrun::{print_orders, Totals};
use crate::text;
use std::io::{self, Write};

/// The byte that fills the buffer before each beat and each print.
const FILL: u8 = 0xAA;

pub fn run(input: &[u8], control: &mut Control, out: &mut dyn Write) -> io::Result<()> {
    let (set_text, script) = text::split_at_star(input);
    let mut session = Session::new(set_text, control, out)?;
    for line in text::lines(script) {
        session.number += 1;
        if session.line(line)?.is_none() {
            return writeln!(session.out, "E {}", session.number);
        }
    }
    session.totals.print(session.out)
}

struct Session<'a> {
    set_text: &'a [u8],
    control: &'a mut Control,
    out: &'a mut dyn Write,
    kept: Kept,
    number: usize,
    totals: Totals,
}

impl<'a> Session<'a> {
    fn new(set_text: &'a [u8], control: &'a mut Control, out: &'a mut dyn Write) -> io::Result<Session<'a>> {
        let kept = control.keep();
        let mut session = Session { set_text, control, out, kept, number: 0, totals: Totals::default() };
        session.load(set_text.len())?;
        Ok(session)
    }

    /// Works one line; None if it is ill-formed.
    fn line(&mut self, line: &[u8]) -> io::Result<Option<()>> {
        let Some(line) = HostLine::read(line) else {
            return Ok(None);
        };
        match line {
            HostLine::Beat { beat, buffer } => self.beat(&beat, buffer)?,
            HostLine::Lock(number) => self.host_call(|control| control.lock(number))?,
            HostLine::Unlock(number) => self.host_call(|control| control.unlock(number))?,
            HostLine::Cancel(number) => self.host_call(|control| control.cancel(number))?,
            HostLine::ProgramEnd => self.host_call(Control::program_end)?,
            HostLine::ControlReset => self.host_call(Control::control_reset)?,
            HostLine::Status => self.status()?,
            HostLine::Print(length) => self.print(length)?,
            HostLine::Load(bytes) if bytes > self.set_text.len() => return Ok(None),
            HostLine::Load(bytes) => self.load(bytes)?,
            HostLine::Keep => self.kept = self.control.keep(),
            HostLine::GiveBack => self.control.give_back(&self.kept),
            HostLine::Dump => self.dump()?,
            _ => return Ok(damage::damage(self.control, &line)),
        }
        Ok(Some(()))
    }

    fn load(&mut self, bytes: usize) -> io::Result<()> {
        let (code, line) = match self.control.load(&self.set_text[..bytes]) {
            Ok(()) => (Code::Success, 0),
            Err(refusal) => (refusal.code, refusal.line),
        };
        self.kept = self.control.keep();
        writeln!(self.out, "L {} {}", code.number(), line)
    }

    fn beat(&mut self, beat: &BeatLine, length: usize) -> io::Result<()> {
        let mut buffer = vec![FILL; length];
        let answer = self.control.beat(beat, &mut buffer);
        self.totals.count(answer.code, answer.orders);
        let (code, orders, acted) = (answer.code.number(), answer.orders, answer.acted);
        writeln!(self.out, "C {} {code} {orders} {acted} {}", self.number, checksum(&buffer))?;
        print_orders(&buffer, orders, self.out)
    }

    fn host_call(&mut self, call: impl FnOnce(&mut Control) -> Code) -> io::Result<()> {
        let code = call(self.control);
        self.totals.count(code, 0);
        writeln!(self.out, "H {} {}", self.number, code.number())
    }

    fn status(&mut self) -> io::Result<()> {
        let (code, picture) = match self.control.status() {
            Ok(picture) => (Code::Success, picture),
            Err(code) => (code, Vec::new()),
        };
        self.totals.count(code, 0);
        writeln!(self.out, "I {} {} {}", self.number, code.number(), picture.len())?;
        for status in picture {
            writeln!(self.out, "{status}")?;
        }
        Ok(())
    }

    fn print(&mut self, length: usize) -> io::Result<()> {
        let mut buffer = vec![FILL; length];
        let (code, bytes) = match print_into(&self.control.set, &mut buffer) {
            Ok(bytes) => (Code::Success, bytes),
            Err(code) => (code, 0),
        };
        self.totals.count(code, 0);
        writeln!(self.out, "P {} {} {bytes} {}", self.number, code.number(), checksum(&buffer))
    }

    /// The state in the form of the lines that would put it there.
    fn dump(&mut self) -> io::Result<()> {
        writeln!(self.out, "D {}", self.control.set.count())?;
        for (letter, index, value) in damage::places(&self.control.state) {
            writeln!(self.out, "V {letter} {index} {value}")?;
        }
        Ok(())
    }
}

/// A checksum of all bytes that small arithmetic can work; the rest is taken once for every eight.
pub fn checksum(bytes: &[u8]) -> u32 {
    let eight = |sum: u64, bytes: &[u8]| bytes.iter().fold(sum, |sum, byte| sum * 31 + u64::from(*byte));
    bytes.chunks(8).fold(0, |sum, bytes| eight(sum, bytes) % 1_000_003) as u32
}
