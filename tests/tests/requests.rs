//! The requests of host sessions (HOST-SESSIONS.md): a program that works them with the interpreter answers so that every session
//! which does not damage the set prints what the interpreter prints.

use reference::beat::Mode;
use reference::beat_line::BeatLine;
use reference::code::Code;
use reference::control::Control;
use reference::print::print_into;
use reference::reading::{Reading, CHANNELS};
use reference::runner::{reference, Form};
use reference::seen::Seen;
use reference::set::LINES;
use reference::slip::Slip;
use reference::state::State;
use reference::status::Standing;
use reference::token::Scope;
use reference::{cases, generate, host_calls, text};
use std::io::{self, Read, Write};
use std::thread;

const FILL: u8 = 0xAA;

/// A program that works requests: the set text, the control, and what it has answered.
struct Program<R: Read, W: Write> {
    set_text: Vec<u8>,
    control: Control,
    requests: R,
    answers: W,
}

impl<R: Read, W: Write> Program<R, W> {
    fn start(mut requests: R, answers: W) -> io::Result<Self> {
        let mut set_text = vec![0; 16384];
        requests.read_exact(&mut set_text)?;
        Ok(Program { set_text, control: Control::new(Slip::None, Seen::default()), requests, answers })
    }

    /// Works the next request; false at the end.
    fn step(&mut self) -> io::Result<bool> {
        let mut bytes = [0; 4 * 37];
        if self.requests.read_exact(&mut bytes).is_err() {
            return Ok(false);
        }
        let request: Vec<u32> =
            bytes.chunks(4).map(|word| u32::from_le_bytes(word.try_into().expect("four bytes"))).collect();
        let (first, second, third) = (request[1], request[2], request[3]);
        match request[0] as u8 {
            b'N' => self.load(first as usize)?,
            b'B' => self.beat(&request)?,
            b'L' => self.call(|control| control.lock(first as u8))?,
            b'U' => self.call(|control| control.unlock(first as u8))?,
            b'C' => self.call(|control| control.cancel(first as u8))?,
            b'E' => self.call(Control::program_end)?,
            b'R' => self.call(Control::control_reset)?,
            b'I' => self.status()?,
            b'Q' => self.print(first as usize)?,
            b'W' => {
                let mut places = vec![0; 1024];
                places[0] = if first == 0 { self.control.set.count() as u32 } else { 0 };
                self.answer(&places)?;
            }
            b'D' => {
                let places: Vec<u32> = arrays(&self.control.state).concat();
                self.answer(&places)?;
            }
            b'V' => put(&mut self.control.state, first, second as usize, third),
            other => panic!("no request is {other}"),
        }
        Ok(true)
    }

    fn answer(&mut self, numbers: &[u32]) -> io::Result<()> {
        let bytes: Vec<u8> = numbers.iter().flat_map(|number| number.to_le_bytes()).collect();
        self.answers.write_all(&bytes)
    }

    fn load(&mut self, bytes: usize) -> io::Result<()> {
        match self.control.load(&self.set_text[..bytes]) {
            Ok(()) => self.answer(&[0; 4]),
            Err(refusal) => self.answer(&[refusal.code.number().into(), refusal.line as u32, 0, 0]),
        }
    }

    fn call(&mut self, call: impl FnOnce(&mut Control) -> Code) -> io::Result<()> {
        let code = call(&mut self.control);
        self.answer(&[code.number().into(), 0, 0, 0])
    }

    fn beat(&mut self, request: &[u32]) -> io::Result<()> {
        let reading = |channel: usize| match request[5 + 2 * channel] {
            0 => Reading::Volts(request[6 + 2 * channel]),
            1 => Reading::Break,
            2 => Reading::Short,
            kind => panic!("no reading is of kind {kind}"),
        };
        let beat = BeatLine {
            mode: if request[1] == 1 { Mode::Automatic } else { Mode::Manual },
            word: request[2] as u16,
            readings: std::array::from_fn::<_, CHANNELS, _>(reading),
            positions: request[21..21 + request[4] as usize].iter().map(|number| *number as i32).collect(),
        };
        let mut buffer = vec![FILL; request[3] as usize];
        let answer = self.control.beat(&beat, &mut buffer);
        self.answer(&[answer.code.number().into(), answer.orders as u32, answer.acted, 0])?;
        self.answers.write_all(&buffer)
    }

    fn status(&mut self) -> io::Result<()> {
        let picture = match self.control.status() {
            Ok(picture) => picture,
            Err(code) => return self.answer(&[code.number().into(), 0, 0, 0]),
        };
        let mut numbers = vec![0, picture.len() as u32, 0, 0];
        for line in picture {
            let standing = match line.standing {
                Standing::Waiting => 0,
                Standing::Locked => 1,
                Standing::Cancelled => 2,
            };
            numbers.extend([u32::from(line.scope == Scope::Ids), line.number as u32, standing, line.acts]);
        }
        self.answer(&numbers)
    }

    fn print(&mut self, length: usize) -> io::Result<()> {
        let mut buffer = vec![FILL; length];
        match print_into(&self.control.set, &mut buffer) {
            Ok(bytes) => self.answer(&[0, bytes as u32, 0, 0])?,
            Err(code) => self.answer(&[code.number().into(), 0, 0, 0])?,
        }
        self.answers.write_all(&buffer)
    }
}

/// The arrays of a state, in their order.
fn arrays(state: &State) -> [Vec<u32>; 10] {
    let low = |values: &[i64]| values.iter().map(|value| *value as u32).collect::<Vec<u32>>();
    let timers = state.timers.map(|timer| timer.value);
    let counts = state.fifo_counts.map(|count| count as i64);
    [
        low(&state.r),
        [&low(&state.outputs)[..], &low(&state.markers), &low(&state.params), &low(&timers), &low(&counts)]
            .concat(),
        state.timers.map(|timer| timer.running.into()).to_vec(),
        state.lines.map(|line| line.locked.into()).to_vec(),
        state.lines.map(|line| line.cancelled.into()).to_vec(),
        state.lines.map(|line| line.memory.into()).to_vec(),
        state.channels.map(|channel| channel.known.into()).to_vec(),
        state.channels.map(|channel| channel.bits).to_vec(),
        state.channels.map(|channel| channel.faults.into()).to_vec(),
        state.lines.map(|line| line.acts).to_vec(),
    ]
}

fn put(state: &mut State, array: u32, place: usize, number: u32) {
    let value = i64::from(number as i32);
    match (array, place) {
        (0, _) => state.r[place] = value,
        (1, 0..16) => state.outputs[place] = value,
        (1, 16..48) => state.markers[place - 16] = value,
        (1, 48..80) => state.params[place - 48] = value,
        (1, 80..88) => state.timers[place - 80].value = value,
        (1, _) => state.fifo_counts[place - 88] = number as usize,
        (2, _) => state.timers[place].running = number == 1,
        (3, _) => state.lines[place].locked = number == 1,
        (4, _) => state.lines[place].cancelled = number == 1,
        (5, _) => state.lines[place].memory = number == 1,
        (6, _) => state.channels[place].known = number == 1,
        (7, _) => state.channels[place].bits = number,
        (8, _) => state.channels[place].faults = number as u8,
        (9, _) => state.lines[place].acts = number,
        _ => panic!("no array is {array}"),
    }
}

/// What the session prints, worked over pipes.
fn by_requests(input: &[u8]) -> Vec<u8> {
    let (requests, to_program) = io::pipe().expect("a pipe");
    let (from_program, answers) = io::pipe().expect("a pipe");
    let work = move || {
        let mut program = Program::start(requests, answers)?;
        while program.step()? {}
        Ok::<(), io::Error>(())
    };
    let worker = thread::Builder::new().stack_size(64 << 20).spawn(work).expect("a thread for the program");
    let printed = host_calls::run(input, to_program, from_program);
    worker.join().expect("the program ends").expect("its pipes hold");
    printed
}

fn damages_the_set(input: &[u8]) -> bool {
    let (_, script) = text::split_at_star(input);
    text::lines(script).any(|line| [&b"S "[..], b"T ", b"F "].iter().any(|form| line.starts_with(form)))
}

fn agree(name: &str, input: &[u8]) {
    let (found, expected) = (by_requests(input), reference(Form::Host, input, Slip::None));
    let difference = reference::report::difference(&expected, &found);
    assert!(found == expected, "{name}: {difference}");
}

#[test]
fn sessions_by_requests_print_the_same() {
    let work = || {
        let cases = cases::all().expect("the folders of cases");
        let host = cases.iter().filter(|case| case.form == Form::Host && !damages_the_set(&case.input));
        let mut worked = 0;
        for case in host {
            agree(&case.name, &case.input);
            worked += 1;
        }
        for seed in 0..200 {
            let input = generate::input(Form::Host, seed);
            if !damages_the_set(&input) {
                agree(&format!("seed {seed}"), &input);
                worked += 1;
            }
        }
        assert!(worked > 150);
    };
    let worker = thread::Builder::new().stack_size(64 << 20).spawn(work).expect("a thread for the sessions");
    worker.join().expect("every session agrees");
}

#[test]
fn the_arrays_of_a_state_are_as_long_as_the_page_says() {
    let lengths = arrays(&State::power_on()).map(|array| array.len());
    assert_eq!(lengths, [164, 92, 8, LINES, LINES, LINES, CHANNELS, CHANNELS, CHANNELS, LINES]);
}
