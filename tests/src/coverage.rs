//! Counts what the random inputs reach, so that a hole in the generator shows.

use crate::calls_seen::{self, CALLS};
use crate::code::Code;
use crate::control::Control;
use crate::generate;
use crate::host_print_seen::{self, HostPrint};
use crate::load::Refusal;
use crate::parse;
use crate::print_seen::{Printed, PATHS};
use crate::report::Report;
use crate::runner::{reference, work, Form, Seeds};
use crate::seen::Seen;
use crate::slip::Slip;
use crate::text;
use crate::token::{self, Motion};
use crate::tree::{Action, Line};
use crate::{check, load};
use std::collections::BTreeMap;

const MOVES: [&str; 4] = ["POS and POS", "POS and MOV", "MOV and POS", "MOV and MOV"];
const ALARMS: [u8; 5] = [30, 31, 32, 33, 34];
const HOST_FORMS: [&str; 35] = [
    "A", "M", "B", "L", "U", "C", "R", "P", "N", "K", "G", "D", "T", "F", "S N", "S I", "S C", "S X", "S F",
    "V O", "V M", "V P", "V R", "V T", "V U", "V F", "V L", "V C", "V E", "V K", "V B", "V Q", "V A", "I",
    "E",
];

/// How often each thing occurred, by name.
pub struct Coverage {
    counts: BTreeMap<String, u64>,
}

impl Coverage {
    /// What these seeds of each form reach; long sessions are counted by themselves.
    pub fn of(seeds: &Seeds) -> Coverage {
        let mut coverage = Coverage { counts: expected().into_iter().map(|name| (name, 0)).collect() };
        for form in Form::ALL {
            let mut control = Control::watched(Slip::None, Seen::counting());
            for seed in seeds.of(form) {
                coverage.input(form, &generate::input(form, seed), &mut control);
            }
            if [Form::Print, Form::Stat].contains(&form) {
                continue;
            }
            for (event, count) in control.seen.counts() {
                *coverage.counts.entry(group(form).to_owned() + event).or_default() += count;
            }
        }
        coverage
    }

    fn note(&mut self, name: String) {
        *self.counts.entry(name).or_default() += 1;
    }

    fn input(&mut self, form: Form, input: &[u8], control: &mut Control) {
        let mut output = Vec::new();
        work(form, input, control, &mut output).expect("writing to memory");
        let (set_text, script) = text::split_at_star(input);
        let script: Vec<&[u8]> = text::lines(script).collect();
        if form == Form::Print && !output.starts_with(b"L ") {
            return self.print_of(&Printed::new(set_text, &output));
        }
        let output = String::from_utf8_lossy(&output);
        let mut before = "";
        for line in output.lines() {
            self.output_line(form, line, before, &script);
            before = line;
        }
        self.refused(set_text);
        if [Form::Synrun, Form::Stat].contains(&form) && !output.starts_with("L ") {
            self.note(format!("{}load 0", group(form)));
        }
        if [Form::Synrun, Form::Stat].contains(&form) {
            self.calls(form, input, &script);
        }
        if [Form::Host, Form::Long].contains(&form) {
            script.iter().for_each(|line| self.note(format!("{} line {}", form.name(), host_form(line))));
        }
    }

    /// Notes the program ends and control resets of a script, and where they stand.
    fn calls(&mut self, form: Form, input: &[u8], script: &[&[u8]]) {
        for call in script.iter().filter_map(|line| CALLS.into_iter().find(|call| call.as_bytes() == *line)) {
            self.note(format!("{} line {call}", form.name()));
        }
        let printed = reference(Form::Synrun, input, Slip::None);
        for name in calls_seen::names(script, &String::from_utf8_lossy(&printed)) {
            self.note(format!("{} {name}", form.name()));
        }
    }

    /// Notes the code of a line with FCTDEF or SYNFCT, and the ground of codes 13 and 14.
    fn refused(&mut self, set_text: &[u8]) {
        let Err(refusal) = load::load(set_text, Slip::None) else {
            return;
        };
        let Some(line) = text::lines(set_text).nth(refusal.line.wrapping_sub(1)) else {
            return;
        };
        let code = refusal.code.number();
        for word in ["FCTDEF", "SYNFCT"].iter().filter(|word| holds(line, word)) {
            self.note(format!("{word} line, load {code}"));
        }
        if code == 13 {
            self.note(format!("load 13, {}", ground(line)));
        }
        if code == 14 {
            self.two_moves(set_text, refusal.line, line);
        }
    }

    /// Notes what the two moves of a refused line are, and what else would be found if they were taken.
    fn two_moves(&mut self, set_text: &[u8], place: usize, line: &[u8]) {
        let tokens = token::tokens(text::without_comment(line)).unwrap_or_default();
        if let Some(moves) = parse::line(&tokens).as_ref().and_then(first_two_moves) {
            self.note(format!("load 14, {moves}"));
        }
        let other = match load::load(set_text, Slip::TwoMovesTaken) {
            Err(Refusal { code: Code::NumberUsedAbove, line }) if line == place => "11 too",
            Err(Refusal { code: Code::CurveNotAllowed, line }) if line == place => "13 too",
            Err(Refusal { code: Code::LockOfNoLine, line }) if line < place => "12 above",
            _ => return,
        };
        self.note(format!("load 14, {other}"));
    }

    /// A set text that is taken, and its print.
    fn print_of(&mut self, printed: &Printed) {
        self.note("print load 0".into());
        for (name, _) in PATHS.iter().filter(|(_, is_there)| is_there(printed)) {
            self.note(format!("print {name}"));
        }
    }

    /// A line of the output, that before it, and the script.
    fn output_line(&mut self, form: Form, line: &str, before: &str, script: &[&[u8]]) {
        let fields: Vec<&str> = line.split(' ').collect();
        let place = fields.get(1).and_then(|place| place.parse::<usize>().ok()).unwrap_or(0);
        match fields[0] {
            "L" => self.note(format!("{}load {}", group(form), fields[1])),
            "C" => self.note(format!("{} beat {}", form.name(), fields[2])),
            "I" if line.ends_with(" 0 0") => self.note(format!("{} status of no line", form.name())),
            "I" => self.note(format!("{} status {}", form.name(), fields[2])),
            "H" => self.note(format!("{} call {} {}", form.name(), host_form(script[place - 1]), fields[2])),
            "P" => self.host_print(form, &HostPrint::read(&fields, before, script)),
            "E" | "S" if form == Form::Stat => self.note(format!("stat line {}", host_form(line.as_bytes()))),
            "E" | "END" => self.note(format!("{} ends with {}", form.name(), fields[0])),
            _ => {}
        }
    }

    /// A print of a host session.
    fn host_print(&mut self, form: Form, print: &HostPrint) {
        for name in print.names() {
            self.note(format!("{} print {name}", form.name()));
        }
    }

    /// Prints every count.
    pub fn print(&self) {
        for (name, count) in &self.counts {
            println!("{count:>10}  {name}");
        }
    }

    /// A test for each name: it occurred. In long sessions most turns are taken, and most beats good.
    pub fn test(&self, report: &mut Report) {
        report.part();
        for (name, count) in &self.counts {
            report.test(*count > 0, || format!("no seed reaches: {name}"));
        }
        let taken = self.sum("long act") + self.sum("long no act");
        report.test(taken > self.sum("long skip"), || "long sessions skip most turns".into());
        let good = self.sum("long beat 0");
        report.test(2 * good > self.sum("long beat"), || "long sessions have few good beats".into());
    }

    /// All counts whose names begin so.
    fn sum(&self, start: &str) -> u64 {
        self.counts.iter().filter(|(name, _)| name.starts_with(start)).map(|(_, count)| count).sum()
    }
}

fn holds(line: &[u8], word: &str) -> bool {
    text::without_comment(line).windows(word.len()).any(|bytes| bytes == word.as_bytes())
}

/// The first two moves of one axis in a line, in their order.
fn first_two_moves(line: &Line) -> Option<&'static str> {
    let mut moves: Vec<(Motion, u8)> = Vec::new();
    for action in &line.actions {
        let Action::Move(motion @ (Motion::Pos | Motion::Mov), axis, _) = action else {
            continue;
        };
        if let Some((before, _)) = moves.iter().find(|(_, other)| other == axis) {
            return Some(match (before, motion) {
                (Motion::Pos, Motion::Pos) => MOVES[0],
                (Motion::Pos, _) => MOVES[1],
                (_, Motion::Pos) => MOVES[2],
                _ => MOVES[3],
            });
        }
        moves.push((*motion, *axis));
    }
    None
}

/// Why a line has code 13.
fn ground(line: &[u8]) -> &'static str {
    let tokens = token::tokens(text::without_comment(line)).unwrap_or_default();
    match check::curve(&tokens, false) {
        Ok(curve) if curve.lower > curve.upper => "lower above upper",
        Ok(_) => "defined twice",
        _ => "not defined",
    }
}

/// What stands before the names of what a form's inputs reach, where forms are not counted together.
fn group(form: Form) -> &'static str {
    match form {
        Form::Synrun | Form::Host => "",
        Form::Long => "long ",
        Form::Print => "print ",
        Form::Stat => "stat ",
    }
}

/// The letter of a host line, for V and S with the next one.
pub fn host_form(line: &[u8]) -> String {
    let line = String::from_utf8_lossy(line);
    let mut fields = line.split(' ');
    let first = fields.next().unwrap_or("");
    match (first, fields.next()) {
        ("V" | "S", Some(second)) => format!("{first} {second}"),
        _ => first.into(),
    }
}

/// Everything that can occur outside the beats.
fn expected() -> Vec<String> {
    let mut names: Vec<String> = (0..=14).map(|code| format!("load {code}")).collect();
    names.extend([3, 4, 5, 7, 13].map(|code| format!("FCTDEF line, load {code}")));
    names.extend((3..=14).map(|code| format!("SYNFCT line, load {code}")));
    names.extend(["lower above upper", "defined twice", "not defined"].map(|why| format!("load 13, {why}")));
    names.extend([0, 21, 23].iter().chain(&ALARMS).map(|code| format!("synrun beat {code}")));
    for form in ["host", "long"] {
        names.extend([0, 20, 21, 22, 23].iter().chain(&ALARMS).map(|code| format!("{form} beat {code}")));
        for call in ["L", "U", "C"] {
            names.extend([0, 22, 40].map(|code| format!("{form} call {call} {code}")));
        }
        for call in ["R", "E"] {
            names.extend([0, 22].map(|code| format!("{form} call {call} {code}")));
        }
        names.extend([0, 22].map(|code| format!("{form} status {code}")));
        let prints = host_print_seen::expected(form == "long");
        names.extend(prints.iter().map(|name| format!("{form} print {name}")));
        names.extend(HOST_FORMS.iter().map(|line| format!("{form} line {line}")));
    }
    for form in ["synrun", "host"] {
        names.extend(["E", "END"].map(|end| format!("{form} ends with {end}")));
    }
    names.push("host status of no line".into());
    for form in ["synrun", "stat"] {
        names.extend(CALLS.map(|call| format!("{form} line {call}")));
        names.extend(calls_seen::expected().iter().map(|name| format!("{form} {name}")));
    }
    names.extend(["long load 0".into(), "long ends with END".into()]);
    names.extend((0..=14).map(|code| format!("print load {code}")));
    names.extend((0..=14).map(|code| format!("stat load {code}")));
    names.extend(["E", "S ID", "S IDS"].map(|line| format!("stat line {line}")));
    names.extend(MOVES.map(|moves| format!("load 14, {moves}")));
    names.extend(["11 too", "13 too", "12 above"].map(|other| format!("load 14, {other}")));
    names.extend(PATHS.iter().map(|(name, _)| format!("print {name}")));
    names
}
