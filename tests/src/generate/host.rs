//! Random host sessions: beats, host calls, prints, lent lists and buffers, damage, dumps.

use super::beats::Inputs;
use super::curve_damage;
use super::filled::{filled, operands, GROWN};
use super::{random_set, RandomSet};
use crate::control::POSITIONS;
use crate::host_line::LONGEST_PRINT;
use crate::load::TEXT;
use crate::print::BUFFER;
use crate::random::Random;
use crate::set::LINES;

const BUFFERS: [usize; 8] = [2048, 2048, 2047, 0, 4096, 2049, 2055, 2040];
const PRINT_BUFFERS: [usize; 12] =
    [4096, 4096, 4096, 4095, 4095, 4097, 4098, 4104, 0, 1, LONGEST_PRINT, LONGEST_PRINT];
const LISTS: [usize; 8] = [6, 6, 6, 6, 5, 7, 0, 16];
const ILL_FORMED: [&str; 39] = [
    "", "Q", "L", "L 256", "L -1", "R 1", "B A 0 4097 6", "B A 0 2048 17", "V Z 0 0", "V M 32 0", "V O 0 0",
    "V L 0 2", "S C 1 1", "T 0 0 #", "N 1000000", "D 0", "P", "P 8193", "P -1", "P 4096 1", "B A 0 2048 6 1",
    "V K 0 1", "V K 1 2", "V B 1 7FC00000", "V B 9 00000000", "V Q 1 256", "F 0 2 1", "F 4 2 1", "F 1 99 1",
    "F 1 2 #", "S F 0 0", "S F 4 0", "S F 1 4", "I 0", "E 1", "PE", "RS", "V A 32 0", "V A 0 4294967296",
];
/// Lines that are ill-formed if the set does not have the curve.
const OF_NO_CURVE: [&str; 4] = ["F 1 4 0", "F 3 15 1", "S F 1 2", "S F 2 3"];
/// Raw values around the edges of soundness.
const RAW: [i64; 16] = [
    0, 0, 1000, 1, 500, 2000, -1000, -1, 123_456, 999_999_998, 1_000_000_000, -1_000_000_000, 1_000_000_001,
    -1_000_000_001, 2_147_483_647, -2_147_483_648,
];
const COUNTS: [i64; 8] = [0, 1, 2, 5, 15, 16, 17, 255];
/// Faulty beats in a row, and the bits of readings that convert and of those that do not.
const FAULTS: [i64; 8] = [0, 1, 24, 24, 25, 25, 26, 255];
const BITS: [&str; 10] = [
    "00000000", "80000000", "00000001", "3D800000", "49742400", "C9742400", "49742401", "C9742401",
    "7F7FFFFF", "FF800000",
];
/// Acts of a line around their top.
const ACTS: [i64; 10] = [
    0, 1, 3_999_999_997, 3_999_999_998, 3_999_999_999, 3_999_999_999, 3_999_999_999, 4_000_000_000,
    4_000_000_001, 4_294_967_295,
];
/// Tokens put in another's place; no keyword, so that no memory changes its meaning.
const TOKENS: [&str; 26] = [
    "DO", "TRUE", "NOT", "AND", "OR", "(", ")", "[", "]", "=", "==", "<", "+", "-", "*", "/", "0", "1",
    "2.0", "0.5", "164", "2000000", "X", "$R", "$AC_FIFO1", "M",
];

pub struct Session<'a> {
    pub random: &'a mut Random,
    pub set: RandomSet,
    /// The set holds the lines of the generator, so that damage can name places in them.
    lines_known: bool,
    inputs: Inputs,
    script: Vec<String>,
}

pub fn session(random: &mut Random) -> Vec<u8> {
    let set = random_set(random, 8);
    let fills = is_taken(&set) && random.chance(6);
    let set = if fills { filled(random, set) } else { set };
    let calls = random.between(3, 40);
    let mut session = Session::new(random, set, Inputs::default());
    if fills {
        session.growth_episode();
    }
    for _ in 0..calls {
        session.step();
        if session.random.chance(10) {
            session.print();
        }
    }
    session.end()
}

/// The set has lines, and they are surely taken when loaded.
fn is_taken(set: &RandomSet) -> bool {
    !set.faulty && !set.lines.is_empty() && set.text.len() <= TEXT
}

impl Session<'_> {
    pub fn new(random: &mut Random, set: RandomSet, inputs: Inputs) -> Session<'_> {
        Session { random, lines_known: is_taken(&set), set, inputs, script: Vec::new() }
    }

    /// The input of the session, a dump as its last line.
    pub fn end(mut self) -> Vec<u8> {
        self.add("D");
        let mut input = self.set.text;
        input.extend(b"*\n");
        input.extend(self.script.join("\n").as_bytes());
        input.push(b'\n');
        input
    }

    pub fn add(&mut self, line: impl Into<String>) {
        self.script.push(line.into());
    }

    fn step(&mut self) {
        match self.random.below(200) {
            0..=99 => self.beat(),
            100..=134 => self.host_call(),
            135..=148 => self.add("D"),
            149..=154 => self.add("I"),
            155..=164 => self.lent_beat(),
            165..=180 => self.damage_episode(),
            181 => self.state_damage(),
            182..=185 => self.host_call(),
            186..=188 => self.growth_episode(),
            189..=192 => self.add("K"),
            193..=195 => self.add("G"),
            196..=198 => self.load(),
            _ => self.ill_formed(),
        }
    }

    fn call(&mut self) {
        match self.random.below(15) {
            13..=14 => self.add("I"),
            0..=4 => self.beat(),
            5 => self.lent_beat(),
            6 if self.random.chance(50) => self.add("E"),
            6 => self.add("R"),
            7..=9 => self.print(),
            _ => self.host_call(),
        }
    }

    pub fn beat(&mut self) {
        let line = format!("{} {}", self.inputs.mode(self.random), self.inputs.next(self.random, POSITIONS));
        self.add(line);
    }

    pub fn lent_beat(&mut self) {
        let buffer = self.random.pick(&BUFFERS);
        let list = self.random.pick(&LISTS);
        let inputs = self.inputs.next(self.random, list);
        let (word, given) = inputs.split_once(' ').unwrap_or((&inputs, ""));
        let line = format!("B {} {word} {buffer} {list} {given}", self.inputs.mode(self.random));
        self.add(line.trim_end());
    }

    fn host_call(&mut self) {
        let call = self.random.weighted(&[(40, "L"), (45, "U"), (10, "C"), (3, "R"), (4, "E")]);
        if ["R", "E"].contains(&call) {
            return self.add(call);
        }
        let number = match self.random.below(8) {
            0 => self.random.between(0, 255),
            _ if self.set.numbers.is_empty() => 1,
            _ => self.random.pick(&self.set.numbers),
        };
        self.add(format!("{call} {number}"));
    }

    /// A print into a buffer that is long enough or not.
    pub fn print(&mut self) {
        let bytes = match self.random.below(4) {
            0 => self.random.below(LONGEST_PRINT + 1),
            _ => self.random.pick(&PRINT_BUFFERS),
        };
        self.add(format!("P {bytes}"));
    }

    fn load(&mut self) {
        let length = self.set.text.len();
        let bytes = if self.random.chance(50) { length } else { self.random.below(length + 1) };
        self.lines_known = bytes == length && is_taken(&self.set);
        self.add(format!("N {bytes}"));
    }

    fn ill_formed(&mut self) {
        if self.random.chance(20) {
            let of_no_curve = self.random.chance(15);
            let lines = if of_no_curve { &OF_NO_CURVE[..] } else { &ILL_FORMED[..] };
            let line = self.random.pick(lines).to_string();
            self.add(line);
        }
    }

    /// Damage, some calls on it, and mostly the way back.
    pub fn damage_episode(&mut self) {
        self.add("K");
        for _ in 0..self.random.between(1, 2) {
            if self.random.chance(50) {
                self.state_damage();
            } else {
                self.set_damage();
            }
        }
        for _ in 0..self.random.between(1, 3) {
            self.call();
        }
        self.add("D");
        if self.random.chance(95) {
            self.add("G");
        }
    }

    /// Numbers of the set grow, its print is asked for, also in just the bytes that it may have, and all is given back.
    pub fn growth_episode(&mut self) {
        self.add("K");
        for _ in 0..self.random.between(1, 3) {
            self.growth();
        }
        for _ in 0..self.random.between(1, 3) {
            self.print();
            let bytes = BUFFER + self.random.below(12);
            self.add(format!("P {bytes}"));
        }
        self.add("G");
    }

    /// An operand of some line becomes another number.
    fn growth(&mut self) {
        if !self.lines_known {
            return;
        }
        if !self.set.curves.is_empty() && self.random.chance(20) {
            let line = curve_damage::growth(self.random, &self.set.curves);
            return self.add(line);
        }
        let rank = self.random.below(self.set.lines.len());
        let places = operands(&self.body(rank));
        if !places.is_empty() {
            let (place, number) = (self.random.pick(&places), self.random.pick(&GROWN));
            self.add(format!("T {rank} {place} {number}"));
        }
    }

    fn state_damage(&mut self) {
        let raw = self.random.pick(&RAW);
        let flag = self.random.below(2) as i64;
        let rank =
            if self.random.chance(95) { self.random.below(self.set.lines.len().max(1)) } else { 31 } as i64;
        match self.random.below(100) {
            0..=21 => return self.channel_damage(),
            22..=33 => return self.acts_damage(),
            _ => {}
        }
        let (letter, index, value) = match self.random.below(14) {
            0 => ("O", self.random.between(1, 16), raw),
            1..=2 => ("M", self.random.between(0, 3), raw),
            3 => ("P", self.random.between(0, 31), raw),
            4 => ("R", self.random.between(0, 5), raw),
            5 => ("R", self.random.between(100, 163), raw),
            6 => ("T", self.random.between(0, 7), raw),
            7 => ("U", self.random.between(0, 7), flag),
            8..=9 => ("F", self.random.between(1, 4), self.random.pick(&COUNTS)),
            10..=11 => ("L", rank, flag),
            12 => ("C", rank, flag),
            _ if self.remembers(rank as usize) => ("E", rank, flag),
            _ => ("L", rank, 1),
        };
        self.add(format!("V {letter} {index} {value}"));
    }

    /// A channel's record becomes another, in whole or in part, and its last good reading is mostly asked for.
    fn channel_damage(&mut self) {
        let channel = self.random.between(1, 8);
        let (known, faults) = (self.random.below(4).min(1), self.random.pick(&FAULTS));
        let bits = self.random.pick(&BITS);
        let mut places = vec![format!("V K {channel} {known}"), format!("V B {channel} {bits}")];
        places.push(format!("V Q {channel} {faults}"));
        if self.random.chance(50) {
            let place = self.random.below(places.len());
            places = vec![places.swap_remove(place)];
        }
        places.into_iter().for_each(|place| self.add(place));
        if self.random.chance(70) {
            let readings = vec!["00000000"; channel as usize - 1].join(" ");
            self.add(format!("A 0 {readings} B").replace("  ", " "));
        }
    }

    /// The counts of one line, or of all, come near their top; beats and the picture follow.
    fn acts_damage(&mut self) {
        let lines = if self.lines_known { self.set.lines.len() } else { 1 };
        let rank = if self.random.chance(95) { self.random.below(lines) } else { LINES - 1 };
        let acts = self.random.pick(&ACTS);
        let ranks = if self.random.chance(30) { 0..lines } else { rank..rank + 1 };
        ranks.for_each(|rank| self.add(format!("V A {rank} {acts}")));
        for _ in 0..self.random.below(4) {
            self.beat();
        }
        self.add("I");
    }

    fn set_damage(&mut self) {
        if !self.lines_known {
            return self.state_damage();
        }
        if !self.set.curves.is_empty() && self.random.chance(35) {
            return self.curve_damage();
        }
        let lines = self.set.lines.len();
        let rank = self.random.below(lines);
        if self.random.chance(20) {
            return self.move_damage(rank);
        }
        let line = match self.random.below(8) {
            0 => format!("S N {rank} {}", self.random.between(0, 255)),
            1 => format!("S I {rank} {}", self.random.below(2)),
            2 => format!("S C 0 {}", self.random.pick(&[0, 1, lines - 1, lines, lines + 1, 32, 33, 255])),
            3 => format!("S X {rank} {}", self.random.below(lines)),
            _ => {
                let place = self.random.below(self.body(rank).len());
                format!("T {rank} {place} {}", self.random.pick(&TOKENS))
            }
        };
        self.add(line);
    }

    /// Damage to curves, and mostly a beat or print on it.
    fn curve_damage(&mut self) {
        self.script.extend(curve_damage::damage(self.random, &self.set.curves));
        match self.random.below(4) {
            0 => {}
            1 => self.print(),
            _ => self.beat(),
        }
    }

    /// A move of the line goes to the axis of the one before it, and may become another.
    fn move_damage(&mut self, rank: usize) {
        let body: Vec<String> = self.body(rank).into_iter().map(str::to_owned).collect();
        let is_move = |place: &usize| ["POS", "MOV", "FA"].contains(&body[*place].as_str());
        let moves: Vec<usize> = (0..body.len()).filter(is_move).collect();
        if let [.., first, second] = moves[..] {
            self.add(format!("T {rank} {} {}", second + 2, body[first + 2]));
            if self.random.chance(40) {
                let other = self.random.pick(&["POS", "MOV", "FA"]);
                self.add(format!("T {rank} {second} {other}"));
            }
            self.call();
        }
    }

    /// The tokens of the line of this rank after its number.
    fn body(&self, rank: usize) -> Vec<&str> {
        let mut places: Vec<usize> = (0..self.set.lines.len()).collect();
        places.sort_by_key(|place| self.set.numbers[*place]);
        self.set.lines[places[rank]].split(' ').filter(|token| !token.is_empty()).skip(3).collect()
    }

    /// The line of this rank has a memory.
    fn remembers(&self, rank: usize) -> bool {
        let known = self.lines_known && rank < self.set.lines.len();
        known && ["WHEN", "FROM", "EVERY"].contains(&self.body(rank)[0])
    }
}
