//! Random beat lines, well-formed and not.

use crate::control::POSITIONS;
use crate::random::Random;
use crate::reading::CHANNELS;

const ILL_FORMED: [&str; 54] = [
    "", " ", "A", "M", "A ", "A  1", " A 1", "A 1 ", "A 65536", "A -1", "A -0", "A +1", "A 1 1.0", "A 1 -",
    "A 1 1", "A 1 0", "A 1 -0", "A 1 0000000", "A 1 000000000", "A 1 3f800000", "A 1 0000000G",
    "A 1 -0000000", "A 1 b", "A 1 BB", "A 1 SB", "A 1 B S s", "A 1 B B B B B B B B B",
    "A 1 S S S S S S S S 00000000 1a", "A 1 S S S S S S S S 2147483648", "A 1 S S S S S S S S -2147483649",
    "A 1 S S S S S S S S --1", "A 1 S S S S S S S S 1 2 3 4 5 6 7",
    "A 1 S S S S S S S S 99999999999999999999", "B 1", "S 1", "a 1", "AM 1", "*", "A 1;c", "A\t1", "A1",
    "; comment", "A 1\r", "A 99999999999999999999", "0 1", "A 1  00000000", "PE 0", "PE ", " PE", "pe",
    "RS 1", "Rs", "PERS", "RS\r",
];
const ODD_BUT_GOOD: [&str; 9] = [
    "A 0001",
    "A 1 80000000",
    "M 65535 BF800000",
    "A 00000000000000000000015 00000000",
    "M 0",
    "A 65535",
    "A 1 C9742400 49742400",
    "A 3 BBBBBBBB 3BBBBBBB 00000001 807FFFFF 3D800000 BE400000 447A0000 40000000",
    "A 3 3F800000 40000000 40400000 3D800000 B S 3E400000 3A83126F 9 -10 0011 -0 -007 14",
];
/// A beat with a position out of range.
const REFUSED: &str =
    "A 1 00000000 00000000 00000000 00000000 00000000 00000000 00000000 00000000 1000000001";
const EDGES: [i64; 8] =
    [1_000_000_000, -1_000_000_000, 1_000_000_001, -1_000_000_001, 2_147_483_647, -2_147_483_648, 0, 1];
/// Numbers of volts by their bits: zeros, those below the normal numbers, those beside a half of a thousandth, the ends of the
/// range with their neighbours, and what counts as a break.
const EDGE_BITS: [u32; 30] = [
    0x0000_0000, 0x8000_0000, 0x0000_0001, 0x8000_0001, 0x007F_FFFF, 0x807F_FFFF, 0x0080_0000, 0x3A03_126E,
    0x3A03_126F, 0x3D7F_FFFF, 0x3D80_0000, 0x3D80_0001, 0x3E3F_FFFF, 0x3E40_0000, 0xBE40_0001, 0xBEA0_0000,
    0x4974_23FF, 0x4974_2400, 0x4974_2401, 0xC974_23FF, 0xC974_2400, 0xC974_2401, 0x7F7F_FFFF, 0x7F80_0000,
    0xFF80_0000, 0x7FC0_0000, 0x7F80_0001, 0xFFBF_FFFF, 0xFFFF_FFFF, 0x4B00_0000,
];

/// Beats of a long input, at least.
const LONG: i64 = 1000;

/// The inputs of a run of beats: a few bits switch now and then, and stay for a while.
#[derive(Default)]
pub struct Inputs {
    word: usize,
    /// For thousands of beats: the mode stays for a while too, and the last four bits only flash.
    steady: bool,
    manual: bool,
    /// For how many beats more each channel is faulty.
    faulty: [usize; CHANNELS],
}

impl Inputs {
    pub fn steady() -> Inputs {
        Inputs { steady: true, ..Inputs::default() }
    }

    pub fn mode(&mut self, random: &mut Random) -> &'static str {
        self.manual = match (self.steady, self.manual) {
            (false, _) => random.chance(20),
            (true, false) => random.chance(3),
            (true, true) => random.chance(88),
        };
        if self.manual {
            "M"
        } else {
            "A"
        }
    }

    /// Switches bits of the word, and gives those that flash.
    fn switch(&mut self, random: &mut Random) -> usize {
        if random.chance(60) {
            self.word ^= 1 << random.below(4);
        }
        if random.chance(3) {
            self.word ^= 1 << if self.steady { 4 + random.below(4) } else { random.below(16) };
        }
        if self.steady && random.below(300) == 0 {
            self.word ^= 1 << (8 + random.below(4));
        }
        usize::from(self.steady && random.chance(14)) << (12 + random.below(4))
    }

    /// The fields of a beat line after the mode, with readings and up to `most` positions.
    pub fn next(&mut self, random: &mut Random, most: usize) -> String {
        let flashing = self.switch(random);
        self.switch_faults(random);
        let given = if random.chance(40) { random.below(CHANNELS + most + 1) } else { 0 };
        let count = given.max(self.faulty.iter().rposition(|left| *left > 0).map_or(0, |last| last + 1));
        let mut fields = (self.word | flashing).to_string();
        for place in 0..count {
            let field = match self.faulty.get_mut(place) {
                None => position(random).to_string(),
                Some(0) => reading(random),
                Some(left) => {
                    *left -= 1;
                    fault(random)
                }
            };
            fields.push_str(&format!(" {field}"));
        }
        fields
    }

    /// Now and then a channel becomes faulty, for a few beats or for about as many as are bridged.
    fn switch_faults(&mut self, random: &mut Random) {
        if random.below(1000) < 25 {
            let beats = random.weighted(&[(50, 1), (16, 3), (6, 24), (9, 25), (9, 26), (10, 28)]);
            let channel = if random.chance(80) { random.below(3) } else { random.below(CHANNELS) };
            self.faulty[channel] = beats;
        }
    }
}

/// A reading that is mostly good: eighths, thousandths and numbers beside them, now and then an edge or any number.
fn reading(random: &mut Random) -> String {
    let bits = match random.below(400) {
        0..=3 => random.pick(&EDGE_BITS),
        4..=29 => (random.between(-1_000_000_000, 1_000_000_000) as f32 / 1000.0).to_bits(),
        30..=119 => (random.between(-6000, 6000) as f32 / 1000.0).to_bits(),
        120..=199 => (random.between(-96, 96) as f32 / 16.0).to_bits(),
        200..=219 => (random.between(-96, 96) as f32 / 16.0).to_bits() ^ 1,
        _ => (random.between(-48, 48) as f32 / 8.0).to_bits(),
    };
    format!("{bits:08X}")
}

/// A wire fault, or a number that counts as one.
fn fault(random: &mut Random) -> String {
    match random.below(20) {
        0..=9 => "B".into(),
        10..=16 => "S".into(),
        17 => random.pick(&["7F800000", "FF800000", "7FC00000", "7F800001", "FFFFFFFF", "7FBFFFFF"]).into(),
        18 => random.pick(&["49742401", "C9742401", "7F7FFFFF", "FF7FFFFF", "4B000000"]).into(),
        _ => format!("{:08X}", 0x7F80_0001 + random.below(0x7F_FFFF)),
    }
}

fn position(random: &mut Random) -> i64 {
    match random.below(300) {
        0 => random.pick(&EDGES),
        1..=20 => random.between(-1_000_000_000, 1_000_000_000),
        _ => random.between(-6000, 6000),
    }
}

/// A program end or a control reset, now and then behind a refused beat.
fn call(random: &mut Random, end: &str) -> String {
    let call = random.pick(&["PE", "PE", "RS"]);
    if random.chance(10) {
        return format!("{REFUSED}{end}{call}");
    }
    call.into()
}

/// A script of beats, in a third with some program ends and control resets; a few have an ill-formed line. A long one has a thousand beats before it.
pub fn script(random: &mut Random, long: bool) -> Vec<u8> {
    let beats = match random.below(100) {
        _ if long => random.between(LONG, 2 * LONG),
        0..=3 => random.between(45, 300),
        _ => random.between(0, 45),
    };
    let first = if long { LONG } else { 0 };
    let spoiled = random.chance(12).then(|| random.between(first, beats.max(1)));
    let mut inputs = if long { Inputs::steady() } else { Inputs::default() };
    let end = if random.chance(10) { "\r\n" } else { "\n" };
    let calls = random.weighted(&[(6, 0), (2, 1), (1, 4)]);
    let mut text = String::new();
    for beat in 0..beats {
        let line = match random.below(60) {
            _ if spoiled == Some(beat) => random.pick(&ILL_FORMED).to_string(),
            _ if random.below(beats as usize) < calls => call(random, end),
            0 => random.pick(&ODD_BUT_GOOD).to_string(),
            _ => format!("{} {}", inputs.mode(random), inputs.next(random, POSITIONS)),
        };
        text.push_str(&line);
        text.push_str(end);
    }
    if random.chance(5) {
        text.pop();
    }
    text.into_bytes()
}
