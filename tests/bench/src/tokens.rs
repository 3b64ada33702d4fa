//! Set text as the numbers of crates/tokens/specs/Token, and lines of them in the array of a set.

use crate::proved::{Set, FIRST, SIZE};
use reference::text;

pub const EQUALS: u32 = 1;
pub const RIGHT: u32 = 15;
const NUMBER: u32 = 1 << 31;
const FCTDEF: u32 = 30;
/// The lines that a set may have; the slots of its curves stand behind theirs.
const LINES: usize = 32;
/// The place of a line's number: behind ID or IDS and =.
const NUMBER_AT: usize = 2;
/// Twice the thousandths of a number that is too large or has too many digits.
const BEYOND: u32 = 2_000_002_000;
const TOP: u64 = 1_000_000_000;

const SIGNS: [(&str, u32); 16] = [
    ("==", 2),
    ("<>", 3),
    ("<=", 6),
    (">=", 7),
    ("=", 1),
    ("<", 4),
    (">", 5),
    ("+", 8),
    ("-", 9),
    ("*", 10),
    ("/", 11),
    ("(", 12),
    (")", 13),
    ("[", 14),
    ("]", 15),
    (",", 29),
];

const WORDS: [(&str, u32); 40] = [
    ("ID", 16),
    ("IDS", 17),
    ("WHEN", 18),
    ("WHENEVER", 19),
    ("FROM", 20),
    ("EVERY", 21),
    ("DO", 22),
    ("TRUE", 23),
    ("FALSE", 24),
    ("NOT", 25),
    ("AND", 26),
    ("OR", 27),
    ("XOR", 28),
    ("FCTDEF", 30),
    ("$A_IN", 32),
    ("$A_INA", 33),
    ("$A_OUT", 34),
    ("$AC_MARKER", 35),
    ("$AC_PARAM", 36),
    ("$R", 37),
    ("$AC_TIMER", 38),
    ("$AC_FIFO1", 39),
    ("$AC_FIFO2", 40),
    ("$AC_FIFO3", 41),
    ("$AC_FIFO4", 42),
    ("$AA_IM", 43),
    ("POS", 48),
    ("FA", 49),
    ("MOV", 50),
    ("M", 51),
    ("SETAL", 52),
    ("LOCK", 53),
    ("UNLOCK", 54),
    ("SYNFCT", 56),
    ("X", 57),
    ("Y", 58),
    ("Z", 59),
    ("U", 60),
    ("V", 61),
    ("W", 62),
];

/// The tokens of a line without its comment, or None if a byte or word makes no token.
pub fn tokens(line: &str) -> Option<Vec<u32>> {
    let mut found = Vec::new();
    let mut rest = line.trim_start_matches(' ');
    while let Some(byte) = rest.bytes().next() {
        let (token, length) = match byte {
            b'0'..=b'9' => number(rest)?,
            b'$' | b'a'..=b'z' | b'A'..=b'Z' => word(rest)?,
            _ => sign(rest)?,
        };
        found.push(token);
        rest = rest[length..].trim_start_matches(' ');
    }
    Some(found)
}

fn sign(text: &str) -> Option<(u32, usize)> {
    SIGNS.iter().find(|(sign, _)| text.starts_with(sign)).map(|(sign, token)| (*token, sign.len()))
}

fn word(text: &str) -> Option<(u32, usize)> {
    let of_a_word = |byte: &u8| byte.is_ascii_alphanumeric() || *byte == b'_';
    let length = 1 + text.bytes().skip(1).take_while(of_a_word).count();
    WORDS.iter().find(|(word, _)| *word == &text[..length]).map(|(_, token)| (*token, length))
}

/// 2^31 and twice the thousandths, and one more if a point is written.
fn number(text: &str) -> Option<(u32, usize)> {
    let units = digits(text);
    let places = if text[units..].starts_with('.') { digits(&text[units + 1..]) } else { 0 };
    let length = if places > 0 { units + 1 + places } else { units };
    if text[length..].starts_with(|next: char| next.is_ascii_alphabetic()) {
        return None;
    }
    let load = load(&text[..units], &text[length - places..length]);
    Some((NUMBER + load + u32::from(places > 0), length))
}

fn digits(text: &str) -> usize {
    text.bytes().take_while(u8::is_ascii_digit).count()
}

/// Twice the thousandths of the number with these digits before and after its point.
fn load(units: &str, places: &str) -> u32 {
    if units.len() > 7 || places.len() > 3 {
        return BEYOND;
    }
    let thousandths: u64 = format!("{units}{places:0<3}").parse().expect("at most ten digits");
    if thousandths <= TOP {
        2 * thousandths as u32
    } else {
        BEYOND
    }
}

/// Lines of tokens as a set: each ends with a token 0.
pub struct Laid {
    pub set: Box<Set>,
    pub starts: Vec<usize>,
}

impl Laid {
    /// Puts lines from a place on, each with its slot, the place that says where it begins. Gives the place behind them.
    fn put<'a>(&mut self, mut at: usize, lines: impl Iterator<Item = (usize, &'a Vec<u32>)>) -> usize {
        for (slot, line) in lines {
            self.set[slot] = at as u32;
            self.set[at..at + line.len()].copy_from_slice(line);
            at += line.len() + 1;
        }
        at
    }
}

pub fn laid(lines: &[Vec<u32>]) -> Laid {
    with_curves(&[], lines)
}

/// Curves in the slots of their numbers, then lines in those of their ranks.
fn with_curves(curves: &[Vec<u32>], lines: &[Vec<u32>]) -> Laid {
    let mut laid = Laid { set: Box::new([0; SIZE]), starts: Vec::new() };
    let slot = |line: &Vec<u32>| LINES + ((line[NUMBER_AT] - NUMBER) / 2000) as usize;
    let at = laid.put(FIRST, curves.iter().map(|line| (slot(line), line)));
    laid.put(at, (1..).zip(lines));
    laid.set[0] = lines.len() as u32;
    laid.starts = (1..=lines.len()).map(|slot| laid.set[slot] as usize).collect();
    laid
}

/// The set that a taken text makes: its curves and its lines by rising number, without the marks of written points.
pub fn set(text: &[u8]) -> Laid {
    let bare = text::lines(text).map(text::without_comment);
    let read = |line| tokens(std::str::from_utf8(line).expect("a taken line")).expect("tokens");
    let mut all: Vec<Vec<u32>> = bare.map(read).filter(|line| !line.is_empty()).collect();
    all.iter_mut().flatten().filter(|token| **token >= NUMBER).for_each(|token| *token &= !1);
    all.sort_by_key(|line| line[NUMBER_AT]);
    let (curves, lines): (Vec<_>, Vec<_>) = all.into_iter().partition(|line| line[0] == FCTDEF);
    with_curves(&curves, &lines)
}
