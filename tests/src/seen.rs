//! Counts of what happened in the beats, for the coverage report. Counting is off unless asked for.

use crate::beat::Turn;
use crate::code::Code;
use crate::reading::{Channel, Reading, CHANNELS};
use crate::set::{Set, LINES};
use crate::state::{LineState, State, TOP_ACTS};
use crate::status::{Standing, Status};
use crate::token::{Keyword, Name, Scope};
use crate::tree::{Line, Variable};
use crate::witness::Witness;
use std::cmp::Ordering;
use std::collections::BTreeMap;

/// What is counted by itself.
const EVENTS: [&str; 42] = [
    "read $A_IN", "read $A_INA", "read $AA_IM", "read $A_OUT", "read $AC_MARKER", "read $AC_PARAM",
    "read $R", "read $R run", "read $AC_TIMER", "read $AC_FIFO[0]", "read $AC_FIFO[1]", "read $AC_FIFO[2]",
    "read $AC_FIFO[3]", "read $AC_FIFO[4]", "write $A_OUT", "write $AC_MARKER", "write $AC_PARAM",
    "write $R", "write $AC_TIMER run", "write $AC_TIMER stop", "write $AC_FIFO[0]", "write $AC_FIFO[4]",
    "order POS", "order FA", "order MOV", "order M", "order SETAL", "lock", "unlock", "lock self",
    "lock later line", "lock earlier line", "unlock cancelled", "lock cancelled", "marker from 0.499",
    "marker from 0.500", "marker from 0.501", "marker from -0.499", "marker from -0.500",
    "marker from -0.501", "marker to the top", "marker to the bottom",
];
/// What is counted of SYNFCT.
const CURVE_EVENTS: [&str; 33] = [
    "SYNFCT from $A_IN", "SYNFCT from $A_INA", "SYNFCT from $AA_IM", "SYNFCT from $A_OUT",
    "SYNFCT from $AC_MARKER", "SYNFCT from $AC_PARAM", "SYNFCT from $R", "SYNFCT from $R run",
    "SYNFCT from $AC_TIMER", "SYNFCT from $AC_FIFO[1]", "SYNFCT from $AC_FIFO[2]", "SYNFCT from $AC_FIFO[3]",
    "SYNFCT from $AC_FIFO[4]", "SYNFCT to $A_OUT", "SYNFCT to $AC_MARKER", "SYNFCT to $AC_PARAM",
    "SYNFCT to $R", "SYNFCT to $AC_TIMER", "SYNFCT to $AC_FIFO[0]", "SYNFCT to $AC_FIFO[4]",
    "SYNFCT read 30", "SYNFCT read 32", "SYNFCT step 1", "SYNFCT step 2", "SYNFCT step 3", "SYNFCT step 4",
    "SYNFCT step 5", "SYNFCT step 6", "SYNFCT at the lower limit", "SYNFCT at the upper limit",
    "SYNFCT within", "SYNFCT write 33", "SYNFCT write 34",
];
/// What a beat finds of damaged curves.
const DAMAGE_EVENTS: [&str; 5] = [
    "curve damage 22 by a code of 4 to 7", "curve damage 22 by limits", "curve damage 22 by a number",
    "curve damage 22 by a curve gone", "curve damage in use",
];
/// What is counted of readings and channels.
const READING_EVENTS: [&str; 30] = [
    "reading +0", "reading -0", "reading below the normal numbers", "reading exact", "reading under a half",
    "reading over a half", "reading half down to even", "reading half up to even", "reading below zero",
    "reading of the top", "reading just under the top", "reading just over the top", "reading out of range",
    "reading +infinity", "reading -infinity", "reading quiet NaN", "reading signalling NaN", "reading break",
    "reading short", "23, never good", "23 after 25 faulty beats", "row of 1 ends", "row of 24 ends",
    "row of 25 ends", "row through a refused beat", "row through an alarmed beat",
    "row through a control reset", "row through a program end", "row of 24 ends, an undone beat inside",
    "row of 25 ends, an undone beat inside",
];
/// What is counted of acts and of the status picture.
const STATUS_EVENTS: [&str; 15] = [
    "acts reach the top", "acts stay at the top", "acts zeroed by a control reset",
    "acts kept by a control reset", "status of a full set", "status ID waiting", "status ID locked",
    "status ID cancelled", "status IDS waiting", "status IDS locked", "status IDS cancelled",
    "status cancelled with acts", "status acts 1", "status acts 3999999999", "status acts 4000000000",
];
/// What is counted of program ends.
const END_EVENTS: [&str; 6] = [
    "program end, ID line live", "program end, ID line locked", "program end, ID line cancelled",
    "program end, IDS line live", "program end, IDS line locked", "program end, IDS line cancelled",
];
/// What is counted for each keyword; the bare word is for lines without.
const BY_KEYWORD: [(&str, &[&str]); 8] = [
    ("act", &["", " WHEN", " WHENEVER", " FROM", " EVERY"]),
    ("no act", &[" WHEN", " WHENEVER", " FROM", " EVERY"]),
    ("untried", &[" WHEN", " FROM"]),
    ("skip by lock", &["", " WHEN", " WHENEVER", " FROM", " EVERY"]),
    ("skip by mode", &["", " WHEN", " WHENEVER", " FROM", " EVERY"]),
    ("skip by cancel", &["", " WHEN", " WHENEVER", " FROM", " EVERY"]),
    ("released while true", &[" WHEN", " WHENEVER", " FROM", " EVERY"]),
    ("undone by an alarm, then act", &["", " WHEN", " WHENEVER", " FROM", " EVERY"]),
];

#[derive(Clone, Default)]
pub struct Seen {
    counts: Option<BTreeMap<String, u64>>,
    /// The line under way was locked and released since its turn before, which was true.
    held_high: bool,
    /// The lines that acted in alarmed beats since the last good one, bit by rank.
    undone: u32,
    rows: [Row; CHANNELS],
}

/// A channel's row of faulty beats: how many good beats have counted, and whether an undone beat with a fault stands among them.
#[derive(Clone, Copy, Default)]
struct Row {
    counted: u8,
    undone: bool,
}

impl Seen {
    pub fn counting() -> Seen {
        let by_keyword =
            BY_KEYWORD.iter().flat_map(|(way, words)| words.iter().map(move |word| [way, *word].concat()));
        let of_curves = CURVE_EVENTS.iter().chain(&DAMAGE_EVENTS);
        let of_calls = STATUS_EVENTS.iter().chain(&END_EVENTS);
        let events = EVENTS.iter().chain(of_curves).chain(&READING_EVENTS).chain(of_calls);
        let names = events.map(|name| name.to_string()).chain(by_keyword);
        Seen { counts: Some(names.map(|name| (name, 0)).collect()), ..Seen::default() }
    }

    pub fn note(&mut self, event: &str) {
        if let Some(counts) = &mut self.counts {
            match counts.get_mut(event) {
                Some(count) => *count += 1,
                None => panic!("not a counted event: {event}"),
            }
        }
    }

    /// Notes what a beat finds of the curves of this set, if they are damaged.
    pub fn curve_damage(&mut self, set: &Set) {
        if self.counts.is_some() {
            if let Some(event) = set.curve_damage() {
                self.note(event);
            }
        }
    }

    /// Notes a reading or a writing of a variable.
    pub fn variable(&mut self, way: &str, variable: Variable) {
        if self.counts.is_some() {
            self.note(&format!("{way} {}", label(variable)));
        }
    }

    /// Notes a fraction, in thousandths, that is written to a marker and lies at a half or just beside.
    pub fn fraction(&mut self, thousandths: i64) {
        if self.counts.is_some() && (499..=501).contains(&thousandths.abs()) {
            let sign = if thousandths < 0 { "-" } else { "" };
            self.note(&format!("marker from {sign}0.{}", thousandths.abs()));
        }
    }

    /// Notes what a SYNFCT reads, or the alarm that this raises.
    pub fn synfct_read(&mut self, source: Variable, read: Result<i64, Code>) {
        self.synfct("from", "read", source, read.err());
    }

    /// Notes what a SYNFCT writes, or the alarm that this raises.
    pub fn synfct_write(&mut self, target: Variable, written: Result<(), Code>) {
        self.synfct("to", "write", target, written.err());
    }

    fn synfct(&mut self, way: &str, work: &str, variable: Variable, alarm: Option<Code>) {
        match alarm {
            _ if self.counts.is_none() => {}
            None => self.note(&format!("SYNFCT {way} {}", label(variable))),
            Some(code) => self.note(&format!("SYNFCT {work} {}", code.number())),
        }
    }

    /// Notes what a channel sends.
    pub fn reading(&mut self, reading: Reading) {
        if self.counts.is_some() {
            match reading {
                Reading::Break => self.note("reading break"),
                Reading::Short => self.note("reading short"),
                Reading::Volts(bits) => self.volts(bits),
            }
        }
    }

    fn volts(&mut self, bits: u32) {
        let size = bits & 0x7FFF_FFFF;
        self.note(match size {
            0 if bits == 0 => return self.note("reading +0"),
            0 => "reading -0",
            1..0x0080_0000 => "reading below the normal numbers",
            0x4974_23FF => "reading just under the top",
            0x4974_2400 => "reading of the top",
            0x4974_2401 => "reading just over the top",
            0x4974_2402..0x7F80_0000 => "reading out of range",
            0x7F80_0000 if bits == size => "reading +infinity",
            0x7F80_0000 => "reading -infinity",
            0x7F80_0001..0x7FC0_0000 => "reading signalling NaN",
            0x7FC0_0000.. => "reading quiet NaN",
            _ => fraction(size),
        });
        if size != 0 && size <= 0x4974_2400 && bits != size {
            self.note("reading below zero");
        }
    }

    /// Notes what a beat that was worked, well or in vain, makes of counts and of rows of faulty beats.
    pub fn worked(&mut self, before: &State, after: &State, good: bool) {
        if self.counts.is_none() {
            return;
        }
        for (place, (before, after)) in before.channels.iter().zip(&after.channels).enumerate() {
            self.row(place, before.faults, after.faults, good);
        }
        if good {
            let lines = before.lines.iter().zip(&after.lines);
            let reaching = lines.filter(|(before, after)| before.acts < TOP_ACTS && after.acts == TOP_ACTS);
            reaching.for_each(|_| self.note("acts reach the top"));
        }
    }

    /// A channel's row over a beat; one that damage made longer has no undone beat inside.
    fn row(&mut self, place: usize, before: u8, after: u8, good: bool) {
        if before == 0 {
            self.rows[place] = Row::default();
        }
        let row = self.rows[place];
        match (good, after > before) {
            (true, true) if row.counted == before => self.rows[place].counted = after,
            (false, true) => self.rows[place].undone = true,
            (true, false) => self.row_ends(before, row.undone && row.counted == before),
            _ => {}
        }
    }

    /// Notes a row of faulty beats that a good reading ends.
    fn row_ends(&mut self, faults: u8, undone_inside: bool) {
        if [1, 24, 25].contains(&faults) {
            self.note(&format!("row of {faults} ends"));
        }
        if [24, 25].contains(&faults) && undone_inside {
            self.note(&format!("row of {faults} ends, an undone beat inside"));
        }
    }

    /// Notes what leaves the channels as they are while one has a row of faulty beats.
    pub fn row_stays(&mut self, channels: &[Channel], event: &str) {
        if channels.iter().any(|channel| channel.faults > 0) {
            self.note(event);
        }
    }

    /// Notes what a control reset does to a line's count.
    pub fn acts_at_control_reset(&mut self, acts: u32, cancelled: bool) {
        if acts > 0 {
            self.note(if cancelled {
                "acts kept by a control reset"
            } else {
                "acts zeroed by a control reset"
            });
        }
    }

    /// Notes what a program end meets.
    pub fn program_end(&mut self, scope: Scope, known: &LineState) {
        self.note(match (scope, known.cancelled, known.locked) {
            (Scope::Id, true, _) => "program end, ID line cancelled",
            (Scope::Id, _, true) => "program end, ID line locked",
            (Scope::Id, _, _) => "program end, ID line live",
            (Scope::Ids, true, _) => "program end, IDS line cancelled",
            (Scope::Ids, _, true) => "program end, IDS line locked",
            (Scope::Ids, _, _) => "program end, IDS line live",
        });
    }

    /// Notes what a status picture shows.
    pub fn status(&mut self, picture: &[Status]) {
        if self.counts.is_none() {
            return;
        }
        if picture.len() == LINES {
            self.note("status of a full set");
        }
        for Status { scope, standing, acts, .. } in picture {
            self.note(&format!("status {} {}", format!("{scope:?}").to_uppercase(), standing.word()));
            if *standing == Standing::Cancelled && *acts > 0 {
                self.note("status cancelled with acts");
            }
            if [1, TOP_ACTS - 1, TOP_ACTS].contains(acts) {
                self.note(&format!("status acts {acts}"));
            }
        }
    }

    fn by_keyword(&mut self, way: &str, keyword: Option<Keyword>) {
        let keyword = keyword.map_or(String::new(), |keyword| format!(" {keyword:?}").to_uppercase());
        self.note(&format!("{way}{keyword}"));
    }

    pub fn skip(&mut self, way: &str, keyword: Option<Keyword>) {
        if self.counts.is_some() {
            self.by_keyword(way, keyword);
        }
    }

    /// Looks, before a line's turn, at what befell it since the one before.
    pub fn held_high(&mut self, witness: &Witness, rank: usize) {
        self.held_high = self.counts.is_some() && witness.was_held_high(rank);
    }

    /// Notes a turn of a line with this keyword; `gave` is what its condition gave, if it was worked.
    pub fn turn(&mut self, turn: Turn, gave: bool, acts: bool, keyword: Option<Keyword>) {
        if self.counts.is_none() {
            return;
        }
        self.by_keyword(if acts { "act" } else { "no act" }, keyword);
        let untried = keyword.is_some() && matches!(turn, Turn::Settled { .. });
        if untried {
            self.by_keyword("untried", keyword);
        }
        if self.held_high && (gave || untried) {
            self.by_keyword("released while true", keyword);
        }
    }

    /// Notes at a beat's end the lines that act and had acted in vain in the alarmed beats just before.
    pub fn acted(&mut self, lines: &[Line], acted: u32, good: bool) {
        if self.counts.is_none() {
            return;
        }
        if !good {
            self.undone |= acted;
            return;
        }
        for (rank, line) in lines.iter().enumerate() {
            if acted & self.undone & 1 << rank != 0 {
                self.by_keyword("undone by an alarm, then act", line.keyword());
            }
        }
        self.undone = 0;
    }

    /// Notes a LOCK or UNLOCK, where the line it names stands, and whether that is cancelled.
    pub fn lock(&mut self, locks: bool, named: Ordering, cancelled: bool) {
        self.note(match (cancelled, locks) {
            (true, true) => "lock cancelled",
            (true, false) => "unlock cancelled",
            (false, true) => "lock",
            (false, false) => "unlock",
        });
        if locks {
            self.note(match named {
                Ordering::Equal => "lock self",
                Ordering::Greater => "lock later line",
                Ordering::Less => "lock earlier line",
            });
        }
    }

    /// Each event with its count.
    pub fn counts(&self) -> impl Iterator<Item = (&str, u64)> + '_ {
        self.counts.iter().flatten().map(|(event, count)| (event.as_str(), *count))
    }
}

/// Which way a positive number of volts within the range goes, by its odd sixteenths: no other number is a half.
fn fraction(bits: u32) -> &'static str {
    let volts = f32::from_bits(bits);
    let exact = f64::from(volts) * 1000.0;
    match exact - exact.floor() {
        0.0 => "reading exact",
        0.5 if exact.floor() % 2.0 == 0.0 => "reading half down to even",
        0.5 => "reading half up to even",
        part if part < 0.5 => "reading under a half",
        _ => "reading over a half",
    }
}

fn label(variable: Variable) -> String {
    match variable.name {
        Name::In => "$A_IN".into(),
        Name::Ina => "$A_INA".into(),
        Name::Im => "$AA_IM".into(),
        Name::Out => "$A_OUT".into(),
        Name::Marker => "$AC_MARKER".into(),
        Name::Param => "$AC_PARAM".into(),
        Name::R if variable.index >= 100 => "$R run".into(),
        Name::R => "$R".into(),
        Name::Timer => "$AC_TIMER".into(),
        Name::Fifo(_) => format!("$AC_FIFO[{}]", variable.index),
    }
}
