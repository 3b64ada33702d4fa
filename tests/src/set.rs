//! The loaded set: its FCTDEF lines and its numbered lines as written, each by rising number, and the trees worked from them.

use crate::check;
use crate::code::Code;
use crate::slip::Slip;
use crate::token::{Number, Scope, Token};
use crate::tree::{Curve, Line};
use crate::written_curves::{CurveFault, WrittenCurves, CURVES};

/// Lines that a set may have, FCTDEF lines among them.
pub const LINES: usize = 32;

/// Tokens of a written line before its keyword or DO: ID or IDS, `=`, number. An FCTDEF line's number is its third token too.
pub const HEAD: usize = 3;

#[derive(Clone, Default)]
pub struct Set {
    /// The FCTDEF lines.
    curves: WrittenCurves,
    /// Each numbered line's tokens, numbers in plain form.
    written: Vec<Vec<Token>>,
    /// The number of numbered lines; other than `written.len()` only by damage.
    count: usize,
    /// The curves, and the lines by rank, None if the set is not sound.
    trees: Option<(Vec<Curve>, Vec<Line>)>,
    /// The ranks in the order of their turns.
    turns: Vec<usize>,
    slip: Slip,
}

impl Set {
    /// The set of these lines, which have passed loading.
    pub fn new(curves: &[Vec<Token>], lines: &[Vec<Token>], slip: Slip) -> Set {
        let (curves, written) = (WrittenCurves::new(stored(curves)), stored(lines));
        let rank_of = |line: &Vec<Token>| written.iter().position(|other| number(other) == number(line));
        let turns: Vec<usize> = lines.iter().filter_map(rank_of).collect();
        let mut set = Set { curves, count: written.len(), written, slip, ..Set::default() };
        set.examine();
        if slip == Slip::TextOrder {
            set.turns = turns;
        }
        set
    }

    /// The lines by rank, or code 22.
    pub fn lines(&self) -> Result<&[Line], Code> {
        let (_, lines) = self.trees.as_ref().ok_or(Code::NotSound)?;
        Ok(lines)
    }

    /// The curves by rising number, or code 22.
    pub fn curves(&self) -> Result<&[Curve], Code> {
        let (curves, _) = self.trees.as_ref().ok_or(Code::NotSound)?;
        Ok(curves)
    }

    pub fn turns(&self) -> &[usize] {
        &self.turns
    }

    /// The number of numbered lines that the set says it has.
    pub fn count(&self) -> usize {
        self.count
    }

    /// The numbered lines as written, those past `count` among them.
    pub fn written(&self) -> &[Vec<Token>] {
        &self.written
    }

    /// The FCTDEF lines as written.
    pub fn written_curves(&self) -> impl Iterator<Item = &Vec<Token>> {
        self.curves.written()
    }

    /// Both hold the same lines as written.
    pub fn is_same(&self, other: &Set) -> bool {
        let same_lines = self.written == other.written && self.count == other.count;
        same_lines && self.written_curves().eq(other.written_curves())
    }

    /// Damages the numbered lines by `change` and looks anew whether the set is sound.
    pub fn damage(&mut self, change: impl FnOnce(&mut Vec<Vec<Token>>, &mut usize)) {
        change(&mut self.written, &mut self.count);
        self.examine();
    }

    /// Damages the FCTDEF lines, and gives what `change` does.
    pub fn damage_curves<T>(&mut self, change: impl FnOnce(&mut WrittenCurves) -> T) -> T {
        let given = change(&mut self.curves);
        self.examine();
        given
    }

    /// What damage has made of the curves, if the lines are sound: for the coverage report.
    pub fn curve_damage(&self) -> Option<&'static str> {
        if !(1..=CURVES).any(|number| self.curves.is_changed(number)) {
            return None;
        }
        let lines = self.sound_lines()?;
        let is_used = |number: usize| lines.iter().any(|line| line.uses(number as i64));
        Some(match self.curves.sound(Slip::None) {
            Err(CurveFault::Line) => "curve damage 22 by a code of 4 to 7",
            Err(CurveFault::Limits) => "curve damage 22 by limits",
            Err(CurveFault::Number) => "curve damage 22 by a number",
            Ok(_) if self.trees.is_none() => "curve damage 22 by a curve gone",
            Ok(_) if (1..=CURVES).any(|number| self.curves.is_changed(number) && is_used(number)) => {
                "curve damage in use"
            }
            Ok(_) => return None,
        })
    }

    fn examine(&mut self) {
        self.trees = self.sound_trees();
        self.turns = (0..self.count.min(LINES)).collect();
    }

    /// The curves and lines, if they are few enough, each passes the checks from 4 on, numbers rise, and LOCK, UNLOCK
    /// and SYNFCT name what is in the set.
    fn sound_trees(&self) -> Option<(Vec<Curve>, Vec<Line>)> {
        if self.written_curves().count() + self.count > LINES {
            return None;
        }
        let curves = self.curves.sound(self.slip).ok()?;
        let lines = self.sound_lines()?;
        let used = lines.iter().all(|line| check::curves_used(line, &curves).is_ok());
        used.then_some((curves, lines))
    }

    fn sound_lines(&self) -> Option<Vec<Line>> {
        let written = self.written.get(..self.count)?;
        let lines: Vec<Line> =
            written.iter().map(|line| check::slipped_line(line, self.slip)).collect::<Result<_, _>>().ok()?;
        let rising = lines.windows(2).all(|pair| pair[0].number < pair[1].number);
        (rising && lock_of_no_line(lines.iter()).is_none()).then_some(lines)
    }
}

/// These lines as a set stores them: numbers in plain form, by rising number.
fn stored(lines: &[Vec<Token>]) -> Vec<Vec<Token>> {
    let plain = |line: &Vec<Token>| line.iter().map(|token| plain(*token)).collect();
    let mut written: Vec<Vec<Token>> = lines.iter().map(plain).collect();
    written.sort_by_key(|line| number(line));
    written
}

/// The place among `lines` of the first one with a LOCK or UNLOCK of a number that none of them has.
pub fn lock_of_no_line<'a>(mut lines: impl Iterator<Item = &'a Line> + Clone) -> Option<usize> {
    let all = lines.clone();
    let present = |number: i64| all.clone().any(|line| line.number == number);
    lines.position(|line| !line.lock_targets().all(present))
}

/// A token as a stored set writes it.
pub fn plain(token: Token) -> Token {
    match token {
        Token::Number(number) => Token::Number(number.plain()),
        other => other,
    }
}

/// The tokens that write a line's scope.
pub fn scope_token(ids: bool) -> Token {
    Token::Scope(if ids { Scope::Ids } else { Scope::Id })
}

/// The number of a written line, in thousandths.
fn number(line: &[Token]) -> i64 {
    match line[HEAD - 1] {
        Token::Number(Number { value, .. }) => value,
        _ => 0,
    }
}
