//! The curves of a set as written, and whether they are sound. Other than as loaded they are only by damage.

use crate::check;
use crate::slip::Slip;
use crate::token::Token;
use crate::tree::Curve;

/// The curves that a set may have, numbered from 1.
pub const CURVES: usize = 3;

/// Why curves are not sound: a code of 4 to 7, a lower limit above the upper one, the number of another curve.
#[derive(Clone, Copy, PartialEq, Eq, Debug)]
pub enum CurveFault {
    Line,
    Limits,
    Number,
}

type Lines = [Option<Vec<Token>>; CURVES];

#[derive(Clone, Default)]
pub struct WrittenCurves {
    /// The FCTDEF lines' tokens, numbers in plain form, by the numbers that they were loaded with.
    lines: Lines,
    /// The line at which each curve starts, counted from 0: its own, or none.
    starts: [Option<usize>; CURVES],
    loaded: Lines,
}

impl WrittenCurves {
    /// The curves of these FCTDEF lines, which have passed loading.
    pub fn new(lines: Vec<Vec<Token>>) -> WrittenCurves {
        let mut curves = WrittenCurves::default();
        for line in lines {
            if let Ok(curve) = check::curve(&line, false) {
                curves.put_line(curve.number as usize, Some(line));
            }
        }
        curves.loaded = curves.lines.clone();
        curves
    }

    /// The lines of the curves that the set has, by rising number.
    pub fn written(&self) -> impl Iterator<Item = &Vec<Token>> {
        (0..CURVES).filter_map(|place| self.line(place))
    }

    /// The line at which the curve of this place starts.
    fn line(&self, place: usize) -> Option<&Vec<Token>> {
        self.lines[self.starts[place]?].as_ref()
    }

    /// The curve of this number is another one than that loaded, or is gone, or is new.
    pub fn is_changed(&self, number: usize) -> bool {
        self.line(number - 1) != self.loaded[number - 1].as_ref()
    }

    /// The curves by rising number, if each passes the checks from 4 on and has the number of its place.
    pub fn sound(&self, slip: Slip) -> Result<Vec<Curve>, CurveFault> {
        let mut curves = Vec::new();
        for place in 0..CURVES {
            let line =
                if slip == Slip::CurvesAsLoaded { self.loaded[place].as_ref() } else { self.line(place) };
            if let Some(line) = line {
                curves.push(sound_curve(line, place as i64 + 1, slip)?);
            }
        }
        Ok(curves)
    }

    // ---- damage

    /// A token of the line that was loaded as the curve of this number becomes another. None if there is no such one.
    pub fn put_token(&mut self, number: usize, place: usize, token: Token) -> Option<()> {
        *self.lines.get_mut(number.checked_sub(1)?)?.as_mut()?.get_mut(place)? = token;
        Some(())
    }

    /// A curve starts at the line that was loaded as that of the number `other`, or at none for 0. None if there is no such line.
    pub fn put_start(&mut self, number: usize, other: usize) -> Option<()> {
        let start = other.checked_sub(1);
        if let Some(start) = start {
            self.lines.get(start)?.as_ref()?;
        }
        *self.starts.get_mut(number.checked_sub(1)?)? = start;
        Some(())
    }

    /// A curve has this line, or none.
    pub fn put_line(&mut self, number: usize, line: Option<Vec<Token>>) {
        let place = number - 1;
        self.starts[place] = line.as_ref().map(|_| place);
        self.lines[place] = line;
    }
}

/// The curve of a line, if it is sound in the place of this number.
fn sound_curve(line: &[Token], number: i64, slip: Slip) -> Result<Curve, CurveFault> {
    let curve = check::curve(line, false).map_err(|_| CurveFault::Line)?;
    check::curve_allowed(&curve, &[]).map_err(|_| CurveFault::Limits)?;
    match slip {
        Slip::CurveOfAnyNumber => Ok(Curve { number, ..curve }),
        _ if curve.number != number => Err(CurveFault::Number),
        _ => Ok(curve),
    }
}
