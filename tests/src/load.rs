//! Loading set text: codes 1 and 2, then the first faulty line with its code of 3 to 10, 14, 11 and 13, then 12.

use crate::check;
use crate::code::Code;
use crate::set::{lock_of_no_line, plain, Set, HEAD, LINES};
use crate::slip::Slip;
use crate::text;
use crate::token::{self, Token};
use crate::tree::{Curve, Line};

/// Bytes that set text may have.
pub const TEXT: usize = 4096;

/// Why a text is refused: the code and the line of the text, 0 for codes 1 and 2.
#[derive(Clone, Copy, PartialEq, Eq, Debug)]
pub struct Refusal {
    pub code: Code,
    pub line: usize,
}

/// The lines of the text that passed their own checks.
#[derive(Default)]
struct Taken {
    curves: Vec<Curve>,
    curve_tokens: Vec<Vec<Token>>,
    lines: Vec<Line>,
    line_tokens: Vec<Vec<Token>>,
    /// Where the numbered lines stand in the text.
    places: Vec<usize>,
}

pub fn load(text: &[u8], slip: Slip) -> Result<Set, Refusal> {
    if text.len() > TEXT {
        return Err(Refusal { code: Code::TextTooLong, line: 0 });
    }
    let lines = lines_with_tokens(text);
    if lines.len() > LINES {
        return Err(Refusal { code: Code::TooManyLines, line: 0 });
    }
    let mut taken = Taken::default();
    let refused: Vec<Refusal> =
        lines.iter().filter_map(|(place, line)| taken.refusal(*place, line, slip)).collect();
    if slip == Slip::TwelveBeforeFive {
        taken.locks_name_lines()?;
    }
    if let Some(first) = refused.first() {
        return Err(*first);
    }
    taken.locks_name_lines()?;
    taken.curves_are_defined()?;
    Ok(Set::new(&taken.curve_tokens, &taken.line_tokens, slip))
}

/// The lines that hold more than spaces and comment, each with its number in the text.
fn lines_with_tokens(text: &[u8]) -> Vec<(usize, &[u8])> {
    let bare = text::lines(text).map(text::without_comment);
    (1..).zip(bare).filter(|(_, line)| line.iter().any(|byte| *byte != b' ')).collect()
}

impl Taken {
    /// Takes the line below those taken before, or says why it is refused.
    fn refusal(&mut self, place: usize, line: &[u8], slip: Slip) -> Option<Refusal> {
        self.take(place, line, slip).err().map(|code| Refusal { code, line: place })
    }

    fn take(&mut self, place: usize, line: &[u8], slip: Slip) -> Result<(), Code> {
        let tokens = token::tokens(line).ok_or(Code::NoToken)?;
        match tokens.first() {
            Some(Token::Fctdef) => self.take_curve(tokens),
            _ => self.take_line(place, tokens, slip),
        }
    }

    fn take_curve(&mut self, tokens: Vec<Token>) -> Result<(), Code> {
        let curve = check::curve(&tokens, !self.lines.is_empty())?;
        check::curve_allowed(&curve, &self.curves)?;
        self.curves.push(curve);
        self.curve_tokens.push(tokens);
        Ok(())
    }

    fn take_line(&mut self, place: usize, tokens: Vec<Token>, slip: Slip) -> Result<(), Code> {
        let line = match check::slipped_line(&tokens, slip) {
            Err(Code::TwoMoves) if slip == Slip::FourteenAfterEleven && self.has_number(&tokens) => {
                return Err(Code::NumberUsedAbove);
            }
            checked => checked?,
        };
        if self.lines.iter().any(|above| above.number == line.number) {
            return Err(Code::NumberUsedAbove);
        }
        if slip != Slip::UndefinedAfterTwelve {
            check::curves_used(&line, &self.curves)?;
        }
        self.lines.push(line);
        self.line_tokens.push(tokens);
        self.places.push(place);
        Ok(())
    }

    /// A line above has the number of these tokens, for a slip.
    fn has_number(&self, tokens: &[Token]) -> bool {
        self.line_tokens.iter().any(|above| plain(above[HEAD - 1]) == plain(tokens[HEAD - 1]))
    }

    /// Every LOCK and UNLOCK names one of these lines.
    fn locks_name_lines(&self) -> Result<(), Refusal> {
        match lock_of_no_line(self.lines.iter()) {
            Some(first) => Err(Refusal { code: Code::LockOfNoLine, line: self.places[first] }),
            None => Ok(()),
        }
    }

    /// Every SYNFCT uses one of these curves. Each line is asked for it in its place; only a slip asks here first.
    fn curves_are_defined(&self) -> Result<(), Refusal> {
        for (line, place) in self.lines.iter().zip(&self.places) {
            check::curves_used(line, &self.curves).map_err(|code| Refusal { code, line: *place })?;
        }
        Ok(())
    }
}
