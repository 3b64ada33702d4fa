//! The print of a set: its FCTDEF lines and then its numbered lines, each by rising number, LF between them, as short as
//! they read the same.

use crate::code::Code;
use crate::set::Set;
use crate::slip::Slip;
use crate::token::{pieces, Number, Token, SIGNS, WORDS};
use crate::value::{Arithmetic, Value, UNIT};

/// Bytes that the buffer for a print must have.
pub const BUFFER: usize = 4096;

/// The print, or code 22 if the set is not sound.
pub fn print(set: &Set, slip: Slip) -> Result<Vec<u8>, Code> {
    set.lines()?;
    let lines = set.turns().iter().map(|rank| &set.written()[*rank]);
    let printed: Vec<Vec<u8>> = set.written_curves().chain(lines).map(|one| line(one, slip)).collect();
    let mut print = printed.join(&b'\n');
    if slip == Slip::PrintEndsInLf {
        print.push(b'\n');
    }
    Ok(print)
}

/// Prints to the front of a lent buffer and gives the length; with a code nothing is written.
pub fn print_into(set: &Set, buffer: &mut [u8]) -> Result<usize, Code> {
    let print = print(set, Slip::None)?;
    if buffer.len() < BUFFER || buffer.len() < print.len() {
        return Err(Code::PrintTooShort);
    }
    buffer[..print.len()].copy_from_slice(&print);
    Ok(print.len())
}

/// A line with a space only where two tokens would otherwise not read as they stand.
fn line(tokens: &[Token], slip: Slip) -> Vec<u8> {
    let mut printed: Vec<u8> = Vec::new();
    let mut last: Vec<u8> = Vec::new();
    for token in written(tokens, slip) {
        let next = text(token, slip);
        if !last.is_empty() && !reads_alone(&last, &next, slip) {
            printed.push(b' ');
        }
        printed.extend(&next);
        last = next;
    }
    printed
}

/// The tokens that are printed: all of them; a slip leaves out pairs of minus signs.
fn written(tokens: &[Token], slip: Slip) -> Vec<Token> {
    let minus = Token::Arithmetic(Arithmetic::Minus);
    let mut kept: Vec<Token> = Vec::new();
    for token in tokens {
        let paired = slip == Slip::PrintShortensChains && *token == minus && kept.last() == Some(&minus);
        if paired {
            kept.pop();
        } else {
            kept.push(*token);
        }
    }
    kept
}

/// Two tokens without a space between them read as these two.
fn reads_alone(left: &[u8], right: &[u8], slip: Slip) -> bool {
    if slip == Slip::PrintSpacesDollar && right.starts_with(b"$") {
        return !left.last().is_some_and(u8::is_ascii_alphanumeric);
    }
    let joined = [left, right].concat();
    let read = pieces(&joined).unwrap_or_default();
    matches!(read[..], [(_, first), (_, second)] if first == left && second == right)
}

/// The bytes that write a token.
pub fn text(token: Token, slip: Slip) -> Vec<u8> {
    match token {
        Token::Number(Number { value, .. }) => number(value, slip).into_bytes(),
        _ => {
            let mut all = WORDS.iter().chain(&SIGNS);
            let named = all.find(|(_, meant)| *meant == token);
            named.map_or(Vec::new(), |(text, _)| text.as_bytes().to_vec())
        }
    }
}

/// A value without needless zeros: whole units have no point, fractions no zero at their end.
fn number(value: Value, slip: Slip) -> String {
    let (whole, thousandths) = (value / UNIT, value % UNIT);
    if thousandths == 0 {
        return whole.to_string();
    }
    let places = format!("{thousandths:03}");
    let kept = if slip == Slip::PrintKeepsZeros { &places } else { places.trim_end_matches('0') };
    format!("{whole}.{kept}")
}
