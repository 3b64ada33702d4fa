//! What a print shows of its set text, for the coverage report.

use crate::check::depth;
use crate::load::TEXT;
use crate::text;
use crate::token::{pieces, Token};
use crate::value::Arithmetic;

/// The tokens of a line, each with its bytes.
type Pieces<'a> = Vec<(Token, &'a [u8])>;

/// A set text that is taken, and its print.
pub struct Printed<'a> {
    text: &'a [u8],
    print: &'a [u8],
    written: Vec<Pieces<'a>>,
    printed: Vec<Pieces<'a>>,
}

/// What is counted, and when it is there.
pub const PATHS: [(&str, fn(&Printed) -> bool); 24] = [
    ("zeros before", |seen| seen.any_number(|whole, _| whole.len() > 1 && whole[0] == b'0')),
    ("zeros behind", |seen| seen.any_number(|_, places| places.ends_with(b"0") && !is_zero(places))),
    ("point dropped", |seen| seen.any_number(|_, places| !places.is_empty() && is_zero(places))),
    ("fraction kept", |seen| seen.print.contains(&b'.')),
    ("zero before the point kept", |seen| seen.printed_has(|bytes| bytes.starts_with(b"0."))),
    ("NOT chain", |seen| seen.any_pair(|left, right| left == Token::Not && right == left)),
    ("minus chain", |seen| seen.any_pair(|left, right| left == MINUS && right == left)),
    ("eight brackets", |seen| seen.printed.iter().any(|line| depth(&tokens(line)) == 8)),
    ("word, space, word", |seen| seen.has_space(Sort::Word, Sort::Word)),
    ("word, space, number", |seen| seen.has_space(Sort::Word, Sort::Number)),
    ("number, space, word", |seen| seen.has_space(Sort::Number, Sort::Word)),
    ("number, variable", |seen| seen.meets(Sort::Number, Sort::Variable)),
    ("word, variable", |seen| seen.meets(Sort::Word, Sort::Variable)),
    ("sign, word", |seen| seen.meets(Sort::Sign, Sort::Word)),
    ("spaces dropped", |seen| spaces(seen.print) < spaces(seen.text)),
    ("comment dropped", |seen| seen.text.contains(&b';')),
    ("lines in another order", |seen| !in_order(seen.lines(false))),
    ("curves", |seen| seen.lines(true).next().is_some()),
    ("curves in another order", |seen| !in_order(seen.lines(true))),
    ("curves alone", |seen| !seen.print.is_empty() && seen.lines(false).next().is_none()),
    ("parameter -0", |seen| seen.lines(true).any(|line| line.windows(2).any(is_minus_0))),
    ("text of the most bytes", |seen| seen.text.len() == TEXT),
    ("print of the most bytes", |seen| seen.print.len() == TEXT),
    ("nothing", |seen| seen.print.is_empty()),
];

const MINUS: Token = Token::Arithmetic(Arithmetic::Minus);

/// The sorts of tokens that matter for a space between two of them.
#[derive(Clone, Copy, PartialEq, Eq)]
enum Sort {
    Word,
    Variable,
    Number,
    Sign,
}

impl<'a> Printed<'a> {
    pub fn new(text: &'a [u8], print: &'a [u8]) -> Printed<'a> {
        Printed { text, print, written: lines(text), printed: lines(print) }
    }

    /// Some number of the text has such digits before and behind its point.
    fn any_number(&self, holds: impl Fn(&[u8], &[u8]) -> bool) -> bool {
        let numbers = self.written.iter().flatten().filter(|(token, _)| matches!(token, Token::Number(_)));
        numbers.map(|(_, bytes)| split_at_point(bytes)).any(|(whole, places)| holds(whole, places))
    }

    /// The FCTDEF lines of the text, or its numbered lines.
    fn lines(&self, curves: bool) -> impl Iterator<Item = &Pieces<'a>> {
        self.written.iter().filter(move |line| (line[0].0 == Token::Fctdef) == curves)
    }

    fn printed_has(&self, holds: impl Fn(&[u8]) -> bool) -> bool {
        self.printed.iter().flatten().any(|(_, bytes)| holds(bytes))
    }

    /// Two tokens of the print stand so beside each other.
    fn any_pair(&self, holds: impl Fn(Token, Token) -> bool) -> bool {
        self.printed.iter().any(|line| line.windows(2).any(|pair| holds(pair[0].0, pair[1].0)))
    }

    /// Two such tokens stand in the print with a space between them.
    fn has_space(&self, left: Sort, right: Sort) -> bool {
        self.pairs(left, right).any(|between| between == 1)
    }

    /// Two such tokens stand in the print without one.
    fn meets(&self, left: Sort, right: Sort) -> bool {
        self.pairs(left, right).any(|between| between == 0)
    }

    /// The bytes between each two such neighbours of the print.
    fn pairs(&self, left: Sort, right: Sort) -> impl Iterator<Item = usize> + '_ {
        let pairs = self.printed.iter().flat_map(|line| line.windows(2));
        let such = pairs.filter(move |pair| sort(&pair[0]) == left && sort(&pair[1]) == right);
        such.map(|pair| pair[1].1.as_ptr() as usize - pair[0].1.as_ptr_range().end as usize)
    }
}

fn lines(text: &[u8]) -> Vec<Pieces<'_>> {
    let lines = text::lines(text).map(text::without_comment).filter_map(pieces);
    lines.filter(|line| !line.is_empty()).collect()
}

fn tokens(line: &Pieces) -> Vec<Token> {
    line.iter().map(|(token, _)| *token).collect()
}

fn sort((token, bytes): &(Token, &[u8])) -> Sort {
    match (token, bytes[0]) {
        (Token::Number(_), _) => Sort::Number,
        (_, b'$') => Sort::Variable,
        (_, first) if first.is_ascii_alphabetic() => Sort::Word,
        _ => Sort::Sign,
    }
}

/// The digits before and behind the point.
fn split_at_point(number: &[u8]) -> (&[u8], &[u8]) {
    let mut parts = number.splitn(2, |byte| *byte == b'.');
    (parts.next().unwrap_or_default(), parts.next().unwrap_or_default())
}

fn is_zero(digits: &[u8]) -> bool {
    digits.iter().all(|digit| *digit == b'0')
}

fn spaces(text: &[u8]) -> usize {
    text.iter().filter(|byte| **byte == b' ').count()
}

/// The numbers of the lines rise.
fn in_order<'a>(lines: impl Iterator<Item = &'a Pieces<'a>>) -> bool {
    lines.filter_map(|line| line.iter().find_map(|(token, _)| number(token))).is_sorted()
}

fn is_minus_0(pair: &[(Token, &[u8])]) -> bool {
    pair[0].0 == MINUS && number(&pair[1].0) == Some(0)
}

fn number(token: &Token) -> Option<i64> {
    match token {
        Token::Number(number) => Some(number.value),
        _ => None,
    }
}
