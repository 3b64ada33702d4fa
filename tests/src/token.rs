//! Tokens of a line and the tokenizer.

use crate::value::{Arithmetic, Value, TOP, UNIT};

#[derive(Clone, Copy, PartialEq, Eq, Debug)]
pub enum Scope {
    Id,
    Ids,
}

#[derive(Clone, Copy, PartialEq, Eq, Debug)]
pub enum Keyword {
    When,
    Whenever,
    From,
    Every,
}

/// The variables by name; the number is that of the FIFO, 1 to 4.
#[derive(Clone, Copy, PartialEq, Eq, Debug)]
pub enum Name {
    In,
    Ina,
    Im,
    Out,
    Marker,
    Param,
    R,
    Timer,
    Fifo(usize),
}

/// The actions that name an axis.
#[derive(Clone, Copy, PartialEq, Eq, Debug)]
pub enum Motion {
    Pos,
    Fa,
    Mov,
}

#[derive(Clone, Copy, PartialEq, Eq, Debug)]
pub enum Joint {
    And,
    Or,
    Xor,
}

#[derive(Clone, Copy, PartialEq, Eq, Debug)]
pub enum Comparison {
    Equal,
    Unequal,
    Less,
    Greater,
    AtMost,
    AtLeast,
}

impl Comparison {
    #[inline]
    pub fn holds(self, left: Value, right: Value) -> bool {
        match self {
            Comparison::Equal => left == right,
            Comparison::Unequal => left != right,
            Comparison::Less => left < right,
            Comparison::Greater => left > right,
            Comparison::AtMost => left <= right,
            Comparison::AtLeast => left >= right,
        }
    }
}

/// A number as written. `fits` says that its digits and size are allowed; if not, `value` says nothing.
#[derive(Clone, Copy, PartialEq, Eq, Debug)]
pub struct Number {
    pub value: Value,
    pub pointed: bool,
    pub fits: bool,
}

#[derive(Clone, Copy, PartialEq, Eq, Debug)]
pub enum Token {
    Scope(Scope),
    Keyword(Keyword),
    Do,
    Variable(Name),
    /// An axis, X to W as 1 to 6.
    Axis(u8),
    Motion(Motion),
    M,
    Setal,
    Lock,
    Unlock,
    Fctdef,
    Synfct,
    Truth(bool),
    Not,
    Joint(Joint),
    Number(Number),
    Comparison(Comparison),
    Arithmetic(Arithmetic),
    Assign,
    Open,
    Close,
    OpenIndex,
    CloseIndex,
    Comma,
}

/// Every word that is a token.
pub const WORDS: [(&str, Token); 40] = [
    ("ID", Token::Scope(Scope::Id)),
    ("IDS", Token::Scope(Scope::Ids)),
    ("WHEN", Token::Keyword(Keyword::When)),
    ("WHENEVER", Token::Keyword(Keyword::Whenever)),
    ("FROM", Token::Keyword(Keyword::From)),
    ("EVERY", Token::Keyword(Keyword::Every)),
    ("DO", Token::Do),
    ("$A_IN", Token::Variable(Name::In)),
    ("$A_INA", Token::Variable(Name::Ina)),
    ("$AA_IM", Token::Variable(Name::Im)),
    ("$A_OUT", Token::Variable(Name::Out)),
    ("$AC_MARKER", Token::Variable(Name::Marker)),
    ("$AC_PARAM", Token::Variable(Name::Param)),
    ("$R", Token::Variable(Name::R)),
    ("$AC_TIMER", Token::Variable(Name::Timer)),
    ("$AC_FIFO1", Token::Variable(Name::Fifo(1))),
    ("$AC_FIFO2", Token::Variable(Name::Fifo(2))),
    ("$AC_FIFO3", Token::Variable(Name::Fifo(3))),
    ("$AC_FIFO4", Token::Variable(Name::Fifo(4))),
    ("X", Token::Axis(1)),
    ("Y", Token::Axis(2)),
    ("Z", Token::Axis(3)),
    ("U", Token::Axis(4)),
    ("V", Token::Axis(5)),
    ("W", Token::Axis(6)),
    ("POS", Token::Motion(Motion::Pos)),
    ("FA", Token::Motion(Motion::Fa)),
    ("MOV", Token::Motion(Motion::Mov)),
    ("M", Token::M),
    ("SETAL", Token::Setal),
    ("LOCK", Token::Lock),
    ("UNLOCK", Token::Unlock),
    ("FCTDEF", Token::Fctdef),
    ("SYNFCT", Token::Synfct),
    ("TRUE", Token::Truth(true)),
    ("FALSE", Token::Truth(false)),
    ("NOT", Token::Not),
    ("AND", Token::Joint(Joint::And)),
    ("OR", Token::Joint(Joint::Or)),
    ("XOR", Token::Joint(Joint::Xor)),
];

/// Every sign that is a token, a longer one before its beginning.
pub const SIGNS: [(&str, Token); 16] = [
    ("==", Token::Comparison(Comparison::Equal)),
    ("<>", Token::Comparison(Comparison::Unequal)),
    ("<=", Token::Comparison(Comparison::AtMost)),
    (">=", Token::Comparison(Comparison::AtLeast)),
    ("=", Token::Assign),
    ("<", Token::Comparison(Comparison::Less)),
    (">", Token::Comparison(Comparison::Greater)),
    ("+", Token::Arithmetic(Arithmetic::Plus)),
    ("-", Token::Arithmetic(Arithmetic::Minus)),
    ("*", Token::Arithmetic(Arithmetic::Times)),
    ("/", Token::Arithmetic(Arithmetic::Over)),
    ("(", Token::Open),
    (")", Token::Close),
    ("[", Token::OpenIndex),
    ("]", Token::CloseIndex),
    (",", Token::Comma),
];

/// The tokens of a line without its comment, or None if a byte or word makes no token.
pub fn tokens(line: &[u8]) -> Option<Vec<Token>> {
    Some(pieces(line)?.into_iter().map(|(token, _)| token).collect())
}

/// The tokens, each with the bytes that write it.
pub fn pieces(line: &[u8]) -> Option<Vec<(Token, &[u8])>> {
    let mut found = Vec::new();
    let mut rest = line;
    loop {
        rest = &rest[run(rest, |byte| byte == b' ')..];
        if rest.is_empty() {
            return Some(found);
        }
        let (token, length) = first(rest)?;
        found.push((token, &rest[..length]));
        rest = &rest[length..];
    }
}

/// The first token of `text` and its length in bytes.
fn first(text: &[u8]) -> Option<(Token, usize)> {
    match text[0] {
        byte if byte.is_ascii_alphabetic() || byte == b'$' => word(text),
        byte if byte.is_ascii_digit() => number(text),
        _ => sign(text),
    }
}

fn word(text: &[u8]) -> Option<(Token, usize)> {
    let length = 1 + run(&text[1..], |byte| byte.is_ascii_alphanumeric() || byte == b'_');
    let (_, token) = WORDS.iter().find(|(word, _)| word.as_bytes() == &text[..length])?;
    Some((*token, length))
}

fn sign(text: &[u8]) -> Option<(Token, usize)> {
    let (sign, token) = SIGNS.iter().find(|(sign, _)| text.starts_with(sign.as_bytes()))?;
    Some((*token, sign.len()))
}

fn number(text: &[u8]) -> Option<(Token, usize)> {
    let whole = run(text, |byte| byte.is_ascii_digit());
    let places = match text.get(whole) {
        Some(b'.') => run(&text[whole + 1..], |byte| byte.is_ascii_digit()),
        _ => 0,
    };
    let length = if places > 0 { whole + 1 + places } else { whole };
    if text.get(length).is_some_and(|byte| byte.is_ascii_alphabetic()) {
        return None;
    }
    Some((Token::Number(Number::read(&text[..whole], &text[length - places..length])), length))
}

impl Number {
    /// The number with these digits before and after the point.
    fn read(whole: &[u8], places: &[u8]) -> Number {
        let pointed = !places.is_empty();
        if whole.len() > 7 || places.len() > 3 {
            return Number { value: 0, pointed, fits: false };
        }
        let padded = places.iter().chain(b"000").take(3);
        let value = whole.iter().chain(padded).fold(0, |value, digit| value * 10 + Value::from(digit - b'0'));
        Number { value, pointed, fits: value <= TOP }
    }

    /// The number as a stored set writes it: no needless zero, a point only before a fraction.
    pub fn plain(self) -> Number {
        Number { pointed: self.value % UNIT != 0, ..self }
    }
}

/// How many of the first bytes are of a sort.
fn run(text: &[u8], sort: impl Fn(u8) -> bool) -> usize {
    text.iter().take_while(|byte| sort(**byte)).count()
}
