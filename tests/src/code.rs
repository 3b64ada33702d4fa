//! The codes of documents 01 and 02, by name; in a line 14 comes before 11. `number` gives the figure that is printed.

#[derive(Clone, Copy, PartialEq, Eq, PartialOrd, Ord, Debug)]
pub enum Code {
    Success = 0,
    TextTooLong = 1,
    TooManyLines = 2,
    NoToken = 3,
    TooDeep = 4,
    NotInGrammar = 5,
    KindsConfused = 6,
    NumberOutOfRange = 7,
    PlaceNotAllowed = 8,
    MNotAllowed = 9,
    TooManyActions = 10,
    NumberUsedAbove = 11,
    LockOfNoLine = 12,
    CurveNotAllowed = 13,
    TwoMoves = 14,
    BufferTooShort = 20,
    BadNumbers = 21,
    NotSound = 22,
    ChannelFaulty = 23,
    PrintTooShort = 24,
    ValueOutOfRange = 30,
    ZeroDivisor = 31,
    FifoEmpty = 32,
    FifoFull = 33,
    ValueNotAllowed = 34,
    NoSuchLine = 40,
}

impl Code {
    pub fn number(self) -> u8 {
        self as u8
    }
}
