//! Values are whole thousandths; here are their range and the arithmetic on them.

use crate::code::Code;

pub type Value = i64;

/// The greatest value; the least is its negative.
pub const TOP: Value = 1_000_000_000;
/// One whole unit.
pub const UNIT: Value = 1000;

/// Which way a fraction of a thousandth goes; away from zero only in a slip.
#[derive(Clone, Copy, PartialEq, Eq)]
pub enum Cut {
    TowardZero,
    AwayFromZero,
}

#[derive(Clone, Copy, PartialEq, Eq, Debug)]
pub enum Arithmetic {
    Plus,
    Minus,
    Times,
    Over,
}

impl Arithmetic {
    /// Works `a` and `b`, which are in range.
    pub fn work(self, a: Value, b: Value, cut: Cut) -> Result<Value, Code> {
        match self {
            Arithmetic::Plus => ranged(a + b),
            Arithmetic::Minus => ranged(a - b),
            Arithmetic::Times => ranged(divide(a * b, UNIT, cut)),
            Arithmetic::Over if b == 0 => Err(Code::ZeroDivisor),
            Arithmetic::Over => ranged(divide(a * UNIT, b, cut)),
        }
    }
}

pub fn in_range(value: Value) -> bool {
    (-TOP..=TOP).contains(&value)
}

pub fn ranged(value: Value) -> Result<Value, Code> {
    if in_range(value) {
        Ok(value)
    } else {
        Err(Code::ValueOutOfRange)
    }
}

/// Which way a fraction goes that is written to a marker; other than to the nearest unit only in a slip.
#[derive(Clone, Copy, PartialEq, Eq)]
pub enum Rounding {
    /// Halves away from zero.
    Nearest,
    TowardZero,
    HalvesUp,
}

impl Rounding {
    /// The whole units that a marker holds once `value`, which is in range, is written to it.
    pub fn units(self, value: Value) -> Value {
        let units = match self {
            Rounding::Nearest => value.signum() * ((value.abs() + UNIT / 2) / UNIT),
            Rounding::TowardZero => value / UNIT,
            Rounding::HalvesUp => (value + UNIT / 2).div_euclid(UNIT),
        };
        units * UNIT
    }
}

fn divide(dividend: i64, divisor: i64, cut: Cut) -> i64 {
    let quotient = dividend / divisor;
    if cut == Cut::AwayFromZero && dividend % divisor != 0 {
        quotient + dividend.signum() * divisor.signum()
    } else {
        quotient
    }
}
