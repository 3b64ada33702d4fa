//! Readings of the analogue couplers: what a channel sends in a beat, the thousandths it is worth, and what is kept of it.

use crate::code::Code;
use crate::seen::Seen;
use crate::slip::Slip;
use crate::value::{Value, TOP, UNIT};

/// Channels, and faulty beats in a row for which a channel's last good reading stands in.
pub const CHANNELS: usize = 8;
pub const BRIDGED: u8 = 25;

/// A number of volts by the bits of its binary32 form, or a fault of the wire.
#[derive(Clone, Copy, PartialEq, Eq, Debug)]
pub enum Reading {
    Volts(u32),
    Break,
    Short,
}

impl Reading {
    /// A reading of 0 V, which one left off is.
    pub const LEFT_OFF: Reading = Reading::Volts(0);

    /// Eight hex digits in upper case, `B` or `S`; None if it is none of these.
    pub fn read(field: &[u8]) -> Option<Reading> {
        match field {
            b"B" => Some(Reading::Break),
            b"S" => Some(Reading::Short),
            _ => bits(field).map(Reading::Volts),
        }
    }
}

/// 32 bits as eight hex digits in upper case.
pub fn bits(field: &[u8]) -> Option<u32> {
    let digits = std::str::from_utf8(field).ok().filter(|_| field.len() == 8)?;
    let upper = |digit: u8| digit.is_ascii_digit() || (b'A'..=b'F').contains(&digit);
    field.iter().all(|digit| upper(*digit)).then(|| u32::from_str_radix(digits, 16).ok())?
}

/// The bits of a NaN, which no channel keeps.
pub fn is_nan(bits: u32) -> bool {
    f32::from_bits(bits).is_nan()
}

/// The thousandths of a number of volts, nearest, halves to even; None if it counts as a break. A number of 24 bits times
/// 1000 has no more than 34, so that the product is exact, and only the rounding rounds.
pub fn thousandths(bits: u32, slip: Slip) -> Option<Value> {
    let exact = f64::from(f32::from_bits(bits)) * UNIT as f64;
    let rounded = match slip {
        Slip::ReadingHalvesAway => exact.round(),
        Slip::ReadingCut => exact.trunc(),
        _ => exact.round_ties_even(),
    };
    (rounded.abs() <= TOP as f64).then_some(rounded as Value)
}

/// What is kept of a channel: the last good reading as received, if there was one, and the faulty beats in a row since.
#[derive(Clone, Copy, PartialEq, Eq, Default, Debug)]
pub struct Channel {
    pub known: bool,
    pub bits: u32,
    pub faults: u8,
}

impl Channel {
    /// The record after a beat with this reading, and the value that the beat reads; code 23 if nothing stands in.
    pub fn next(self, reading: Reading, slip: Slip, seen: &mut Seen) -> Result<(Channel, Value), Code> {
        seen.reading(reading);
        if let Reading::Volts(bits) = reading {
            if let Some(value) = thousandths(bits, slip) {
                return Ok((Channel { known: true, bits, faults: 0 }, value));
            }
        }
        let bridged = if slip == Slip::BridgedFor26 { BRIDGED + 1 } else { BRIDGED };
        if !self.known || self.faults >= bridged {
            seen.note(if self.known { "23 after 25 faulty beats" } else { "23, never good" });
            return Err(Code::ChannelFaulty);
        }
        let value = thousandths(self.bits, slip).expect("a good reading that the state's soundness demands");
        Ok((Channel { faults: self.faults + 1, ..self }, value))
    }

    /// Never good and no faulty beat, or a good reading that converts and at most 25 of them.
    pub fn is_sound(self) -> bool {
        if self.known {
            thousandths(self.bits, Slip::None).is_some() && self.faults <= BRIDGED
        } else {
            self.faults == 0
        }
    }
}
