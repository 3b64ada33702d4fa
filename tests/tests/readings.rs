//! Readings: the thousandths of a binary32 number, held against whole numbers that are worked out from its bits, and the records of
//! channels.

use reference::code::Code;
use reference::random::Random;
use reference::reading::{thousandths, Channel, Reading, BRIDGED};
use reference::seen::Seen;
use reference::slip::Slip;
use reference::value::{Value, TOP};

/// The thousandths by whole numbers alone: sign, exponent and fraction apart, a quotient and its rest.
fn by_whole_numbers(bits: u32) -> Option<Value> {
    let (exponent, fraction) = ((bits >> 23) & 0xFF, u128::from(bits & 0x7F_FFFF));
    let (size, power) = match exponent {
        0xFF => return None,
        0 => (fraction, -149),
        _ => (fraction | 0x80_0000, exponent as i32 - 150),
    };
    if power > 0 {
        return None;
    }
    // Below 2^-120 nothing is near half a thousandth: the divisor need not be larger.
    let divisor = 1u128 << (-power).min(120);
    let (whole, rest) = (size * 1000 / divisor, size * 1000 % divisor);
    let up = 2 * rest > divisor || (2 * rest == divisor && whole % 2 == 1);
    let rounded = Value::try_from(whole + u128::from(up)).ok().filter(|value| *value <= TOP)?;
    Some(if bits >> 31 == 1 { -rounded } else { rounded })
}

fn both_agree(bits: u32) {
    assert_eq!(thousandths(bits, Slip::None), by_whole_numbers(bits), "{bits:08X}");
}

#[test]
fn every_exponent_with_the_ends_of_its_fractions() {
    for exponent in 0..=0xFFu32 {
        for fraction in (0..64).chain(0x40_0000 - 64..0x40_0000 + 64).chain(0x80_0000 - 64..0x80_0000) {
            let bits = exponent << 23 | fraction;
            both_agree(bits);
            both_agree(bits | 1 << 31);
        }
    }
}

#[test]
fn random_bits_of_all_sizes() {
    let mut random = Random::new(5);
    for _ in 0..1_000_000 {
        both_agree(random.below(1 << 32) as u32);
        let volts = random.between(-16_000_016, 16_000_016) as f32 / 16.0;
        both_agree(volts.to_bits());
        both_agree(volts.to_bits() ^ 1);
        both_agree((random.between(-1_000_000_100, 1_000_000_100) as f32 / 1000.0).to_bits());
    }
}

#[test]
fn every_eighth_within_range_converts_without_loss() {
    for eighths in -8_000_000..=8_000_000i64 {
        let volts = eighths as f32 / 8.0;
        assert_eq!(thousandths(volts.to_bits(), Slip::None), Some(eighths * 125));
    }
}

#[test]
fn halves_are_the_odd_sixteenths_and_go_to_even() {
    for sixteenths in (-16_000_000..=16_000_000i64).step_by(2).map(|even| even + 1) {
        if sixteenths > 15_999_999 {
            continue;
        }
        let doubled = sixteenths * 125;
        let below = doubled.div_euclid(2);
        let even = if below % 2 == 0 { below } else { below + 1 };
        assert_eq!(thousandths((sixteenths as f32 / 16.0).to_bits(), Slip::None), Some(even));
    }
}

#[test]
fn edges_by_their_bits() {
    let expected = [
        (0x0000_0000, Some(0)),
        (0x8000_0000, Some(0)),
        (0x0000_0001, Some(0)),
        (0x807F_FFFF, Some(0)),
        (0x3A03_126E, Some(0)),
        (0x3A03_126F, Some(1)),
        (0x3D80_0000, Some(62)),
        (0xBE40_0000, Some(-188)),
        (0x4974_23FF, Some(999_999_938)),
        (0x4974_2400, Some(TOP)),
        (0xC974_2400, Some(-TOP)),
        (0x4974_2401, None),
        (0xC974_2401, None),
        (0x7F7F_FFFF, None),
        (0x7F80_0000, None),
        (0xFF80_0000, None),
        (0x7F80_0001, None),
        (0xFFFF_FFFF, None),
    ];
    for (bits, value) in expected {
        assert_eq!(thousandths(bits, Slip::None), value, "{bits:08X}");
    }
}

#[test]
fn a_channel_bridges_25_faulty_beats_and_no_more() {
    let mut seen = Seen::default();
    let mut next = |channel: Channel, reading| channel.next(reading, Slip::None, &mut seen);
    assert_eq!(next(Channel::default(), Reading::Break), Err(Code::ChannelFaulty));
    let (good, value) = next(Channel::default(), Reading::Volts(0x3D80_0000)).expect("a good reading");
    assert_eq!((good, value), (Channel { known: true, bits: 0x3D80_0000, faults: 0 }, 62));
    let mut channel = good;
    for faults in 1..=BRIDGED {
        let reading = [Reading::Break, Reading::Short, Reading::Volts(0x7FC0_0000)][usize::from(faults) % 3];
        let (after, value) = next(channel, reading).expect("the last good reading stands in");
        assert_eq!((after, value), (Channel { faults, ..good }, 62));
        channel = after;
    }
    assert_eq!(next(channel, Reading::Short), Err(Code::ChannelFaulty));
    let (after, value) = next(channel, Reading::Volts(0x8000_0000)).expect("a good reading");
    assert_eq!((after, value), (Channel { known: true, bits: 0x8000_0000, faults: 0 }, 0));
    assert_eq!(Code::ChannelFaulty.number(), 23);
}

#[test]
fn which_records_are_sound() {
    let sound = |known, bits, faults| Channel { known, bits, faults }.is_sound();
    assert!(sound(false, 0, 0) && sound(false, 0x7F80_0000, 0) && sound(false, 0x7FC0_0000, 0));
    assert!(!sound(false, 0, 1) && !sound(false, 0, 25));
    assert!(sound(true, 0, 0) && sound(true, 0x4974_2400, 25) && sound(true, 0x8000_0001, 1));
    assert!(!sound(true, 0, 26) && !sound(true, 0, 255));
    assert!(!sound(true, 0x4974_2401, 0) && !sound(true, 0xFF80_0000, 0) && !sound(true, 0x7FC0_0000, 0));
}
