//! Fields of a script line, one space apart, and the numbers in them.

/// The fields of a line; a space at an end or a second space makes an empty field.
pub fn fields(line: &[u8]) -> impl Iterator<Item = &[u8]> {
    line.split(|byte| *byte == b' ')
}

/// A whole number of digits only, from 0 to `top`; leading zeros pass.
pub fn unsigned(field: &[u8], top: i64) -> Option<i64> {
    if field.is_empty() || !field.iter().all(u8::is_ascii_digit) {
        return None;
    }
    let digits = field.iter().map(|digit| i64::from(digit - b'0'));
    let value = digits.fold(0, |value, digit| (value * 10 + digit).min(top + 1));
    (value <= top).then_some(value)
}

/// A whole number with an optional minus that fits 32 bits.
pub fn signed(field: &[u8]) -> Option<i32> {
    let value = match field.strip_prefix(b"-") {
        Some(size) => -unsigned(size, -i64::from(i32::MIN))?,
        None => unsigned(field, i64::from(i32::MAX))?,
    };
    i32::try_from(value).ok()
}
