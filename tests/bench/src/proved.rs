//! The proved calls of the crate `exports`, as `exports_c` has them for C. They ask nothing of their caller; the array types give the lengths, a text is lent by its place and length.

/// Places of a set (crates/tokens/specs/Token): the count of lines, where each of 32 starts, the places of 3 curves and of 8 lists of 16 lines; then the tokens.
pub const FIRST: usize = 1 + 32 + 3 + 8 * (1 + 16);
pub const SIZE: usize = FIRST + 4096 + 1;
/// Places of R, and of the cells of all other variables (crates/working/specs/Variables).
pub const RS: usize = 164;
pub const CELLS: usize = 122;

pub type Set = [u32; SIZE];

/// An alarm k is given as this less k.
const ALARMS: i64 = -(1 << 40);

extern "C" {
    fn set_condition(set: &Set, r: &[i32; RS], cells: &[i32; CELLS], at: usize) -> i64;
    fn set_right_side(set: &Set, r: &[i32; RS], cells: &[i32; CELLS], at: usize) -> i64;
    fn set_line_fault(set: &Set, at: usize) -> u32;
    fn reader_load(text: *const u8, size: usize, set: &mut Set) -> u64;
}

/// What a walk reads: R, and one cell for each other variable.
pub struct Memory {
    pub r: [i32; RS],
    pub cells: [i32; CELLS],
}

/// A value, or the number of an alarm.
pub type Answer = Result<i64, u8>;

pub fn condition(set: &Set, memory: &Memory, at: usize) -> i64 {
    // SAFETY: the call reads these arrays, of these lengths, and nothing else.
    unsafe { set_condition(set, &memory.r, &memory.cells, at) }
}

pub fn right_side(set: &Set, memory: &Memory, at: usize) -> i64 {
    // SAFETY: as above.
    unsafe { set_right_side(set, &memory.r, &memory.cells, at) }
}

/// The lowest fault of 4 to 10 of the line at `at`, 0 for none.
pub fn line_fault(set: &Set, at: usize) -> u32 {
    // SAFETY: as above.
    unsafe { set_line_fault(set, at) }
}

/// Loads a text into the set: the code and the line that it names, 0 and 0 if the text is taken.
pub fn load(text: &[u8], set: &mut Set) -> (u8, u64) {
    // SAFETY: the call reads the bytes of the text, writes the places of the set, and touches nothing else.
    let packed = unsafe { reader_load(text.as_ptr(), text.len(), set) };
    (packed as u8, packed >> 8)
}

pub fn answer(packed: i64) -> Answer {
    if packed <= ALARMS {
        Err((ALARMS - packed) as u8)
    } else {
        Ok(packed)
    }
}
