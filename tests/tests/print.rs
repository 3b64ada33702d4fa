//! Prints into lent buffers: codes 22 and 24, the bytes behind a print, and sets that came from no text.

use reference::code::Code;
use reference::control::Control;
use reference::load::{load, TEXT};
use reference::print::{print, print_into, BUFFER};
use reference::seen::Seen;
use reference::set::Set;
use reference::slip::Slip;
use reference::token::{tokens, Token};

const FILL: u8 = 0xAA;
const SMALL: &[u8] = b"ID=2 DO $R[1]=0.50\nIDS=1 DO LOCK(2)\n";
const SMALL_PRINT: &[u8] = b"IDS=1 DO LOCK(2)\nID=2 DO$R[1]=0.5";

fn taken(text: &[u8]) -> Set {
    load(text, Slip::None).expect("the text is taken")
}

/// What a print into a buffer of `length` bytes answers, and the buffer.
fn lent(set: &Set, length: usize) -> (Result<usize, Code>, Vec<u8>) {
    let mut buffer = vec![FILL; length];
    (print_into(set, &mut buffer), buffer)
}

fn untouched(buffer: &[u8]) -> bool {
    buffer.iter().all(|byte| *byte == FILL)
}

fn token(text: &[u8]) -> Token {
    tokens(text).expect("a token")[0]
}

/// A set whose print has one byte fewer than the most.
fn full_set() -> Set {
    let head = "ID=1 DO $R[1]=";
    taken(format!("{head}{}1", "-".repeat(TEXT - head.len() - 1)).as_bytes())
}

#[test]
fn a_print_goes_to_the_front_of_the_buffer() {
    for length in [BUFFER, BUFFER + 1, 2 * BUFFER] {
        let (answer, buffer) = lent(&taken(SMALL), length);
        assert_eq!(answer, Ok(SMALL_PRINT.len()));
        assert_eq!(&buffer[..SMALL_PRINT.len()], SMALL_PRINT);
        assert!(untouched(&buffer[SMALL_PRINT.len()..]));
    }
}

#[test]
fn a_buffer_under_4096_bytes_is_refused_however_short_the_print() {
    for text in [SMALL, b""] {
        for length in [0, SMALL_PRINT.len(), BUFFER - 1] {
            let (answer, buffer) = lent(&taken(text), length);
            assert_eq!(answer, Err(Code::PrintTooShort));
            assert!(untouched(&buffer));
        }
    }
    assert_eq!(Code::PrintTooShort.number(), 24);
}

#[test]
fn an_empty_set_prints_nothing() {
    let (answer, buffer) = lent(&taken(b"; nothing\n"), BUFFER);
    assert_eq!(answer, Ok(0));
    assert!(untouched(&buffer));
}

#[test]
fn a_refused_load_leaves_a_set_that_prints_nothing() {
    let mut control = Control::new(Slip::None, Seen::default());
    control.load(SMALL).expect("the text is taken");
    control.load(b"ID=0 DO\n").expect_err("the text is refused");
    assert_eq!(print(&control.set, Slip::None), Ok(Vec::new()));
}

#[test]
fn a_cancelled_line_and_a_damaged_state_print_as_before() {
    let mut control = Control::new(Slip::None, Seen::default());
    control.load(SMALL).expect("the text is taken");
    assert_eq!(control.cancel(2), Code::Success);
    assert_eq!(print(&control.set, Slip::None).as_deref(), Ok(SMALL_PRINT));
    control.state.markers[0] = 1;
    assert_eq!(control.control_reset(), Code::NotSound);
    assert_eq!(print(&control.set, Slip::None).as_deref(), Ok(SMALL_PRINT));
}

#[test]
fn a_damaged_set_gives_22_before_24() {
    let mut set = taken(SMALL);
    set.damage(|written, _| written.swap(0, 1));
    for length in [0, BUFFER - 1, BUFFER] {
        let (answer, buffer) = lent(&set, length);
        assert_eq!(answer, Err(Code::NotSound));
        assert!(untouched(&buffer));
    }
    set.damage(|written, _| written.swap(0, 1));
    assert_eq!(lent(&set, BUFFER).0, Ok(SMALL_PRINT.len()));
}

#[test]
fn a_sound_set_from_no_text_may_print_more_bytes_than_a_text_has() {
    let mut set = full_set();
    let (answer, buffer) = lent(&set, BUFFER);
    assert_eq!(answer, Ok(TEXT - 1));
    assert_eq!(taken(&buffer[..TEXT - 1]).written(), set.written());
    let last = set.written()[0].len() - 1;
    for (number, bytes) in [(&b"12"[..], TEXT), (b"0.1", TEXT + 1), (b"12.5", TEXT + 2)] {
        set.damage(|written, _| written[0][last] = token(number));
        let (answer, buffer) = lent(&set, bytes);
        assert_eq!(answer, Ok(bytes));
        assert!(buffer.ends_with(number));
        let (answer, buffer) = lent(&set, bytes - 1);
        assert_eq!(answer, Err(Code::PrintTooShort));
        assert!(untouched(&buffer));
    }
}

#[test]
fn a_sound_set_from_no_text_reads_back_if_its_print_is_short_enough() {
    let mut set = taken(SMALL);
    set.damage(|written, _| written[1][6] = token(b"7"));
    let printed = print(&set, Slip::None).expect("the set is sound");
    assert!(printed.ends_with(b"$R[7]=0.5"));
    assert!(taken(&printed).is_same(&set));
}
