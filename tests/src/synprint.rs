//! What the program `synprint` prints for its input: the print of the set, with no LF behind it, or why it is refused.

use crate::control::Control;
use crate::print::print;
use crate::text;
use std::io::{self, Write};

/// The beat lines are not looked at.
pub fn run(input: &[u8], control: &mut Control, out: &mut dyn Write) -> io::Result<()> {
    let (set_text, _) = text::split_at_star(input);
    if let Err(refusal) = control.load(set_text) {
        return writeln!(out, "L {} {}", refusal.code.number(), refusal.line);
    }
    out.write_all(&print(&control.set, control.slip).expect("a loaded set is sound"))
}
