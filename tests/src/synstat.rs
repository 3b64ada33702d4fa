//! What the program `synstat` prints for its input: nothing for the beats, and at the end the status of each line.

use crate::control::Control;
use crate::synrun::{work, End};
use std::io::{self, Write};

pub fn run(input: &[u8], control: &mut Control, out: &mut dyn Write) -> io::Result<()> {
    let end = work(input, control, &mut |_, _| Ok(()))?;
    if end != End::Whole {
        return end.print(out);
    }
    for status in control.status().expect("a loaded set and its state are sound") {
        writeln!(out, "{status}")?;
    }
    Ok(())
}
