//! A FIFO in its run of R: oldest first, unused places 0.

use crate::code::Code;
use crate::value::{ranged, Value, UNIT};

pub struct Fifo<'a> {
    pub run: &'a mut [Value],
    pub count: &'a mut usize,
}

impl Fifo<'_> {
    /// Reads [0] to [4]; reading [0] removes the oldest.
    pub fn read(&mut self, index: i64) -> Result<Value, Code> {
        match index {
            0 => self.remove(),
            1 => self.filled()?.first().copied().ok_or(Code::FifoEmpty),
            2 => self.filled()?.last().copied().ok_or(Code::FifoEmpty),
            3 => ranged(self.run.iter().sum()),
            _ => Ok(*self.count as Value * UNIT),
        }
    }

    /// Writes [0], which appends, or [4], which empties.
    pub fn write(&mut self, index: i64, value: Value) -> Result<(), Code> {
        match index {
            0 => self.append(value),
            _ if value == 0 => {
                self.run.fill(0);
                *self.count = 0;
                Ok(())
            }
            _ => Err(Code::ValueNotAllowed),
        }
    }

    /// The places in use, of which there is at least one.
    fn filled(&self) -> Result<&[Value], Code> {
        match *self.count {
            0 => Err(Code::FifoEmpty),
            count => Ok(&self.run[..count]),
        }
    }

    fn remove(&mut self) -> Result<Value, Code> {
        let oldest = self.filled()?[0];
        self.run[0] = 0;
        self.run.rotate_left(1);
        *self.count -= 1;
        Ok(oldest)
    }

    fn append(&mut self, value: Value) -> Result<(), Code> {
        let place = self.run.get_mut(*self.count).ok_or(Code::FifoFull)?;
        *place = value;
        *self.count += 1;
        Ok(())
    }
}
