//! Reading and writing variables in a beat.

use crate::beat::Beat;
use crate::code::Code;
use crate::token::Name;
use crate::tree::Variable;
use crate::value::{Value, TOP, UNIT};

impl Beat<'_> {
    pub fn read(&mut self, variable: Variable) -> Result<Value, Code> {
        self.seen.variable("read", variable);
        let index = variable.index as usize;
        let state = match &mut self.start {
            Some(start) if !variable.is_removal() => start,
            _ => &mut self.state,
        };
        Ok(match variable.name {
            Name::In => Value::from(self.inputs.word >> (index - 1) & 1) * UNIT,
            Name::Ina => self.inputs.analogues[index - 1],
            Name::Im => Value::from(self.inputs.positions[index - 1]),
            Name::Out => state.outputs[index - 1],
            Name::Marker => state.markers[index],
            Name::Param => state.params[index],
            Name::R => state.r[index],
            Name::Timer => state.timers[index].value,
            Name::Fifo(fifo) => state.fifo(fifo).read(variable.index)?,
        })
    }

    pub fn write(&mut self, variable: Variable, value: Value) -> Result<(), Code> {
        let index = variable.index as usize;
        match variable.name {
            Name::Out if ![0, UNIT].contains(&value) => return Err(Code::ValueNotAllowed),
            Name::Out => self.state.outputs[index - 1] = value,
            Name::Marker => self.write_marker(index, value),
            Name::Param => self.state.params[index] = value,
            Name::R => self.state.r[index] = value,
            Name::Timer => return self.write_timer(index, value),
            Name::Fifo(fifo) => self.state.fifo(fifo).write(variable.index, value)?,
            Name::In | Name::Ina | Name::Im => unreachable!("a write that the checks refuse"),
        }
        self.seen.variable("write", variable);
        Ok(())
    }

    fn write_marker(&mut self, index: usize, value: Value) {
        let units = self.slip.rounding().units(value);
        self.state.markers[index] = units;
        if value != units && units.abs() == TOP {
            self.seen.note(if value > 0 { "marker to the top" } else { "marker to the bottom" });
        }
        self.seen.fraction(value % UNIT);
    }

    fn write_timer(&mut self, index: usize, value: Value) -> Result<(), Code> {
        let timer = &mut self.state.timers[index];
        timer.running = value >= 0;
        if timer.running {
            timer.value = value;
        }
        self.seen.note(if value >= 0 { "write $AC_TIMER run" } else { "write $AC_TIMER stop" });
        Ok(())
    }
}
