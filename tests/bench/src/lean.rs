//! A tree interpreter with nothing beside the working: the reference's trees, read from plain arrays, no counting and no allocation.

use crate::memory::World;
use reference::code::Code;
use reference::token::{Joint, Name};
use reference::tree::{Expression, Variable};
use reference::value::{ranged, Cut, Value, UNIT};

type Worked<A> = Result<A, Code>;

pub fn truth(world: &World, expression: &Expression) -> Worked<bool> {
    match expression {
        Expression::Truth(truth) => Ok(*truth),
        Expression::Bracketed(inner) => truth(world, inner),
        Expression::Not(inner) => Ok(!truth(world, inner)?),
        Expression::Compared(left, comparison, right) => {
            let left = number(world, left)?;
            Ok(comparison.holds(left, number(world, right)?))
        }
        Expression::Joined(joint, members) => {
            let mut value = truth(world, &members[0])?;
            for member in &members[1..] {
                value = join(*joint, value, truth(world, member)?);
            }
            Ok(value)
        }
        _ => unreachable!("a number where the checks found yes/no"),
    }
}

pub fn number(world: &World, expression: &Expression) -> Worked<Value> {
    match expression {
        Expression::Number(value) => Ok(*value),
        Expression::Variable(variable) => read(world, *variable),
        Expression::Bracketed(inner) => number(world, inner),
        Expression::Negative(inner) => Ok(-number(world, inner)?),
        Expression::Series(first, rest) => {
            let mut value = number(world, first)?;
            for (arithmetic, member) in rest {
                value = arithmetic.work(value, number(world, member)?, Cut::TowardZero)?;
            }
            Ok(value)
        }
        _ => unreachable!("yes/no where the checks found a number"),
    }
}

fn join(joint: Joint, left: bool, right: bool) -> bool {
    match joint {
        Joint::And => left & right,
        Joint::Or => left | right,
        Joint::Xor => left ^ right,
    }
}

fn read(world: &World, variable: Variable) -> Worked<Value> {
    let index = variable.index as usize;
    let state = &world.state;
    Ok(match variable.name {
        Name::In => Value::from(world.word >> (index - 1) & 1) * UNIT,
        Name::Ina => Value::from(world.numbers[index - 1]),
        Name::Im => Value::from(world.numbers[8 + index - 1]),
        Name::Out => state.outputs[index - 1],
        Name::Marker => state.markers[index],
        Name::Param => state.params[index],
        Name::R => state.r[index],
        Name::Timer => state.timers[index].value,
        Name::Fifo(fifo) => return read_fifo(world, fifo, index),
    })
}

fn read_fifo(world: &World, fifo: usize, index: usize) -> Worked<Value> {
    let start = 100 + 16 * (fifo - 1);
    let count = world.state.fifo_counts[fifo - 1];
    let filled = &world.state.r[start..start + count];
    match index {
        1 => filled.first().copied().ok_or(Code::FifoEmpty),
        2 => filled.last().copied().ok_or(Code::FifoEmpty),
        3 => ranged(filled.iter().sum()),
        _ => Ok(count as Value * UNIT),
    }
}
