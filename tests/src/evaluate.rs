//! Works expressions in a beat: all operands, left first, until an alarm.

use crate::beat::Beat;
use crate::code::Code;
use crate::token::Joint;
use crate::tree::Expression;
use crate::value::Value;

impl Beat<'_> {
    pub fn truth(&mut self, expression: &Expression) -> Result<bool, Code> {
        match expression {
            Expression::Truth(truth) => Ok(*truth),
            Expression::Bracketed(inner) => self.truth(inner),
            Expression::Not(inner) => Ok(!self.truth(inner)?),
            Expression::Compared(left, comparison, right) => {
                let left = self.number(left)?;
                let right = self.number(right)?;
                Ok(comparison.holds(left, right))
            }
            Expression::Joined(joint, members) => {
                let mut truths = Vec::with_capacity(members.len());
                for member in members {
                    truths.push(self.truth(member)?);
                }
                Ok(join(*joint, &truths))
            }
            _ => unreachable!("a number where the checks found yes/no"),
        }
    }

    pub fn number(&mut self, expression: &Expression) -> Result<Value, Code> {
        match expression {
            Expression::Number(value) => Ok(*value),
            Expression::Variable(variable) => self.read(*variable),
            Expression::Bracketed(inner) => self.number(inner),
            Expression::Negative(inner) => Ok(-self.number(inner)?),
            Expression::Series(first, rest) => {
                let mut value = self.number(first)?;
                for (arithmetic, member) in rest {
                    value = arithmetic.work(value, self.number(member)?, self.slip.cut())?;
                }
                Ok(value)
            }
            _ => unreachable!("yes/no where the checks found a number"),
        }
    }
}

fn join(joint: Joint, truths: &[bool]) -> bool {
    match joint {
        Joint::And => truths.iter().all(|truth| *truth),
        Joint::Or => truths.iter().any(|truth| *truth),
        Joint::Xor => truths.iter().filter(|truth| **truth).count() % 2 == 1,
    }
}
