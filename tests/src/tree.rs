//! The tree of a line: its condition and actions, or the curve that it defines.

use crate::token::{Comparison, Joint, Keyword, Motion, Name, Scope};
use crate::value::{Arithmetic, Value};

/// A variable with its index; an axis stands as 1 to 6.
#[derive(Clone, Copy, PartialEq, Eq, Debug)]
pub struct Variable {
    pub name: Name,
    pub index: i64,
}

#[derive(Clone, Debug)]
pub enum Expression {
    Number(Value),
    Truth(bool),
    Variable(Variable),
    Negative(Box<Expression>),
    Not(Box<Expression>),
    /// A bracketed expression; it stays in the tree because FIFO [0] may not stand in brackets.
    Bracketed(Box<Expression>),
    /// A product or a sum, worked left to right.
    Series(Box<Expression>, Vec<(Arithmetic, Expression)>),
    Compared(Box<Expression>, Comparison, Box<Expression>),
    Joined(Joint, Vec<Expression>),
}

#[derive(Clone, Debug)]
pub enum Action {
    Assign(Variable, Expression),
    Move(Motion, u8, Expression),
    M(i64),
    Setal(i64),
    Lock(i64),
    Unlock(i64),
    Synfct(Synfct),
}

/// SYNFCT: the curve of this number, worked on the source, goes to the target.
#[derive(Clone, Copy, Debug)]
pub struct Synfct {
    pub curve: i64,
    pub target: Variable,
    pub source: Variable,
}

/// What an FCTDEF line defines: a polynomial with its limits.
#[derive(Clone, Copy, Debug)]
pub struct Curve {
    pub number: i64,
    pub lower: Value,
    pub upper: Value,
    /// a0 to a3.
    pub factors: [Value; 4],
}

#[derive(Clone, Debug)]
pub struct Line {
    pub scope: Scope,
    pub number: i64,
    pub condition: Option<(Keyword, Expression)>,
    pub actions: Vec<Action>,
}

impl Variable {
    /// FIFO [0], the place whose reading removes.
    pub fn is_removal(self) -> bool {
        matches!(self.name, Name::Fifo(_)) && self.index == 0
    }
}

impl Expression {
    /// Shows every variable of the expression, left first.
    pub fn each_variable(&self, see: &mut dyn FnMut(Variable)) {
        match self {
            Expression::Number(_) | Expression::Truth(_) => {}
            Expression::Variable(variable) => see(*variable),
            Expression::Negative(inner) | Expression::Not(inner) | Expression::Bracketed(inner) => {
                inner.each_variable(see)
            }
            Expression::Series(first, rest) => {
                first.each_variable(see);
                rest.iter().for_each(|(_, member)| member.each_variable(see));
            }
            Expression::Compared(left, _, right) => {
                left.each_variable(see);
                right.each_variable(see);
            }
            Expression::Joined(_, members) => members.iter().for_each(|member| member.each_variable(see)),
        }
    }
}

impl Line {
    pub fn keyword(&self) -> Option<Keyword> {
        self.condition.as_ref().map(|(keyword, _)| *keyword)
    }

    /// The SYNFCT actions of this line.
    pub fn synfcts(&self) -> impl Iterator<Item = Synfct> + '_ {
        self.actions.iter().filter_map(|action| match action {
            Action::Synfct(synfct) => Some(*synfct),
            _ => None,
        })
    }

    /// Some SYNFCT of this line works the curve of this number.
    pub fn uses(&self, curve: i64) -> bool {
        self.synfcts().any(|synfct| synfct.curve == curve)
    }

    /// The line numbers that LOCK and UNLOCK of this line name.
    pub fn lock_targets(&self) -> impl Iterator<Item = i64> + '_ {
        self.actions.iter().filter_map(|action| match action {
            Action::Lock(number) | Action::Unlock(number) => Some(*number),
            _ => None,
        })
    }
}
