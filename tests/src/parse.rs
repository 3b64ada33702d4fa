//! The parser: tokens of one line to its tree. None everywhere means: not in the grammar (code 5).

use crate::token::{Keyword, Name, Number, Scope, Token};
use crate::tree::{Action, Curve, Expression, Line, Synfct, Variable};
use crate::value::{Arithmetic, Value, UNIT};

/// The tree of a numbered line. Brackets are at most eight deep here: code 4 is looked for before.
pub fn line(tokens: &[Token]) -> Option<Line> {
    Parser { rest: tokens }.line()
}

/// The curve of an FCTDEF line.
pub fn curve(tokens: &[Token]) -> Option<Curve> {
    Parser { rest: tokens }.curve()
}

struct Parser<'a> {
    rest: &'a [Token],
}

impl Parser<'_> {
    fn line(&mut self) -> Option<Line> {
        let scope = self.scope()?;
        self.expect(Token::Assign)?;
        let number = self.whole_number()?;
        let condition = match self.keyword() {
            Some(keyword) => Some((keyword, self.expression()?)),
            None => None,
        };
        self.expect(Token::Do)?;
        let mut actions = vec![self.action()?];
        while !self.rest.is_empty() {
            actions.push(self.action()?);
        }
        Some(Line { scope, number, condition, actions })
    }

    /// FCTDEF with its number and six parameters, and nothing behind it.
    fn curve(&mut self) -> Option<Curve> {
        self.expect(Token::Fctdef)?;
        self.expect(Token::Open)?;
        let number = self.whole_number()?;
        let mut parameters = [0; 6];
        for parameter in &mut parameters {
            self.expect(Token::Comma)?;
            *parameter = self.parameter()?;
        }
        self.expect(Token::Close)?;
        let [lower, upper, factors @ ..] = parameters;
        self.rest.is_empty().then_some(Curve { number, lower, upper, factors })
    }

    /// A number with an optional minus.
    fn parameter(&mut self) -> Option<Value> {
        match self.next()? {
            Token::Number(number) => Some(number.value),
            Token::Arithmetic(Arithmetic::Minus) => match self.next()? {
                Token::Number(number) => Some(-number.value),
                _ => None,
            },
            _ => None,
        }
    }

    fn scope(&mut self) -> Option<Scope> {
        match self.next()? {
            Token::Scope(scope) => Some(scope),
            _ => None,
        }
    }

    fn keyword(&mut self) -> Option<Keyword> {
        match self.peek()? {
            Token::Keyword(keyword) => {
                self.next();
                Some(keyword)
            }
            _ => None,
        }
    }

    fn action(&mut self) -> Option<Action> {
        match self.next()? {
            Token::Variable(name) => {
                let variable = self.variable(name)?;
                Some(Action::Assign(variable, self.right_side()?))
            }
            Token::Motion(motion) => {
                let axis = self.axis_index()?;
                Some(Action::Move(motion, axis, self.right_side()?))
            }
            Token::M => {
                self.expect(Token::Assign)?;
                Some(Action::M(self.whole_number()?))
            }
            Token::Setal => Some(Action::Setal(self.argument()?)),
            Token::Lock => Some(Action::Lock(self.argument()?)),
            Token::Unlock => Some(Action::Unlock(self.argument()?)),
            Token::Synfct => Some(Action::Synfct(self.synfct()?)),
            _ => None,
        }
    }

    fn right_side(&mut self) -> Option<Expression> {
        self.expect(Token::Assign)?;
        self.sum()
    }

    fn argument(&mut self) -> Option<i64> {
        self.expect(Token::Open)?;
        let number = self.whole_number()?;
        self.expect(Token::Close)?;
        Some(number)
    }

    /// The number, target and source of a SYNFCT.
    fn synfct(&mut self) -> Option<Synfct> {
        self.expect(Token::Open)?;
        let curve = self.whole_number()?;
        self.expect(Token::Comma)?;
        let target = self.named_variable()?;
        self.expect(Token::Comma)?;
        let source = self.named_variable()?;
        self.expect(Token::Close)?;
        Some(Synfct { curve, target, source })
    }

    fn expression(&mut self) -> Option<Expression> {
        let first = self.sum()?;
        match self.peek() {
            Some(Token::Comparison(comparison)) => {
                self.next();
                Some(Expression::Compared(Box::new(first), comparison, Box::new(self.sum()?)))
            }
            Some(Token::Joint(joint)) => {
                let mut members = vec![first];
                while self.peek() == Some(Token::Joint(joint)) {
                    self.next();
                    members.push(self.sum()?);
                }
                Some(Expression::Joined(joint, members))
            }
            _ => Some(first),
        }
    }

    fn sum(&mut self) -> Option<Expression> {
        self.series(&[Arithmetic::Plus, Arithmetic::Minus], Self::product)
    }

    fn product(&mut self) -> Option<Expression> {
        self.series(&[Arithmetic::Times, Arithmetic::Over], Self::operand)
    }

    /// Members joined by any of `joints`.
    fn series(
        &mut self,
        joints: &[Arithmetic],
        member: fn(&mut Self) -> Option<Expression>,
    ) -> Option<Expression> {
        let first = member(self)?;
        let mut rest = Vec::new();
        while let Some(Token::Arithmetic(joint)) = self.peek() {
            if !joints.contains(&joint) {
                break;
            }
            self.next();
            rest.push((joint, member(self)?));
        }
        if rest.is_empty() {
            return Some(first);
        }
        Some(Expression::Series(Box::new(first), rest))
    }

    fn operand(&mut self) -> Option<Expression> {
        Some(match self.next()? {
            Token::Number(number) => Expression::Number(number.value),
            Token::Truth(truth) => Expression::Truth(truth),
            Token::Variable(name) => Expression::Variable(self.variable(name)?),
            Token::Arithmetic(Arithmetic::Minus) => Expression::Negative(Box::new(self.operand()?)),
            Token::Not => Expression::Not(Box::new(self.operand()?)),
            Token::Open => {
                let inner = self.expression()?;
                self.expect(Token::Close)?;
                Expression::Bracketed(Box::new(inner))
            }
            _ => return None,
        })
    }

    fn named_variable(&mut self) -> Option<Variable> {
        match self.next()? {
            Token::Variable(name) => self.variable(name),
            _ => None,
        }
    }

    /// The variable whose name has just been read.
    fn variable(&mut self, name: Name) -> Option<Variable> {
        let index = match name {
            Name::Im => i64::from(self.axis_index()?),
            _ => {
                self.expect(Token::OpenIndex)?;
                let index = self.whole_number()?;
                self.expect(Token::CloseIndex)?;
                index
            }
        };
        Some(Variable { name, index })
    }

    fn axis_index(&mut self) -> Option<u8> {
        self.expect(Token::OpenIndex)?;
        let axis = match self.next()? {
            Token::Axis(axis) => axis,
            _ => return None,
        };
        self.expect(Token::CloseIndex)?;
        Some(axis)
    }

    /// A number written without a point.
    fn whole_number(&mut self) -> Option<i64> {
        match self.next()? {
            Token::Number(Number { value, pointed: false, .. }) => Some(value / UNIT),
            _ => None,
        }
    }

    fn peek(&self) -> Option<Token> {
        self.rest.first().copied()
    }

    fn next(&mut self) -> Option<Token> {
        let (first, rest) = self.rest.split_first()?;
        self.rest = rest;
        Some(*first)
    }

    fn expect(&mut self, token: Token) -> Option<()> {
        (self.next()? == token).then_some(())
    }
}
