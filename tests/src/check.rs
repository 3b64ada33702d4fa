//! The checks of one line, codes 4 to 10, lowest first, then 14, and those of curves, code 13. Loading and soundness both use them.

use crate::code::Code;
use crate::parse;
use crate::slip::Slip;
use crate::token::{Keyword, Motion, Name, Token};
use crate::tree::{Action, Curve, Expression, Line, Variable};
use std::ops::RangeInclusive;

/// Brackets `(` that may be open at once.
const DEPTH: usize = 8;
/// Actions that a line may have.
const ACTIONS: usize = 8;
/// The numbers a line may have, and LOCK and UNLOCK may name.
const LINE_NUMBERS: RangeInclusive<i64> = 1..=255;

/// The numbers a curve may have.
const CURVE_NUMBERS: RangeInclusive<i64> = 1..=3;

/// The tree of a numbered line, or its lowest code of 4 to 10, or 14.
pub fn line(tokens: &[Token]) -> Result<Line, Code> {
    slipped_line(tokens, Slip::None)
}

/// The same with a slip.
pub fn slipped_line(tokens: &[Token], slip: Slip) -> Result<Line, Code> {
    demand(depth(tokens) <= DEPTH, Code::TooDeep)?;
    let line = parse::line(tokens).ok_or(Code::NotInGrammar)?;
    demand(kinds_agree(&line), Code::KindsConfused)?;
    demand(tokens.iter().all(number_fits) && ranges_kept(&line), Code::NumberOutOfRange)?;
    demand(places_allowed(&line), Code::PlaceNotAllowed)?;
    demand(m_allowed(&line), Code::MNotAllowed)?;
    demand(line.actions.len() <= ACTIONS, Code::TooManyActions)?;
    demand(one_move_an_axis(&line, slip), Code::TwoMoves)?;
    Ok(line)
}

/// The curve of an FCTDEF line, or its lowest code of 4 to 7. Behind a numbered line it is not in the grammar.
pub fn curve(tokens: &[Token], behind_a_line: bool) -> Result<Curve, Code> {
    demand(depth(tokens) <= DEPTH, Code::TooDeep)?;
    demand(!behind_a_line, Code::NotInGrammar)?;
    let curve = parse::curve(tokens).ok_or(Code::NotInGrammar)?;
    demand(tokens.iter().all(number_fits) && CURVE_NUMBERS.contains(&curve.number), Code::NumberOutOfRange)?;
    Ok(curve)
}

/// Code 13 of an FCTDEF line below these curves: lower above upper, or its number defined before.
pub fn curve_allowed(curve: &Curve, above: &[Curve]) -> Result<(), Code> {
    let defined = above.iter().any(|other| other.number == curve.number);
    demand(curve.lower <= curve.upper && !defined, Code::CurveNotAllowed)
}

/// Code 13 of a numbered line: each SYNFCT uses one of these curves.
pub fn curves_used(line: &Line, curves: &[Curve]) -> Result<(), Code> {
    let defined = |number| curves.iter().any(|curve| curve.number == number);
    demand(line.synfcts().all(|synfct| defined(synfct.curve)), Code::CurveNotAllowed)
}

fn demand(holds: bool, code: Code) -> Result<(), Code> {
    if holds {
        Ok(())
    } else {
        Err(code)
    }
}

/// The most brackets `(` open anywhere in the line; a `)` with none open counts nothing.
pub fn depth(tokens: &[Token]) -> usize {
    let mut open: usize = 0;
    let mut most = 0;
    for token in tokens {
        match token {
            Token::Open => open += 1,
            Token::Close => open = open.saturating_sub(1),
            _ => {}
        }
        most = most.max(open);
    }
    most
}

#[derive(Clone, Copy, PartialEq, Eq)]
enum Kind {
    Number,
    YesNo,
}

fn kinds_agree(line: &Line) -> bool {
    let condition = line.condition.iter().all(|(_, condition)| is(condition, Kind::YesNo));
    condition && line.actions.iter().filter_map(right_side).all(|side| is(side, Kind::Number))
}

/// The kind of an expression, None if kinds are confused in it.
fn kind(expression: &Expression) -> Option<Kind> {
    let (agrees, given) = match expression {
        Expression::Number(_) | Expression::Variable(_) => (true, Kind::Number),
        Expression::Truth(_) => (true, Kind::YesNo),
        Expression::Bracketed(inner) => return kind(inner),
        Expression::Negative(inner) => (is(inner, Kind::Number), Kind::Number),
        Expression::Not(inner) => (is(inner, Kind::YesNo), Kind::YesNo),
        Expression::Series(first, rest) => {
            (is(first, Kind::Number) && rest.iter().all(|(_, member)| is(member, Kind::Number)), Kind::Number)
        }
        Expression::Compared(left, _, right) => {
            (is(left, Kind::Number) && is(right, Kind::Number), Kind::YesNo)
        }
        Expression::Joined(_, members) => (members.iter().all(|member| is(member, Kind::YesNo)), Kind::YesNo),
    };
    agrees.then_some(given)
}

fn is(expression: &Expression, taken: Kind) -> bool {
    kind(expression) == Some(taken)
}

fn number_fits(token: &Token) -> bool {
    match token {
        Token::Number(number) => number.fits,
        _ => true,
    }
}

fn ranges_kept(line: &Line) -> bool {
    let mut kept = LINE_NUMBERS.contains(&line.number);
    let mut see = |variable: Variable| kept &= index_in_range(variable);
    if let Some((_, condition)) = &line.condition {
        condition.each_variable(&mut see);
    }
    for action in &line.actions {
        if let Action::Assign(variable, _) = action {
            see(*variable);
        }
        if let Some(side) = right_side(action) {
            side.each_variable(&mut see);
        }
    }
    for synfct in line.synfcts() {
        see(synfct.target);
        see(synfct.source);
    }
    kept && line.actions.iter().all(argument_in_range)
}

fn index_in_range(variable: Variable) -> bool {
    match variable.name {
        Name::In | Name::Out => (1..=16).contains(&variable.index),
        Name::Ina => (1..=8).contains(&variable.index),
        Name::Im => true,
        Name::Marker | Name::Param => (0..=31).contains(&variable.index),
        Name::R => (0..=163).contains(&variable.index),
        Name::Timer => (0..=7).contains(&variable.index),
        Name::Fifo(_) => (0..=4).contains(&variable.index),
    }
}

fn argument_in_range(action: &Action) -> bool {
    match action {
        Action::M(number) => (0..=99).contains(number),
        Action::Setal(number) => (65000..=69999).contains(number),
        Action::Lock(number) | Action::Unlock(number) => LINE_NUMBERS.contains(number),
        Action::Synfct(synfct) => CURVE_NUMBERS.contains(&synfct.curve),
        Action::Assign(..) | Action::Move(..) => true,
    }
}

/// Nothing read-only is written, and FIFO [0] is read only where it may be.
fn places_allowed(line: &Line) -> bool {
    let condition = line.condition.iter().all(|(_, condition)| !reads_removal(condition));
    condition
        && line.actions.iter().all(|action| match action {
            Action::Assign(variable, Expression::Variable(_)) => writable(*variable),
            Action::Assign(variable, side) => writable(*variable) && !reads_removal(side),
            Action::Move(_, _, side) => !reads_removal(side),
            Action::Synfct(synfct) => writable(synfct.target) && !synfct.source.is_removal(),
            _ => true,
        })
}

fn writable(variable: Variable) -> bool {
    match variable.name {
        Name::In | Name::Ina | Name::Im => false,
        Name::Out | Name::Marker | Name::Param | Name::Timer => true,
        Name::R => variable.index < 100,
        Name::Fifo(_) => variable.index == 0 || variable.index == 4,
    }
}

fn reads_removal(expression: &Expression) -> bool {
    let mut found = false;
    expression.each_variable(&mut |variable| found |= variable.is_removal());
    found
}

fn m_allowed(line: &Line) -> bool {
    let has_m = line.actions.iter().any(|action| matches!(action, Action::M(_)));
    !has_m || matches!(line.keyword(), Some(Keyword::When | Keyword::Every))
}

/// No axis has two moves, POS or MOV; FA is none.
fn one_move_an_axis(line: &Line, slip: Slip) -> bool {
    let moves = |motion: Motion| match slip {
        Slip::FaIsAMove => true,
        Slip::MovIsNoMove => motion == Motion::Pos,
        _ => motion != Motion::Fa,
    };
    let mut axes: Vec<u8> = line
        .actions
        .iter()
        .filter_map(|action| match action {
            Action::Move(motion, axis, _) if moves(*motion) => Some(*axis),
            _ => None,
        })
        .collect();
    let all = axes.len();
    axes.sort_unstable();
    axes.dedup();
    axes.len() == all || slip == Slip::TwoMovesTaken
}

fn right_side(action: &Action) -> Option<&Expression> {
    match action {
        Action::Assign(_, side) | Action::Move(_, _, side) => Some(side),
        _ => None,
    }
}
