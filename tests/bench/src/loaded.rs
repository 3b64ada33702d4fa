//! A set for both sides: the reference's trees, and the places of the same expressions among the tokens.

use crate::tokens::{self, Laid, EQUALS, RIGHT};
use reference::set::Set;
use reference::tree::{Action, Expression, Line};

/// Tokens of a line before its condition: ID or IDS, =, number, keyword.
const HEAD: usize = 4;

pub struct Loaded {
    pub set: Set,
    pub laid: Laid,
    /// Tokens of the lines, without those that end them.
    pub tokens: usize,
}

/// An expression as both sides have it.
pub struct Worked<'a> {
    pub tree: &'a Expression,
    pub place: usize,
    pub is_condition: bool,
}

impl Loaded {
    /// The set of a text without fault, whose lines stand by rising number.
    pub fn new(text: &str) -> Loaded {
        let set = reference::load::load(text.as_bytes(), Default::default()).expect("a text without fault");
        let lines: Vec<Vec<u32>> = text.lines().map(|line| tokens::tokens(line).expect("tokens")).collect();
        let count = lines.iter().map(Vec::len).sum();
        Loaded { set, laid: tokens::laid(&lines), tokens: count }
    }

    pub fn lines(&self) -> &[Line] {
        self.set.lines().expect("a sound set")
    }

    /// Every condition and every right side that is worked; reading FIFO [0] is no working.
    pub fn expressions(&self) -> Vec<Worked<'_>> {
        let starts = self.laid.starts.iter();
        starts.zip(self.lines()).flat_map(|(start, line)| expressions(&self.laid, *start, line)).collect()
    }
}

/// The expressions of the line at `start`.
pub fn expressions<'a>(laid: &Laid, start: usize, line: &'a Line) -> Vec<Worked<'a>> {
    let condition = line.condition.iter();
    let mut found: Vec<Worked> =
        condition.map(|(_, tree)| Worked { tree, place: start + HEAD, is_condition: true }).collect();
    let sides: Vec<&Expression> = line.actions.iter().filter_map(right_side).collect();
    let places: Vec<usize> = right_places(laid, start).collect();
    assert_eq!(sides.len(), places.len(), "as many right sides as the tree has");
    let pairs = sides.into_iter().zip(places);
    found.extend(pairs.map(|(tree, place)| Worked { tree, place, is_condition: false }));
    found.retain(|worked| !matches!(worked.tree, Expression::Variable(variable) if variable.is_removal()));
    found
}

fn right_side(action: &Action) -> Option<&Expression> {
    match action {
        Action::Assign(_, side) | Action::Move(_, _, side) => Some(side),
        _ => None,
    }
}

/// The places behind each `]=` of the line at `start`.
fn right_places(laid: &Laid, start: usize) -> impl Iterator<Item = usize> + '_ {
    let end = end(laid, start);
    (start + 2..end).filter(|at| laid.set[at - 2] == RIGHT && laid.set[at - 1] == EQUALS)
}

/// The place of the token that ends the line at `start`.
fn end(laid: &Laid, start: usize) -> usize {
    start + laid.set[start..].iter().take_while(|token| **token != 0).count()
}

/// The tokens that write these expressions.
pub fn sizes(expressions: &[Worked]) -> usize {
    expressions.iter().map(|worked| size(worked.tree)).sum()
}

fn size(tree: &Expression) -> usize {
    match tree {
        Expression::Number(_) | Expression::Truth(_) => 1,
        Expression::Variable(_) => 4,
        Expression::Negative(inner) | Expression::Not(inner) => 1 + size(inner),
        Expression::Bracketed(inner) => 2 + size(inner),
        Expression::Series(first, rest) => {
            size(first) + rest.iter().map(|(_, member)| 1 + size(member)).sum::<usize>()
        }
        Expression::Compared(left, _, right) => size(left) + 1 + size(right),
        Expression::Joined(_, members) => members.iter().map(|member| 1 + size(member)).sum::<usize>() - 1,
    }
}
