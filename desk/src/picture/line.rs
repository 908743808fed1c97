//! A plan along one level: pieces between break points, exactly.

use super::slice::{formula, scale, Fixed, Node};
use crate::fraction::Fraction;
use crate::library::Refusal;
use crate::solved::Solved;
use crate::state::State;
use crate::widths::NO_ACTION;

/// An end of a piece, and whether it belongs to the piece.
#[derive(Clone, Debug, PartialEq, Eq)]
pub struct End {
    pub at: Fraction,
    pub closed: bool,
}

/// One action and one formula for the value: slope * level + constant. None has no action, and zeros.
#[derive(Clone, Debug, PartialEq, Eq)]
pub struct Piece {
    pub from: End,
    pub to: End,
    pub action: u32,
    pub slope: Fraction,
    pub constant: Fraction,
}

impl Piece {
    pub fn value(&self, at: &Fraction) -> Fraction {
        &(&self.slope * at) + &self.constant
    }

    pub fn words(&self, level: usize) -> String {
        let sign = |end: &End| if end.closed { "<=" } else { "<" };
        if self.from.at == self.to.at {
            return format!("L{} = {}", level + 1, self.from.at);
        }
        format!("{} {} L{} {} {}", self.from.at, sign(&self.from), level + 1, sign(&self.to), self.to.at)
    }

    pub fn is_none(&self) -> bool {
        self.action == NO_ACTION
    }

    pub fn formula(&self, level: usize) -> String {
        if self.is_none() {
            return "none".to_string();
        }
        formula(&[(&self.slope, level)], &self.constant)
    }

    /// The ends that belong to it, and two points within.
    fn points(&self) -> Vec<Fraction> {
        let ends = [&self.from, &self.to].into_iter().filter(|end| end.closed).map(|end| end.at.clone());
        let third = &(&self.to.at - &self.from.at) / &Fraction::from(3);
        ends.chain([&self.from.at + &third, &self.to.at - &third]).collect()
    }

    fn same(&self, other: &Piece) -> bool {
        (self.action, &self.slope, &self.constant) == (other.action, &other.slope, &other.constant)
    }
}

/// A stage of a plan along a level.
pub struct Line {
    pub level: usize,
    pub steps: usize,
    /// From left to right, each beginning where the one before ends.
    pub pieces: Vec<Piece>,
}

fn empty(from: &End, to: &End) -> bool {
    from.at > to.at || (from.at == to.at && !(from.closed && to.closed))
}

struct Walk<'a> {
    solved: &'a Solved<'a>,
    fixed: &'a Fixed,
    level: usize,
    scale: Fraction,
    pieces: Vec<Piece>,
}

impl Walk<'_> {
    fn down(&mut self, node: u32, from: End, to: End) {
        if empty(&from, &to) {
            return;
        }
        match self.fixed.node(self.solved, node) {
            Node::Decided(branch) => self.down(branch, from, to),
            Node::Leaf { action, words } => {
                let ([slope], constant) = self.fixed.linear(words, [self.level]);
                let (slope, constant) = (&slope / &self.scale, &constant / &self.scale);
                self.push(Piece { from, to, action, slope, constant });
            }
            Node::Test { words, high, low } => {
                let ([slope], constant) = self.fixed.linear(words, [self.level]);
                self.split(slope, constant, [high, low], from, to);
            }
        }
    }

    /// The test slope * level + constant <= 0: equality is on the high side.
    fn split(&mut self, slope: Fraction, constant: Fraction, [high, low]: [u32; 2], from: End, to: End) {
        if slope.is_zero() {
            let holds = constant.is_zero() || constant.is_negative();
            return self.down(if holds { high } else { low }, from, to);
        }
        let at = -&(&constant / &slope);
        let (left, right, left_closed) = if slope.is_negative() { (low, high, false) } else { (high, low, true) };
        let left_end = End { at: at.clone(), closed: left_closed };
        let right_end = End { at, closed: !left_closed };
        let inner = |a: &End, b: &End, larger: bool| match a.at.cmp(&b.at) {
            std::cmp::Ordering::Equal => End { at: a.at.clone(), closed: a.closed && b.closed },
            order if (order == std::cmp::Ordering::Greater) == larger => a.clone(),
            _ => b.clone(),
        };
        self.down(left, from.clone(), inner(&to, &left_end, false));
        self.down(right, inner(&from, &right_end, true), to);
    }

    /// A piece that goes on as the one before is one with it.
    fn push(&mut self, piece: Piece) {
        match self.pieces.last_mut() {
            Some(last) if last.same(&piece) => last.to = piece.to,
            _ => self.pieces.push(piece),
        }
    }
}

impl Line {
    pub fn cut(solved: &Solved, fixed: &Fixed, level: usize, steps: usize, range: &(Fraction, Fraction)) -> Line {
        let mut walk = Walk { solved, fixed, level, scale: scale(solved, steps), pieces: Vec::new() };
        let end = |at: &Fraction| End { at: at.clone(), closed: true };
        walk.down(solved.stages[steps - 1], end(&range.0), end(&range.1));
        Line { level, steps, pieces: walk.pieces }
    }

    /// Where one piece ends and the next begins.
    pub fn breaks(&self) -> impl Iterator<Item = &Fraction> {
        self.pieces.iter().skip(1).map(|piece| &piece.from.at)
    }

    /// Holds each end that belongs to a piece, and two points within, to the value and the action that the library reads there:
    /// two points settle a formula. Gives how many were compared and how many are too fine to be a state.
    pub fn read_back(&self, solved: &Solved, fixed: &Fixed) -> Result<(usize, usize), String> {
        let (mut compared, mut too_fine) = (0, 0);
        let apart = |pair: &&[Piece]| pair[0].to.at != pair[1].from.at || pair[0].to.closed == pair[1].from.closed;
        if let Some(pair) = self.pieces.windows(2).find(apart) {
            return Err(format!("the drawing has a gap or an overlap at {}", pair[1].from.at));
        }
        for piece in &self.pieces {
            for at in piece.points() {
                let Some(state) = State::at(fixed.mask, &fixed.at([self.level], [&at])) else {
                    too_fine += 1;
                    continue;
                };
                compare(solved.value(self.steps, &state), piece, &at)?;
                compared += 1;
            }
        }
        Ok((compared, too_fine))
    }
}

fn compare(read: Result<(Fraction, u32), Refusal>, piece: &Piece, at: &Fraction) -> Result<(), String> {
    match read {
        Ok((value, action)) if value == piece.value(at) && action == piece.action => Ok(()),
        Ok((value, action)) => {
            let drawn = format!("{} with action {}", piece.value(at), piece.action);
            Err(format!("at {at} the drawing has {drawn}, the tables {value} with action {action}"))
        }
        Err(refused) => Err(format!("at {at} the value is refused with {}", refused.number)),
    }
}
