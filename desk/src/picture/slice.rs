//! What a plan says where some levels are fixed and the others are free: the tables' tests and leaves as linears in the free
//! levels.

use crate::fraction::Fraction;
use crate::solved::Solved;
use crate::whole::Whole;
use crate::widths::*;
use crate::words::{sum, Term};

/// A setting of the conditions and all levels; those of the free levels are not looked at.
#[derive(Clone)]
pub struct Fixed {
    pub mask: u32,
    pub levels: [Fraction; LEVELS],
}

/// A node of the tables, as the setting leaves it.
pub enum Node<'a> {
    Leaf {
        action: u32,
        words: &'a [i64],
    },
    /// The condition decides.
    Decided(u32),
    Test {
        words: &'a [i64],
        high: u32,
        low: u32,
    },
}

impl Fixed {
    pub fn node<'a>(&self, solved: &'a Solved, number: u32) -> Node<'a> {
        let words = &solved.nodes[NODE_WORDS * (number as usize - 1)..][..NODE_WORDS];
        let (high, low) = (words[HIGH] as u32, words[LOW] as u32);
        match words[KIND] {
            // None has zeros alone, and so `NO_ACTION`.
            kind::LEAF | kind::NONE => Node::Leaf { action: high, words },
            kind::CONDITION if self.mask >> (words[COEFFICIENTS] - 1) & 1 == 1 => Node::Decided(high),
            kind::CONDITION => Node::Decided(low),
            _ => Node::Test { words, high, low },
        }
    }

    /// The linear of a node: its coefficients of the free levels, and what the fixed ones make of the rest.
    pub fn linear<const N: usize>(&self, words: &[i64], free: [usize; N]) -> ([Fraction; N], Fraction) {
        let fixed = (0..LEVELS).filter(|level| !free.contains(level));
        let rest = fixed.fold(Fraction::from(words[CONSTANT]), |sum, level| match words[COEFFICIENTS + level] {
            0 => sum,
            coefficient => &sum + &(&Fraction::from(coefficient) * &self.levels[level]),
        });
        (free.map(|level| Fraction::from(words[COEFFICIENTS + level])), rest)
    }

    /// The levels with the free ones at a point.
    pub fn at<const N: usize>(&self, free: [usize; N], point: [&Fraction; N]) -> [Fraction; LEVELS] {
        let mut levels = self.levels.clone();
        for (level, at) in free.into_iter().zip(point) {
            levels[level] = at.clone();
        }
        levels
    }
}

/// A stage's value is a leaf divided by this.
pub fn scale(solved: &Solved, steps: usize) -> Fraction {
    Fraction::new(solved.scale(steps), Whole::from(1u128))
}

/// A value's formula: `1/2*L1 - 3`.
pub fn formula(terms: &[(&Fraction, usize)], constant: &Fraction) -> String {
    let levels = terms.iter().map(|(number, level)| (*number, Some(*level)));
    let numbers = levels.chain([(constant, None)]).filter(|(number, _)| !number.is_zero());
    let term = |(number, level): (&Fraction, _)| Term { negative: number.is_negative(), size: size(number), level };
    sum(&numbers.map(term).collect::<Vec<Term>>())
}

fn size(number: &Fraction) -> String {
    if number.is_negative() { -number } else { number.clone() }.to_string()
}
