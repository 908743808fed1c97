//! Multipliers that show that no state takes a path, for the tests of K10: by Fourier–Motzkin elimination, which ends with
//! some wherever there are any, unless the path is too long for it.

use crate::prune::Step;
use crate::widths::{CONSTANT, LEVELS, NUMBERS};

/// A sum of a path's sides: at most 0, or below it where that is strict.
#[derive(Clone)]
struct Sum {
    numbers: [i128; NUMBERS],
    is_strict: bool,
    multipliers: Vec<i128>,
}

/// Pairs that one level is eliminated with, at most.
const PAIRS_MOST: usize = 20_000;

impl Sum {
    /// One side alone.
    fn of(place: usize, count: usize, is_high: bool, test: [i64; NUMBERS]) -> Sum {
        let mut multipliers = vec![0; count];
        multipliers[place] = 1;
        let sign = if is_high { 1 } else { -1 };
        Sum { numbers: test.map(|number| sign * i128::from(number)), is_strict: !is_high, multipliers }
    }

    /// The sum of multiples in which the level's coefficients cancel, one being above zero and the other below; nothing
    /// where a number gets too large.
    fn without(&self, level: usize, other: &Sum) -> Option<Sum> {
        let (by, other_by) = (other.numbers[level].checked_neg()?, self.numbers[level]);
        let both = |(x, y): (i128, i128)| x.checked_mul(by)?.checked_add(y.checked_mul(other_by)?);
        let pairs = self.multipliers.iter().copied().zip(other.multipliers.iter().copied());
        let multipliers: Vec<i128> = pairs.map(both).collect::<Option<_>>()?;
        let mut numbers = [0; NUMBERS];
        for (number, pair) in numbers.iter_mut().zip(self.numbers.into_iter().zip(other.numbers)) {
            *number = both(pair)?;
        }
        // The numbers are sums of multiples, and so divided by what divides every multiplier.
        let divisor = multipliers.iter().fold(0, |divisor, &x| common_divisor(divisor, x)).max(1);
        Some(Sum {
            numbers: numbers.map(|number| number / divisor),
            is_strict: self.is_strict || other.is_strict,
            multipliers: multipliers.into_iter().map(|multiplier| multiplier / divisor).collect(),
        })
    }

    fn used(&self) -> usize {
        self.multipliers.iter().filter(|&&multiplier| multiplier != 0).count()
    }

    /// No state is so, once all coefficients are gone.
    fn is_contradiction(&self) -> bool {
        self.numbers[CONSTANT] > 0 || self.numbers[CONSTANT] == 0 && self.is_strict
    }
}

fn common_divisor(mut x: i128, mut y: i128) -> i128 {
    while y != 0 {
        (x, y) = (y, x % y);
    }
    x.abs()
}

/// Sums without the level: those that have none of it, and pairs of the others. After so many levels a sum of more sides
/// than these and one more follows from others, and is left out.
fn eliminated(sums: &[Sum], level: usize) -> Option<Vec<Sum>> {
    let of = |sign: i128| -> Vec<&Sum> { sums.iter().filter(|sum| sum.numbers[level].signum() == sign).collect() };
    let (above, below) = (of(1), of(-1));
    if above.len() * below.len() > PAIRS_MOST {
        return None;
    }
    let mut left: Vec<Sum> = of(0).into_iter().cloned().collect();
    for one in &above {
        for other in &below {
            let sum = one.without(level, other)?;
            if sum.used() <= level + 2 {
                left.push(sum);
            }
        }
    }
    Some(left)
}

/// Ways to show that no state takes the path, those of fewest sides first: a multiplier for each test, whole numbers without
/// a common divisor. There are none where some state takes it, as far as tests go; nothing is said of a path that is too
/// long or has too large numbers.
pub fn found(steps: &[Step]) -> Option<Vec<Vec<i128>>> {
    let tests: Vec<_> = steps.iter().filter_map(|step| Some((step.is_high, step.test?))).collect();
    let side = |(place, &(is_high, test))| Sum::of(place, tests.len(), is_high, test);
    let mut sums: Vec<Sum> = tests.iter().enumerate().map(side).collect();
    for level in 0..LEVELS {
        sums = eliminated(&sums, level)?;
    }
    sums.retain(Sum::is_contradiction);
    sums.sort_by_key(|sum| (sum.used(), sum.multipliers.iter().sum::<i128>()));
    Some(sums.into_iter().map(|sum| sum.multipliers).collect())
}

/// Those of 32 bits.
pub fn multipliers(steps: &[Step]) -> Vec<Vec<i32>> {
    let narrow = |multipliers: Vec<i128>| multipliers.into_iter().map(|number| i32::try_from(number).ok()).collect();
    found(steps).unwrap_or_default().into_iter().filter_map(narrow).collect()
}
