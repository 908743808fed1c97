//! Whether some state takes all sides of a path's tests, by exact linear programming: a point that does, or multipliers that
//! show that none can.
//!
//! A high side reads p <= 0, a low side -p < 0. Multipliers of zero or more show that no state takes them all exactly when the
//! sum has no coefficients, its constant c is zero or more, and c and the multipliers of low sides are not all zero. Scaled so
//! that these come to 1, they are the solutions of
//!
//!     sum of +-coefficient * multiplier = 0, for each level
//!     sum of +-constant * multiplier - c = 0
//!     sum of the low sides' multipliers + c = 1
//!
//! in numbers of zero or more, and the simplex method finds one. Where there is none its prices are a point: with those of
//! the levels divided by that of the constant, every high side is at most zero and every low side below it.

use crate::fraction::Fraction;
use crate::whole::Whole;
use crate::widths::LEVELS;
use std::collections::HashMap;

/// The coefficients of a test, and its constant.
pub type Linear = [i64; LEVELS + 1];

/// A side of a linear test that a path takes.
#[derive(Clone, Debug, PartialEq, Eq)]
pub struct Side {
    pub is_high: bool,
    pub linear: Linear,
}

pub type Point = [Fraction; LEVELS];

#[derive(Clone, Debug, PartialEq, Eq)]
pub enum Judged {
    /// These levels take all sides.
    Taken(Point),
    /// No levels do: a multiplier for each side, the smallest whole numbers of their ratio.
    Impossible(Vec<Whole>),
}

/// Whether levels take the high side.
pub fn is_high_at(linear: &Linear, point: &Point) -> bool {
    let levels = linear.iter().zip(point).filter(|(&number, _)| number != 0);
    let sum =
        levels.fold(Fraction::from(linear[LEVELS]), |sum, (&number, level)| &sum + &(&Fraction::from(number) * level));
    sum.is_negative() || sum.is_zero()
}

/// The simplex method's table: the rows of the equations, their right sides last, over the columns of the sides, of c, and
/// of an artificial number for each row, which the rows begin with.
struct Table {
    rows: Vec<Vec<Fraction>>,
    /// The column that each row is solved for.
    basis: Vec<usize>,
    /// What the sum of the artificial numbers changes by, for each column; its size, below zero, last.
    costs: Vec<Fraction>,
    real: usize,
}

impl Table {
    fn new(sides: &[&Side], levels: &[usize]) -> Table {
        let (count, real) = (levels.len() + 2, sides.len() + 1);
        let sign = |side: &Side| if side.is_high { 1 } else { -1 };
        let row = |number: &dyn Fn(&Side) -> i64, of_constant: i64, place: usize| -> Vec<Fraction> {
            let artificial = (0..count).map(|other| i64::from(other == place));
            let numbers = sides.iter().map(|side| number(side)).chain([of_constant]).chain(artificial);
            numbers.chain([i64::from(place + 1 == count)]).map(Fraction::from).collect()
        };
        let mut rows: Vec<Vec<Fraction>> = Vec::with_capacity(count);
        for (place, &level) in levels.iter().enumerate() {
            rows.push(row(&|side| sign(side) * side.linear[level], 0, place));
        }
        rows.push(row(&|side| sign(side) * side.linear[LEVELS], -1, count - 2));
        rows.push(row(&|side| i64::from(!side.is_high), 1, count - 1));
        let total = |column: usize| rows.iter().fold(Fraction::from(0), |sum, row| &sum - &row[column]);
        let costs = (0..rows[0].len()).map(|column| match column {
            artificial if (real..real + count).contains(&artificial) => Fraction::from(0),
            column => total(column),
        });
        let costs = costs.collect();
        Table { rows, basis: (real..real + count).collect(), costs, real }
    }

    /// Solves the row for the column.
    fn pivot(&mut self, row: usize, column: usize) {
        let by = self.rows[row][column].clone();
        let solved: Vec<Fraction> = self.rows[row].iter().map(|number| number / &by).collect();
        let less = |line: &mut Vec<Fraction>| {
            let times = line[column].clone();
            if !times.is_zero() {
                let pairs = line.iter_mut().zip(&solved).filter(|(_, other)| !other.is_zero());
                pairs.for_each(|(number, other)| *number = &*number - &(&times * other));
            }
        };
        let others = self.rows.iter_mut().enumerate().filter(|(place, _)| *place != row).map(|(_, line)| line);
        others.chain([&mut self.costs]).for_each(less);
        self.rows[row] = solved;
        self.basis[row] = column;
    }

    /// The row that allows least of a column; of equals the one solved for the first column, so that there is an end.
    fn leaving(&self, column: usize) -> Option<usize> {
        let last = self.costs.len() - 1;
        let allowed = |&row: &usize| !self.rows[row][column].is_negative() && !self.rows[row][column].is_zero();
        let rows = (0..self.rows.len()).filter(allowed);
        rows.min_by_key(|&row| (&self.rows[row][last] / &self.rows[row][column], self.basis[row]))
    }

    /// Until no column makes the artificial numbers less; nothing where the time is up before.
    fn solve(&mut self, in_time: &dyn Fn() -> bool) -> Option<()> {
        while in_time() {
            let Some(column) = (0..self.real).find(|&column| self.costs[column].is_negative()) else { return Some(()) };
            let row = self.leaving(column).expect("the artificial numbers are not below zero");
            self.pivot(row, column);
        }
        None
    }

    /// The numbers of the sides' columns.
    fn multipliers(&self) -> Vec<Fraction> {
        let mut numbers = vec![Fraction::from(0); self.real];
        for (row, &column) in self.rows.iter().zip(&self.basis).filter(|(_, &column)| column < self.real) {
            numbers[column] = row[row.len() - 1].clone();
        }
        numbers.truncate(self.real - 1);
        numbers
    }

    /// A row's price: an artificial number costs 1 less its price.
    fn price(&self, row: usize) -> Fraction {
        &Fraction::from(1) - &self.costs[self.real + row]
    }
}

/// Fractions as the smallest whole numbers of their ratio.
fn whole(fractions: &[Fraction]) -> Vec<Whole> {
    let mut common = Whole::from(1u128);
    for fraction in fractions {
        let shared = common.common_divisor(fraction.denominator());
        common = &common * &fraction.denominator().divided(&shared).0;
    }
    let scale = Fraction::new(common, Whole::from(1u128));
    let numbers: Vec<Whole> = fractions.iter().map(|fraction| (fraction * &scale).numerator().clone()).collect();
    let divisor = numbers.iter().fold(Whole::from(0u128), |divisor, number| divisor.common_divisor(number));
    match divisor.is_zero() {
        true => numbers,
        false => numbers.iter().map(|number| number.divided(&divisor).0).collect(),
    }
}

/// Of two parallel sides: p <= 0 is the tighter the larger its constant, p > 0 the smaller.
fn is_tighter(one: &Side, other: &Side) -> bool {
    let (one_constant, other_constant) = (one.linear[LEVELS], other.linear[LEVELS]);
    if one.is_high {
        one_constant > other_constant
    } else {
        one_constant < other_constant
    }
}

/// The places of the sides that count: of parallel ones, which paths are full of, the tightest.
fn tight(sides: &[Side]) -> Vec<usize> {
    let mut places: Vec<usize> = Vec::new();
    let mut known: HashMap<(bool, &[i64]), usize> = HashMap::new();
    for (place, side) in sides.iter().enumerate() {
        let at = *known.entry((side.is_high, &side.linear[..LEVELS])).or_insert(places.len());
        if at == places.len() {
            places.push(place);
        } else if is_tighter(side, &sides[places[at]]) {
            places[at] = place;
        }
    }
    places
}

/// Whether some state takes all sides; nothing where the time is up before that is known.
pub fn judge(sides: &[Side], in_time: &dyn Fn() -> bool) -> Option<Judged> {
    let places = tight(sides);
    let counting: Vec<&Side> = places.iter().map(|&place| &sides[place]).collect();
    let levels: Vec<usize> = (0..LEVELS).filter(|&level| counting.iter().any(|side| side.linear[level] != 0)).collect();
    let mut table = Table::new(&counting, &levels);
    table.solve(in_time)?;
    if table.costs[table.costs.len() - 1].is_zero() {
        let mut multipliers = vec![Whole::from(0u128); sides.len()];
        for (place, number) in places.into_iter().zip(whole(&table.multipliers())) {
            multipliers[place] = number;
        }
        return Some(Judged::Impossible(multipliers));
    }
    let constant = table.price(levels.len());
    let mut point = std::array::from_fn(|_| Fraction::from(0));
    for (row, &level) in levels.iter().enumerate() {
        point[level] = &table.price(row) / &constant;
    }
    Some(Judged::Taken(point))
}

/// The levels that a side has a say in, a bit for each.
fn levels_of(side: &Side) -> u32 {
    (0..LEVELS).filter(|&level| side.linear[level] != 0).fold(0, |levels, level| levels | 1 << level)
}

/// Whether some state takes all sides, where the point takes all but the last one. Only sides that hang together with the
/// last one, by levels that they share, decide it; the point's other levels stay.
pub fn judge_last(sides: &[Side], point: &Point, in_time: &dyn Fn() -> bool) -> Option<Judged> {
    let mut levels = levels_of(sides.last()?);
    loop {
        let together = sides.iter().map(levels_of).filter(|of_side| of_side & levels != 0);
        match together.fold(levels, |levels, of_side| levels | of_side) {
            more if more == levels => break,
            more => levels = more,
        }
    }
    let decides = |&place: &usize| place + 1 == sides.len() || levels_of(&sides[place]) & levels != 0;
    let places: Vec<usize> = (0..sides.len()).filter(decides).collect();
    let deciding: Vec<Side> = places.iter().map(|&place| sides[place].clone()).collect();
    Some(match judge(&deciding, in_time)? {
        Judged::Taken(there) => Judged::Taken(std::array::from_fn(|level| {
            let taken = if levels & 1 << level != 0 { &there } else { point };
            taken[level].clone()
        })),
        Judged::Impossible(few) => {
            let mut multipliers = vec![Whole::from(0u128); sides.len()];
            places.into_iter().zip(few).for_each(|(place, number)| multipliers[place] = number);
            Judged::Impossible(multipliers)
        }
    })
}

#[cfg(test)]
mod tests {
    use super::*;

    fn side(is_high: bool, levels: &[i64], constant: i64) -> Side {
        let mut linear = [0; LEVELS + 1];
        linear[..levels.len()].copy_from_slice(levels);
        linear[LEVELS] = constant;
        Side { is_high, linear }
    }

    fn hold(sides: &[Side]) -> Judged {
        let judged = judge(sides, &|| true).expect("there is time");
        holds(sides, &judged);
        judged
    }

    /// A point is taken by every side; multipliers are not below zero, and what they add up to is what no state is.
    fn holds(sides: &[Side], judged: &Judged) {
        match judged {
            Judged::Taken(point) => {
                assert!(
                    sides.iter().all(|side| is_high_at(&side.linear, point) == side.is_high),
                    "{sides:?} {point:?}"
                );
            }
            Judged::Impossible(multipliers) => {
                assert!(multipliers.iter().all(|number| !number.is_negative()));
                let sum = |place: usize| {
                    sides.iter().zip(multipliers).fold(Whole::from(0u128), |sum, (side, number)| {
                        let term = &Whole::from(side.linear[place]) * number;
                        if side.is_high {
                            &sum + &term
                        } else {
                            &sum - &term
                        }
                    })
                };
                let is_strict = sides.iter().zip(multipliers).any(|(side, number)| !side.is_high && !number.is_zero());
                assert!((0..LEVELS).all(|level| sum(level).is_zero()), "{sides:?} {multipliers:?}");
                assert!(
                    !sum(LEVELS).is_negative() && (is_strict || !sum(LEVELS).is_zero()),
                    "{sides:?} {multipliers:?}"
                );
            }
        }
    }

    fn impossible(sides: &[Side], multipliers: &[i64]) {
        let multipliers = multipliers.iter().map(|&number| Whole::from(number)).collect();
        assert_eq!(hold(sides), Judged::Impossible(multipliers), "{sides:?}");
    }

    fn taken(sides: &[Side]) {
        assert!(matches!(hold(sides), Judged::Taken(_)), "{sides:?}");
    }

    #[test]
    fn few_sides() {
        taken(&[]);
        taken(&[side(true, &[1], 0), side(true, &[-1], 0)]);
        taken(&[side(true, &[2, 3], 5), side(false, &[1, -1], 5)]);
        impossible(&[side(true, &[1], 0), side(false, &[1], 0)], &[1, 1]);
        impossible(&[side(true, &[1], 0), side(true, &[-1], 1)], &[1, 1]);
        impossible(&[side(true, &[1], 0), side(false, &[3, 1], 7), side(false, &[2], 0)], &[2, 0, 1]);
        impossible(&[side(true, &[0, 1], 0), side(true, &[1], 0), side(false, &[1, 1], 0)], &[1, 1, 1]);
        impossible(&[side(false, &[0, 1], 0), side(false, &[1], 0), side(true, &[1, 1], 0)], &[1, 1, 1]);
        taken(&[side(true, &[0, 1], 0), side(true, &[1], 0), side(true, &[1, 1], 0)]);
        // Of parallel sides the tightest counts.
        impossible(
            &[side(true, &[1], 0), side(true, &[1], 2), side(false, &[1], 3), side(false, &[1], 1)],
            &[0, 1, 0, 1],
        );
        taken(&[side(true, &[1], -1), side(true, &[1], -3), side(false, &[1], 0), side(false, &[1], 5)]);
        // Without coefficients, as no solve leaves them.
        impossible(&[side(true, &[], 1)], &[1]);
        impossible(&[side(false, &[], 0)], &[1]);
        taken(&[side(true, &[], 0), side(false, &[], 1)]);
    }

    /// Nothing is said of sides that there was no time for.
    #[test]
    fn no_time() {
        assert_eq!(judge(&[side(true, &[1], 0), side(false, &[1], 0)], &|| false), None);
    }

    /// The smallest multipliers may be beyond 32 bits.
    #[test]
    fn large_multipliers() {
        let (limit, half) = ((1i64 << 62) - 1, 1i64 << 61);
        let sides = [side(true, &[limit, 1], 0), side(true, &[-half, 0], 1), side(true, &[0, -1], 0)];
        let Judged::Impossible(multipliers) = hold(&sides) else { panic!("taken") };
        assert_eq!(multipliers, [half, limit, half].map(Whole::from));
        assert_eq!(multipliers[0].to_i32(), None);
    }

    /// Every answer holds by itself; both come up, also where equality decides.
    #[test]
    fn random_sides() {
        let mut word = 1u64;
        let mut below = |count: u64| {
            word = word.wrapping_mul(6364136223846793005).wrapping_add(1442695040888963407);
            (word >> 33) % count
        };
        let mut counts = [0; 2];
        for round in 0..3_000 {
            let (levels, size) = (1 + below(3) as usize, [2, 3, 10, 1 << 40][round % 4]);
            let count = 1 + below(7);
            let mut number = || below(2 * size + 1) as i64 - size as i64;
            let sides: Vec<Side> = (0..count)
                .map(|i| {
                    side((i + round as u64) % 3 > 0, &(0..levels).map(|_| number()).collect::<Vec<_>>(), number() % 3)
                })
                .collect();
            counts[usize::from(matches!(hold(&sides), Judged::Taken(_)))] += 1;
        }
        assert!(counts.iter().all(|&count| count > 500), "{counts:?}");
    }

    /// Side after side, with a point that takes those before: the same answer as all sides together have.
    #[test]
    fn one_more_side() {
        let mut word = 7u64;
        let mut below = |count: u64| {
            word = word.wrapping_mul(6364136223846793005).wrapping_add(1442695040888963407);
            (word >> 33) % count
        };
        let (mut taken, mut impossible) = (0, 0);
        for _ in 0..1_000 {
            let (mut sides, mut point): (Vec<Side>, Point) = (Vec::new(), std::array::from_fn(|_| Fraction::from(0)));
            loop {
                let mut levels = [0; 4];
                (0..1 + below(2)).for_each(|_| levels[below(4) as usize] = below(5) as i64 - 2);
                let linear = side(true, &levels, below(7) as i64 - 3).linear;
                sides.push(Side { is_high: !is_high_at(&linear, &point), linear });
                let judged = judge_last(&sides, &point, &|| true).expect("there is time");
                holds(&sides, &judged);
                match (judged, judge(&sides, &|| true).expect("there is time")) {
                    (Judged::Taken(there), Judged::Taken(_)) => point = there,
                    (Judged::Impossible(_), Judged::Impossible(_)) => break impossible += 1,
                    (one, other) => panic!("{sides:?}: {one:?}, {other:?}"),
                }
                taken += 1;
            }
        }
        assert!(taken > 500 && impossible > 500, "{taken} {impossible}");
    }
}
