//! Two sites that share nothing, one total (K14 of document 02): by reading both, and by working the joined site out pair by
//! pair.

use crate::model::{open, Model, NoTrees, Refusal};
use crate::plain::{chances, end_worth, next_state, reward, weight};
use crate::read::{value, Reading};
use crate::State;

/// A total's answer: both actions, and the numerator in two words.
#[derive(Clone, Copy, Debug, Default, PartialEq, Eq)]
pub struct Total {
    pub number: u32,
    pub place: u32,
    pub actions: [u32; 2],
    pub low: u64,
    pub high: i64,
}

impl Total {
    pub fn new(numerator: i128, actions: [u32; 2]) -> Total {
        Total { actions, low: numerator as u64, high: (numerator >> 64) as i64, ..Total::default() }
    }

    fn refused(number: u32, place: u32) -> Total {
        Total { number, place, ..Total::default() }
    }
}

/// A model with its tables, and a state of it.
#[derive(Clone, Copy, Debug)]
pub struct Side<'a> {
    pub model: &'a [u8],
    pub nodes: &'a [i64],
    pub stages: &'a [u32],
    pub state: State,
}

impl Side<'_> {
    fn read(&self, steps: u32) -> Result<Reading, Total> {
        let reading = value(self.model, self.nodes, self.stages, steps, self.state);
        if reading.number == 0 {
            Ok(reading)
        } else {
            Err(Total::refused(reading.number, reading.place))
        }
    }
}

/// All of the first's refusals, then the second's, 26, none, 11 (K14.1, K14.3).
pub fn total(first: Side, second: Side, steps: u32) -> Total {
    try_total(first, second, steps).unwrap_or_else(|refused| refused)
}

fn try_total(first: Side, second: Side, steps: u32) -> Result<Total, Total> {
    let readings = [first.read(steps)?, second.read(steps)?];
    let sites = [first, second].map(|side| open::<NoTrees>(side.model, None, None).map(|model| model.site));
    let [Ok(one), Ok(two)] = sites else { unreachable!("both were read") };
    if one.w != two.w || first.state.d != second.state.d {
        return Err(Total::refused(26, 0));
    }
    let actions = readings.map(|reading| reading.action);
    if actions.contains(&0) {
        return Ok(Total::default());
    }
    let [x, y] = readings.map(|reading| i128::from(reading.high) << 64 | i128::from(reading.low));
    let powers = [two.n, one.n].map(|n| n as u32 * steps);
    let product = |numerator, power| (0..power).fold(Long::from(numerator), |z, _| z.times(one.w as u32));
    let sum = product(x, powers[0]).plus(product(y, powers[1]));
    sum.narrow().map_or(Err(Total::refused(11, 0)), |numerator| Ok(Total::new(numerator, actions)))
}

/// A whole number by two's complement, long enough for 2¹²⁸ × 100³².
#[derive(Clone, Copy, PartialEq, Eq)]
struct Long([u32; 12]);

impl Long {
    fn from(number: i128) -> Long {
        Long(std::array::from_fn(|i| (number >> (32 * i).min(127)) as u32))
    }

    fn times(self, w: u32) -> Long {
        let mut carried = 0;
        Long(self.0.map(|digit| {
            carried += u64::from(digit) * u64::from(w);
            let low = carried as u32;
            carried >>= 32;
            low
        }))
    }

    fn plus(self, other: Long) -> Long {
        let mut carried = 0;
        Long(std::array::from_fn(|i| {
            carried += u64::from(self.0[i]) + u64::from(other.0[i]);
            let low = carried as u32;
            carried >>= 32;
            low
        }))
    }

    /// The number, if it lies in two words.
    fn narrow(self) -> Option<i128> {
        let number = (0..4).rev().fold(0, |sum: i128, i| sum << 32 | i128::from(self.0[i]));
        (Long::from(number) == self).then_some(number)
    }
}

/// The joined site, worked out plainly over all pairs of actions and of settings (K14.5): its best total's numerator over
/// D × W^((n₁+n₂)×h), nothing where it is none. For states at which plain working of both sites leaves no limits.
pub fn joined(first: (&[u8], State), second: (&[u8], State), steps: u32) -> Result<Option<i128>, Refusal> {
    let models = [open(first.0, None, Some(steps))?, open(second.0, None, Some(steps))?];
    Ok(of_pair(&models, steps, &[first.1, second.1]))
}

fn of_pair(models: &[Model; 2], h: u32, states: &[State; 2]) -> Option<i128> {
    if h == 0 {
        return Some(end_worth(&models[0], &states[0]) + end_worth(&models[1], &states[1]));
    }
    let pairs = (0..models[0].site.a).flat_map(|a| (0..models[1].site.a).map(move |b| [a, b]));
    pairs.filter_map(|pair| of_actions(models, h, pair, states)).max()
}

fn of_actions(models: &[Model; 2], h: u32, pair: [usize; 2], states: &[State; 2]) -> Option<i128> {
    let [one, two] = models;
    let earned = reward(one, pair[0], &states[0])? + reward(two, pair[1], &states[1])?;
    let mut sum = i128::from(one.site.w).pow((one.site.n + two.site.n) as u32 * h) * earned;
    let drawn = [chances(one, pair[0], &states[0]), chances(two, pair[1], &states[1])];
    for (s, r) in (0..1u32 << one.site.n).flat_map(|s| (0..1u32 << two.site.n).map(move |r| (s, r))) {
        let weight = weight(one, &drawn[0], s) * weight(two, &drawn[1], r);
        if weight != 0 {
            let next = [next_state(one, pair[0], &states[0], s)?, next_state(two, pair[1], &states[1], r)?];
            sum += i128::from(weight) * of_pair(models, h - 1, &next)?;
        }
    }
    Some(sum)
}
