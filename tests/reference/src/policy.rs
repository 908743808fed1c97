//! What a policy comes to from a state and what it loses (K11), by going through all that may happen, course by course. All
//! numbers are times D × W^(n×h), and exact.

use crate::model::{open, Model, Refusal};
use crate::plain::{chances, evaluate, leaf, next_state, weight, worth_of_action, worth_of_state, Without};
use crate::solve::power;
use crate::{at, State};

/// Which sum is worked out: the one that is asked for, or a wrong one, which tests have to tell from it.
#[derive(Clone, Copy, Debug, PartialEq, Eq)]
pub enum Sum {
    /// What the actions fall short of the best, the best following.
    Asked,
    /// Against what the policy itself comes to.
    OwnTotals,
    /// With the next states of weight 0, as if it were 1.
    WeightZero,
}

/// What a policy that has a total comes to.
#[derive(Debug)]
pub struct Course {
    pub total: i128,
    pub lost: i128,
    /// The steps left and the shortfall wherever it gets to with a step left.
    pub shortfalls: Vec<(u32, i128)>,
}

/// An action, from 0, for every number of steps left and state.
pub trait Policy: Fn(u32, &State) -> usize {}
impl<T: Fn(u32, &State) -> usize> Policy for T {}

/// Nothing where the policy has no total. The state is one of a model and a number of steps that plain working accepts.
pub fn course(
    bytes: &[u8],
    steps: u32,
    state: &State,
    policy: &impl Policy,
    sum: Sum,
) -> Result<Option<Course>, Refusal> {
    let model = open(bytes, None, Some(steps))?;
    let walk = Walk { model: &model, policy, sum };
    let mut course = Course { total: 0, lost: 0, shortfalls: Vec::new() };
    let Some(total) = walk.total(steps, state, 1) else { return Ok(None) };
    course.total = total;
    walk.lose(steps, state, 1, &mut course);
    Ok(Some(course))
}

/// W^(n×h), within limits since plain working accepts the steps.
fn scale(model: &Model, h: u32) -> i64 {
    power(model.site.w, model.site.n as u32 * h).expect("a power within limits")
}

struct Walk<'a, P> {
    model: &'a Model,
    policy: &'a P,
    sum: Sum,
}

impl<P: Policy> Walk<'_, P> {
    /// The next states that can come, each with its weight, those of weight 0 too.
    fn ahead<'a>(
        &'a self,
        action: usize,
        state: &'a State,
    ) -> impl Iterator<Item = (i64, Result<State, Without>)> + 'a {
        let chances = chances(self.model, action, state);
        let one = move |setting| {
            (
                weight(self.model, &chances, setting),
                next_state(self.model, action, state, setting).ok_or(Without::Limits),
            )
        };
        (0..1u32 << self.model.site.n).map(one)
    }

    /// The rewards and the end worth of every course, `share` being the product of the weights that lead here. Nothing where
    /// a forbidden action is met.
    fn total(&self, h: u32, state: &State, share: i128) -> Option<i128> {
        if h == 0 {
            return Some(share * self.model.end_worth().map_or(0, |tree| evaluate(self.model, tree, state, 0)));
        }
        let action = (self.policy)(h, state);
        let reward = leaf(self.model, self.model.reward(action), state, 0)?;
        let mut sum = share * i128::from(scale(self.model, h)) * at(reward, &state.nums[..self.model.site.m], state.d);
        for (weight, next) in self.ahead(action, state).filter(|(weight, _)| *weight > 0) {
            sum += self.total(h - 1, &next.expect("levels within 32 bits"), share * i128::from(weight))?;
        }
        Some(sum)
    }

    /// What the policy's action falls short of the best, with so many steps left. Wherever a policy with a total gets to there
    /// is a value, and its action has a worth (K11.2).
    fn shortfall(&self, h: u32, state: &State) -> i128 {
        let (best, _) = worth_of_state(self.model, h, state).expect("a value");
        if self.sum == Sum::OwnTotals {
            return best - self.total(h, state, 1).expect("a total");
        }
        let action = (self.policy)(h, state);
        best - worth_of_action(self.model, h, action, state, scale(self.model, h)).expect("a worth")
    }

    /// The shortfalls of every course, each times the product of the weights that lead there.
    fn lose(&self, h: u32, state: &State, share: i128, course: &mut Course) {
        if h == 0 {
            return;
        }
        let short = self.shortfall(h, state);
        course.lost += share * short;
        course.shortfalls.push((h, short));
        for (weight, next) in self.ahead((self.policy)(h, state), state) {
            match next {
                Ok(next) if weight > 0 => self.lose(h - 1, &next, share * i128::from(weight), course),
                Ok(next) if self.sum == Sum::WeightZero && self.comes_to(h - 1, &next) => {
                    self.lose(h - 1, &next, share, course)
                }
                _ => {}
            }
        }
    }

    /// Has a state that need not be reached a value, and the policy a total from it?
    fn comes_to(&self, h: u32, state: &State) -> bool {
        worth_of_state(self.model, h, state).is_ok() && self.total(h, state, 1).is_some()
    }
}
