//! Plain working: a state worked out from the model as written, without diagrams.

use crate::model::{open, open_as, Model, Refusal, Tree};
use crate::read::Reading;
use crate::solve::power;
use crate::widths::{Old, CONDITIONS, CONSTANT, LEVELS, NUMBERS};
use crate::{at, State, LIMIT};

/// The worth of a state with so many steps left: the words and the action (72).
pub fn worth(bytes: &[u8], steps: u32, state: State) -> Reading {
    open(bytes, None, Some(steps)).and_then(|model| try_worth(model, steps, state)).unwrap_or_else(Reading::refused)
}

/// The same for a model of the old form and 1 to 8 steps.
pub fn worth_old(bytes: &[u8], steps: u32, state: State) -> Reading {
    open_as::<Old, _>(bytes).and_then(|model| try_worth(model, steps, state)).unwrap_or_else(Reading::refused)
}

fn try_worth(model: Model, steps: u32, state: State) -> Result<Reading, Refusal> {
    state.judge(&model.site)?;
    // None reads as number 0 and action 0 (K8.6).
    let (worth, action) = worth_of_state(&model, steps, &state).or_else(|without| match without {
        Without::None => Ok((0, 0)),
        Without::Limits => Refusal::of(11),
    })?;
    Ok(Reading::new(worth, action))
}

/// Why a state or an action has no worth.
#[derive(Debug)]
pub(crate) enum Without {
    /// A number leaves its limits.
    Limits,
    /// No action is permitted on the way (K8.8, K8.9).
    None,
}

/// With no step left it is the end worth, 0 where none is given (K1.5).
pub(crate) fn worth_of_state(model: &Model, h: u32, state: &State) -> Result<(i128, u32), Without> {
    if h == 0 {
        return Ok((judged(end_worth(model, state))?, 0));
    }
    // The first number that an action names, the same for all, also where its reward is forbidden.
    let power = power(model.site.w, model.site.n as u32 * h).ok_or(Without::Limits)?;
    let mut best = None;
    for action in 0..model.site.a {
        match worth_of_action(model, h, action, state, power) {
            Ok(worth) if best.is_none_or(|(most, _)| worth > most) => best = Some((worth, action as u32 + 1)),
            Ok(_) | Err(Without::None) => {}
            Err(Without::Limits) => return Err(Without::Limits),
        }
    }
    best.ok_or(Without::None)
}

/// What each action comes to, none where it has no worth; 11 from any of them.
pub(crate) fn worths(model: &Model, h: u32, state: &State) -> Result<Vec<Option<i128>>, Refusal> {
    let Some(power) = power(model.site.w, model.site.n as u32 * h) else { return Refusal::of(11) };
    let worth = |action| match worth_of_action(model, h, action, state, power) {
        Ok(worth) => Ok(Some(worth)),
        Err(Without::None) => Ok(None),
        Err(Without::Limits) => Refusal::of(11),
    };
    (0..model.site.a).map(worth).collect()
}

fn judged(number: i128) -> Result<i128, Without> {
    if number.abs() <= i128::from(LIMIT) {
        Ok(number)
    } else {
        Err(Without::Limits)
    }
}

/// The steps are those of decision 73, in its order. The first none ends it: what stands behind that is not worked.
pub(crate) fn worth_of_action(
    model: &Model,
    h: u32,
    action: usize,
    state: &State,
    power: i64,
) -> Result<i128, Without> {
    let reward = judged(reward(model, action, state).ok_or(Without::None)?)?;
    let mut sum = judged(i128::from(power) * reward)?;
    let chances = chances(model, action, state);
    for setting in 0..1u32 << model.site.n {
        let weight = weight(model, &chances, setting);
        if weight == 0 {
            continue;
        }
        let next = next_state(model, action, state, setting).ok_or(Without::Limits)?;
        let (worth, _) = worth_of_state(model, h - 1, &next)?;
        sum = judged(sum + judged(i128::from(weight) * worth)?)?;
    }
    Ok(sum)
}

/// With no step left, times D: 0 where no end worth is given.
pub(crate) fn end_worth(model: &Model, state: &State) -> i128 {
    model.end_worth().map_or(0, |tree| evaluate(model, tree, state, 0))
}

/// A reward, times D; nothing where it is forbidden.
#[inline(always)]
pub(crate) fn reward(model: &Model, action: usize, state: &State) -> Option<i128> {
    leaf(model, model.reward(action), state, 0).map(|linear| at(linear, &state.nums[..model.site.m], state.d))
}

/// The weights for yes of an action at a state.
#[inline(always)]
pub(crate) fn chances(model: &Model, action: usize, state: &State) -> [i64; CONDITIONS] {
    let mut chances = [0; CONDITIONS];
    for (yes, &chance) in chances.iter_mut().zip(model.chances(action)) {
        *yes = linear(model, chance, state, 0)[CONSTANT];
    }
    chances
}

/// The next state under an action and a setting of the next conditions, if its numerators have 32 bits.
#[inline(always)]
pub(crate) fn next_state(model: &Model, action: usize, state: &State, setting: u32) -> Option<State> {
    let mut next = State { mask: setting, nums: [0; LEVELS], d: state.d };
    for (num, &level) in next.nums.iter_mut().zip(model.nexts(action)) {
        *num = i32::try_from(evaluate(model, level, state, setting)).ok()?;
    }
    Some(next)
}

/// A setting's weight, of the weights for yes.
#[inline(always)]
pub(crate) fn weight(model: &Model, chances: &[i64; CONDITIONS], setting: u32) -> i64 {
    let one = |(i, &yes): (usize, &i64)| if setting >> i & 1 == 1 { yes } else { model.site.w - yes };
    chances[..model.site.n].iter().enumerate().map(one).product()
}

/// The leaf of a written diagram for a state and a setting of the next conditions; nothing where it is forbidden.
#[inline(always)]
pub(crate) fn leaf<'a>(model: &'a Model, mut tree: u32, state: &State, setting: u32) -> Option<&'a [i64; NUMBERS]> {
    let nums = &state.nums[..model.site.m];
    loop {
        let (holds, high, low) = match &model.trees[tree as usize] {
            Tree::Leaf(linear) => return Some(linear),
            Tree::Forbidden => return None,
            Tree::Condition { number, high, low } => {
                let bits = state.mask | setting << CONDITIONS;
                (bits >> (number - 1) & 1 == 1, high, low)
            }
            Tree::Test { linear, high, low } => (at(linear, nums, state.d) <= 0, high, low),
        };
        tree = *if holds { high } else { low };
    }
}

/// That of a chance, a next level or an end worth, which has no forbidden one.
#[inline(always)]
fn linear<'a>(model: &'a Model, tree: u32, state: &State, setting: u32) -> &'a [i64; NUMBERS] {
    leaf(model, tree, state, setting).expect("forbidden leaves stand in rewards only")
}

/// Its value, times D.
#[inline(always)]
pub(crate) fn evaluate(model: &Model, tree: u32, state: &State, setting: u32) -> i128 {
    at(linear(model, tree, state, setting), &state.nums[..model.site.m], state.d)
}
