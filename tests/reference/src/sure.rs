//! Whether the plan's action stays best where rewards move a little (K12).

use crate::model::{open, Model, Refusal};
use crate::plain::worths;
use crate::solve::power;
use crate::State;

/// Whether the best action exceeds every other one that has a worth by more than 2 × h × e (K12.1).
pub fn sure(bytes: &[u8], steps: u32, state: State, e: i32) -> Result<bool, Refusal> {
    let model = open(bytes, None, Some(steps))?;
    state.judge(&model.site)?;
    let Ok(e) = u128::try_from(e) else { return Refusal::of(23) };
    let mut worths: Vec<i128> = worths(&model, steps, &state)?.into_iter().flatten().collect();
    worths.sort_unstable();
    Ok(match worths[..] {
        [] => false,
        [_] => true,
        [.., next, best] => (best - next) as u128 > 2 * u128::from(steps) * e * scale(&model, steps, &state),
    })
}

/// What worths are multiplied with: D × W^(n×h). Times 2 × h × e it stays below 2^128 (K12.2).
fn scale(model: &Model, steps: u32, state: &State) -> u128 {
    let power = power(model.site.w, model.site.n as u32 * steps).expect("worked within the limits");
    state.d as u128 * power as u128
}
