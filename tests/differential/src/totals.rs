//! Two sites that share nothing, one total: number and answer, for solved tables and any others, the same model twice too; and
//! numerators around the ends of two words, from tables that no solve left.

use crate::{any_horizon, any_model, damage, expected, out, planner, state, Calls, Tables};
use models::{still, Rng};
use reference::widths::{LEVELS, NODE_WORDS, NUMBERS, STAGES};
use reference::{solve_with_room, Side, State};

fn compare(calls: &mut Calls, rng: &mut Rng, first: Side, second: Side, steps: u32) -> u32 {
    let mut out = out(rng, 28);
    let mut ours = out.clone();
    let number = planner::total(first, second, steps, &mut out);
    let our_number = expected::totalled(first, second, steps, &mut ours);
    let arguments = (first.stages, first.state, second.model, second.stages, second.state, steps, out.len());
    calls.check("total", "number", &number, &our_number, &arguments);
    calls.check("total", "answer", &out, &ours, &arguments);
    calls.count(number);
    calls.together += u64::from(number == 0 && out[4..8] != [0; 4]);
    calls.none += u64::from(number == 0 && out[4..8] == [0; 4]);
    number
}

/// The round's model and tables with another's, mostly over one W and D.
pub fn round(calls: &mut Calls, rng: &mut Rng, solved: Option<&Tables>) {
    let one = calls.model.clone();
    let any = Tables::full_of_anything(rng, [10 * NODE_WORDS, STAGES, 0, 0]);
    let tables = solved.unwrap_or(&any);
    let mut two = if rng.once_in(4) { one.clone() } else { any_model(rng) };
    if two.len() > 5 && one.len() > 5 && !rng.once_in(8) {
        two[5] = one[5];
    }
    let horizon = rng.pick(&[1, 2, 2, 3]);
    let done = solve_with_room(&two, horizon, 600);
    let mut others = any.clone();
    if done.number == 0 {
        others.nodes = done.nodes;
        others.stages = done.stages.to_vec();
    }
    for _ in 0..4 {
        let mut damaged = others.clone();
        if rng.once_in(6) {
            damage(rng, &mut damaged);
        }
        damaged.stages.truncate(rng.pick(&[STAGES, STAGES, STAGES, STAGES, STAGES, 7]));
        let (at_one, mut at_two) = (state(rng, &one), state(rng, &two));
        if !rng.once_in(4) {
            at_two.d = at_one.d;
        }
        let steps = if rng.once_in(9) { any_horizon(rng) } else { rng.between(1, horizon as i32) as u32 };
        let first = Side { model: &one, nodes: &tables.nodes, stages: &tables.stages, state: at_one };
        let second = Side { model: &two, nodes: &damaged.nodes, stages: &damaged.stages, state: at_two };
        let (first, second) = if rng.once_in(2) { (first, second) } else { (second, first) };
        compare(calls, rng, first, second, steps);
    }
    edges(calls, rng);
}

/// One leaf that reads so much at L1 = 2³¹ − 1 with D 1; now and then none.
fn leaf(rng: &mut Rng, numerator: i128) -> Vec<i64> {
    let most = i128::from(i32::MAX);
    let mut row = vec![0; NODE_WORDS];
    if rng.once_in(12) {
        row[0] = 3;
        return row;
    }
    row[1] = numerator.div_euclid(most).clamp(-(1 << 62) + 1, (1 << 62) - 1) as i64;
    row[NUMBERS] = numerator.rem_euclid(most) as i64;
    row[NUMBERS + 1] = 1;
    row
}

/// Numerators whose products end near ±2¹²⁷, one of them outside and brought back by the other, or whose powers go far
/// beyond: W^(n×h) up to 100³².
fn edges(calls: &mut Calls, rng: &mut Rng) {
    for _ in 0..6 {
        let w = rng.pick(&[1, 2, 3, 10, 99, 100]);
        let (n, k) = (rng.between(0, 4) as u8, rng.between(0, 4) as u8);
        let steps = rng.between(1, 8) as u32;
        let (own, power) = (u32::from(n) * steps, u32::from(k) * steps);
        // The total is X × W^power + Y × W^own; what both powers have in common comes off the ends.
        let common = i128::from(w).checked_pow(own.min(power)).unwrap_or(i128::MAX);
        let end = rng.pick(&[i128::MAX, i128::MIN]) / common + i128::from(rng.between(-2, 2)) / 2;
        let by = i128::from(w).checked_pow(power.saturating_sub(own)).unwrap_or(i128::MAX);
        let x = (end / by).saturating_add(rng.between(-2, 2).into());
        let y = end.wrapping_sub(x.wrapping_mul(by)).saturating_add(rng.between(-2, 2).into());
        let (x, y) = if own > power { (y, x) } else { (x, y) };
        let (models, rows) = ([still(n, w), still(k, w)], [leaf(rng, x), leaf(rng, y)]);
        let mut nums = [0; LEVELS];
        nums[0] = i32::MAX;
        let (stages, state) = ([1; STAGES], State { mask: 0, nums, d: 1 });
        let side = |i: usize| Side { model: &models[i], nodes: &rows[i], stages: &stages, state };
        let other = State { d: rng.pick(&[1, 1, 1, 1, 1, 1, 1, 2]), ..state };
        compare(calls, rng, side(0), Side { state: other, ..side(1) }, steps);
    }
}
