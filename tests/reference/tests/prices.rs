//! K12: rewards that move a little. What is claimed where an action is sure is tried on rewards changed at random within e,
//! and a change by no more than the bound is shown to upset an action that leads by no more than it.

use models::{commands, dry_inlet, pond, random, Rng, Writer};
use reference::widths::LEVELS;
use reference::{sure, validate, worth, Reading, Refusal, State};

fn level(mask: u32, num: i32, d: i32) -> State {
    let mut nums = [0; LEVELS];
    nums[0] = num;
    State { mask, nums, d }
}

fn number_of(reading: &Reading) -> i128 {
    i128::from(reading.high) << 64 | i128::from(reading.low)
}

/// Where the constants of the rewards' leaves stand.
fn reward_constants(model: &[u8]) -> Vec<usize> {
    let mut stack: Vec<Vec<usize>> = Vec::new();
    let mut constants = Vec::new();
    for &offset in &commands(model) {
        match model.get(offset) {
            Some(0x10) => stack.push(vec![offset + 33]),
            Some(0x13) => stack.push(Vec::new()),
            Some(0x11 | 0x12) => {
                let low = stack.pop().expect("a low branch");
                stack.last_mut().expect("a high branch").extend(low);
            }
            Some(0x20) => constants.extend(stack.pop().expect("a reward")),
            Some(0x21..=0x23) => drop(stack.pop()),
            _ => {}
        }
    }
    constants
}

/// The model with each leaf of a reward moved by at most e; nothing where a number leaves 32 bits.
fn repriced(model: &[u8], mut change: impl FnMut() -> i32) -> Option<Vec<u8>> {
    let mut other = model.to_vec();
    for place in reward_constants(model) {
        let constant = i32::from_le_bytes(model[place..place + 4].try_into().expect("four bytes"));
        other[place..place + 4].copy_from_slice(&constant.checked_add(change())?.to_le_bytes());
    }
    Some(other)
}

fn state(rng: &mut Rng, model: &[u8]) -> State {
    let (m, n) = (usize::from(model[1]), model[2]);
    let size = rng.pick(&[3, 30, 300]);
    State {
        mask: rng.word() as u32 & ((1 << n) - 1),
        nums: std::array::from_fn(|i| if i < m { rng.between(-size, size) } else { 0 }),
        d: rng.pick(&[1, 1, 2, 3]),
    }
}

/// The largest e for which the action is sure, if it is for any.
fn turn(model: &[u8], steps: u32, state: State) -> Option<i32> {
    let is_sure = |e: i32| sure(model, steps, state, e) == Ok(true);
    is_sure(0).then(|| (0..20).fold(0, |e, bit| if is_sure(e | 1 << (19 - bit)) { e | 1 << (19 - bit) } else { e }))
}

#[test]
fn the_pond_is_sure_up_to_twelve() {
    let model = pond();
    for (e, is_sure) in [(0, true), (12, true), (13, false), (i32::MAX, false)] {
        assert_eq!(sure(&model, 2, level(0, 20, 1), e), Ok(is_sure), "e = {e}");
        assert_eq!(sure(&model, 2, level(0, 40, 2), e), Ok(is_sure), "e = {e}, over 2");
    }
    // 9: holding gives 0, releasing −1. 2 × 1 × 0 is less than 1, 2 × 1 × 1 is not.
    assert_eq!(sure(&model, 1, level(0, 9, 1), 0), Ok(true));
    assert_eq!(sure(&model, 1, level(0, 9, 1), 1), Ok(false));
    // At 10 with two steps left releasing now or later is the same: a tie is never sure.
    assert_eq!(sure(&model, 2, level(0, 10, 1), 0), Ok(false));
}

#[test]
fn refusals_come_in_their_order() {
    let model = pond();
    let refused = |number| Err(Refusal { number, place: 0 });
    assert_eq!(sure(&vec![0; 262_145], 9, level(0, 20, 0), -1), refused(10));
    assert_eq!(sure(&model, 9, level(0, 20, 0), -1), refused(9));
    assert_eq!(sure(&model[6..], 2, level(0, 20, 0), -1), refused(1));
    assert_eq!(sure(&model, 2, level(0, 20, 0), -1), refused(13));
    assert_eq!(sure(&model, 2, level(0, 20, 1), -1), refused(23));
    assert_eq!(sure(&model, 2, level(0, 20, 1), i32::MIN), refused(23));
}

#[test]
fn none_is_not_sure_and_an_action_alone_is() {
    let model = dry_inlet();
    // At 0 both pumps are forbidden, at 10 the fast one.
    assert_eq!(sure(&model, 1, level(0, 0, 1), 0), Ok(false));
    assert_eq!(sure(&model, 1, level(0, 10, 1), i32::MAX), Ok(true));
    assert_eq!(sure(&model, 1, level(0, 20, 1), 14), Ok(true));
    assert_eq!(sure(&model, 1, level(0, 20, 1), 15), Ok(false));
}

#[test]
fn rewards_within_e_keep_a_sure_action_and_move_no_value_further() {
    let rng = &mut Rng(12);
    let (mut kept, mut moved, mut none) = (0, 0, 0);
    while kept < 3_000 || moved < 6_000 || none < 200 {
        let model = if rng.once_in(9) { dry_inlet() } else { random(rng) };
        let steps = rng.between(1, 3) as u32;
        if validate(&model).0 != 0 || (u64::from(model[3]) << model[2]).pow(steps) > 500 || model[4] != 0 {
            continue;
        }
        let state = state(rng, &model);
        let before = worth(&model, steps, state);
        let most = turn(&model, steps, state);
        let e = most.filter(|_| rng.once_in(2)).unwrap_or(rng.between(0, 50));
        let is_sure = sure(&model, steps, state, e);
        let scale = i128::from(state.d) * i128::from(model[5]).pow(u32::from(model[2]) * steps);
        for extreme in [true, false] {
            let other = repriced(&model, || if extreme { rng.pick(&[-e, e]) } else { rng.between(-e, e) });
            let Some(after) = other.map(|other| worth(&other, steps, state)).filter(|after| after.number == 0) else {
                continue;
            };
            if before.number != 0 {
                continue;
            }
            assert_eq!(before.action == 0, after.action == 0, "none stays none");
            let apart = (number_of(&after) - number_of(&before)).abs();
            assert!(apart <= i128::from(steps) * i128::from(e) * scale, "{state:?} moves by {apart}, e = {e}");
            moved += 1;
            none += usize::from(before.action == 0);
            if is_sure == Ok(true) {
                assert_eq!(after.action, before.action, "{state:?}, {steps} steps, e = {e}");
                kept += 1;
            }
        }
    }
}

/// Three places: from 0 action 1 goes to 1 and action 2 to 2, and there they stay, whatever is done. Each action at each place
/// has a reward of its own: `reward(action, place)`.
fn fork(reward: impl Fn(u16, i32) -> i32) -> Vec<u8> {
    let mut w = Writer::site(1, 0, 2, 1);
    for action in [1, 2] {
        w.leaf([], reward(action, 0)).leaf([], reward(action, 1)).leaf([], reward(action, 2));
        w.test([1], -1).test([1], 0).reward(action);
        w.leaf([], action.into()).leaf([1], 0).test([1], 0).next(action, 1);
    }
    w.end()
}

#[test]
fn a_lead_of_the_bound_can_be_lost_and_one_more_cannot() {
    for steps in 1..=8 {
        for e in [0, 1, 7, 1_000_000] {
            let bound = 2 * steps as i32 * e;
            for more in [0, 1] {
                let lead = bound + more;
                let reward = |action, place| if action == 2 && place == 0 { lead } else { 0 };
                // All that the better action meets falls by e, all that the other meets rises by it.
                let moved = |action, place| match (action, place) {
                    (2, 0) => lead - e,
                    (_, 2) => -e,
                    (1, 0) | (_, 1) => e,
                    _ => unreachable!("two actions, three places"),
                };
                let (model, other) = (fork(reward), fork(moved));
                let start = level(0, 0, 1);
                let better = worth(&model, steps, start).action;
                assert_eq!(better, if lead > 0 { 2 } else { 1 });
                assert_eq!(sure(&model, steps, start, e), Ok(more == 1), "{steps} steps, e = {e}, lead {lead}");
                assert_eq!(worth(&other, steps, start).action, if more == 1 { 2 } else { 1 });
            }
        }
    }
}
