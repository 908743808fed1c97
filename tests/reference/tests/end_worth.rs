//! K1: water left at the end has a worth.

use models::{pond, pond_ending, pond_kept, tank, Writer};
use reference::widths::LEVELS;
use reference::{listing, program, solve_with_room, validate, value, worth, Reading, State};

const L1: [i32; 1] = [1];

fn level(num: i32, d: i32) -> State {
    let mut nums = [0; LEVELS];
    nums[0] = num;
    State { mask: 0, nums, d }
}

fn pond_with_l1() -> Vec<u8> {
    pond_ending(|w| {
        w.leaf(L1, 0);
    })
}

/// Number, place and peak of a solve with room for so many nodes.
fn solved(model: &[u8], horizon: u32, nodes: usize) -> (u32, u32, u32) {
    let done = solve_with_room(model, horizon, nodes);
    (done.number, done.place, done.peak)
}

#[test]
fn pond_with_the_level_as_end_worth() {
    let model = pond_with_l1();
    let input: Vec<u8> = std::iter::once(1).chain(model.clone()).collect();
    let stage =
        "PLAN 1 0 2 1 1\nN 1 V 1 0 0 0 0 0 0 0 40 2\nN 2 V 1 0 0 0 0 0 0 0 0 1\nN 3 L -1 0 0 0 0 0 0 0 10 1 2\nS 1 3\n";
    assert_eq!(program(&input), stage);
    assert_eq!(solved(&model, 2, 100), (0, 0, 24));
    assert_eq!(solved(&model, 2, 24), (0, 0, 24));
    assert_eq!(solved(&model, 2, 23), (12, 2, 0));
    // 20 released twice leaves 0 and earns 100; 19/2 stays.
    let done = solve_with_room(&model, 2, 100);
    for (num, d, numerator, action) in [(20, 1, 100, 2), (19, 2, 19, 1), (10, 1, 50, 1), (-5, 1, -5, 1)] {
        let expected = Reading::new(numerator, action);
        assert_eq!(value(&model, &done.nodes, &done.stages, 2, level(num, d)), expected);
        assert_eq!(worth(&model, 2, level(num, d)), expected);
    }
    // No table has V₀: no step left is 9.
    assert_eq!(value(&model, &done.nodes, &done.stages, 0, level(20, 1)).number, 9);
    assert_eq!(worth(&model, 0, level(20, 1)).number, 9);
    assert_eq!(solved(&model, 0, 100).0, 9);
}

#[test]
fn water_is_kept() {
    let read = |model: &[u8], steps, num| {
        let done = solve_with_room(model, 2, 1_000);
        let reading = value(model, &done.nodes, &done.stages, steps, level(num, 1));
        assert_eq!(worth(model, steps, level(num, 1)), reading);
        (reading.low, reading.action)
    };
    assert_eq!((read(&pond(), 2, 20), read(&pond(), 1, 10)), ((100, 2), (50, 2)));
    assert_eq!((read(&pond_kept(), 2, 20), read(&pond_kept(), 1, 10)), ((120, 1), (50, 2)));
    // Above 20 there is water to spare.
    assert_eq!((read(&pond_kept(), 2, 40), read(&pond_kept(), 1, 30)), ((220, 2), (170, 2)));
}

#[test]
fn an_end_worth_of_0_is_none_given() {
    let zero = pond_ending(|w| {
        w.leaf([], 0);
    });
    let [given, none] = [zero, pond()].map(|model| solve_with_room(&model, 8, 1_000));
    assert_eq!((given.nodes, given.stages, given.peak), (none.nodes, none.stages, none.peak));
}

/// What the model comes to if 23 and the end command follow, and the offset of that 23.
fn judged(w: &Writer) -> ((u32, u32), u32) {
    let mut whole = w.clone();
    whole.end_worth();
    (validate(&whole.end()), w.len() as u32)
}

#[test]
fn refusals_in_their_order() {
    assert_eq!(validate(&[0x23]), (1, 0));
    assert_eq!(validate(&[0x02, 1, 0, 1, 0, 1, 0x23]), (5, 6));
    // Behind it the bytes end, or a reward is missing.
    let mut w = Writer::site(1, 1, 1, 10);
    w.leaf(L1, -3).end_worth();
    let (whole, offset) = (w.clone().end(), w.len() as u32);
    assert_eq!(validate(&whole[..whole.len() - 1]), (2, offset));
    assert_eq!(validate(&whole), (7, offset));
    // Given twice: after 5, before 4.
    let (number, offset) = judged(&w);
    assert_eq!(number, (5, offset));
    w.leaf(L1, 0);
    let (number, offset) = judged(&w);
    assert_eq!(number, (6, offset));
    w.leaf(L1, 1).condition(5);
    let (number, offset) = judged(&w);
    assert_eq!(number, (6, offset));
    // A next-step condition, also one that loading drops.
    for other in [0, 1] {
        let mut w = Writer::site(1, 1, 1, 10);
        w.leaf(L1, 0).leaf(L1, other).condition(5).leaf([], 7).condition(1);
        let (number, offset) = judged(&w);
        assert_eq!(number, (4, offset));
    }
}

#[test]
fn what_a_reward_may_be() {
    let mut w = Writer::site(1, 1, 1, 10);
    w.leaf(L1, 0).leaf([], i32::MIN).test(L1, 5).leaf([i32::MIN], -1).condition(1);
    w.leaf([], 3).chance(1, 1).leaf(L1, 0).reward(1).leaf(L1, 0).next(1, 1);
    assert_eq!(validate(&w.clone().end()), (7, w.len() as u32));
    assert_eq!(judged(&w).0, (0, 0));
    assert_eq!(validate(&tank(5, |_| ())), (0, 0));
}

#[test]
fn conditions_of_the_last_state() {
    // The chance is 7 of 10, 2 of 10 while condition 1 is yes; 100 at the end if it is yes then, else the level.
    let mut w = Writer::site(1, 1, 1, 10);
    w.leaf([], 0).reward(1).leaf([], 2).leaf([], 7).condition(1).chance(1, 1).leaf(L1, 0).next(1, 1);
    w.leaf([], 100).leaf(L1, 0).condition(1).end_worth();
    let model = w.end();
    let done = solve_with_room(&model, 2, 100);
    let text = listing(&model, 1, &done.nodes, &done.stages, usize::MAX, 0).unwrap();
    assert_eq!(text, "PLAN 1 1 1 10 1\nN 1 V 8 0 0 0 0 0 0 0 200 1\nN 2 V 3 0 0 0 0 0 0 0 700 1\nN 3 B 1 1 2\nS 1 3\n");
    for (steps, mask, numerator) in [(1, 0, 715), (1, 1, 240), (2, 0, 3 * 715 + 7 * 240), (2, 1, 8 * 715 + 2 * 240)] {
        let state = State { mask, ..level(5, 1) };
        let expected = Reading::new(numerator, 1);
        assert_eq!(value(&model, &done.nodes, &done.stages, steps, state), expected);
        assert_eq!(worth(&model, steps, state), expected);
    }
}

#[test]
fn needed_nodes() {
    // The end worth is the next level itself: stage 1 makes its sum and its numbered leaf, and no leaf 0.
    let level = tank(5, |w| {
        w.leaf(L1, 0).end_worth();
    });
    let rooms = [1, 2, 3, 4].map(|nodes| solved(&level, 1, nodes));
    assert_eq!(rooms, [(12, 0, 0), (12, 1, 0), (12, 1, 0), (0, 0, 4)]);
    assert_eq!(solved(&level, 2, 100), (0, 0, 6));
    // The coefficient 0 of a constant makes a leaf 0, for its operation alone.
    let constant = tank(5, |w| {
        w.leaf([], 3).end_worth();
    });
    let rooms = [2, 3, 4, 5].map(|nodes| solved(&constant, 1, nodes));
    assert_eq!(rooms, [(12, 0, 0), (12, 1, 0), (12, 1, 0), (0, 0, 5)]);
    // Without one the leaf 0 is needed from stage 1 on.
    assert_eq!([solved(&tank(5, |_| ()), 1, 100), solved(&tank(5, |_| ()), 2, 100)], [(0, 0, 4), (0, 0, 6)]);
}

#[test]
fn limits_in_stage_1() {
    let model = |coefficient| {
        let mut w = Writer::site(1, 0, 1, 1);
        w.leaf([], 0).reward(1).leaf([i32::MIN], 0).next(1, 1);
        w.leaf([coefficient], 0).end_worth();
        w.end()
    };
    // 2⁶² is one too many.
    assert_eq!(solved(&model(i32::MIN), 1, 100), (11, 1, 0));
    assert_eq!(solved(&model(i32::MAX), 1, 100).0, 0);
    assert_eq!(solved(&model(i32::MAX), 2, 100), (11, 2, 0));
    // The same with a test of the end worth.
    let mut w = Writer::site(1, 0, 1, 1);
    w.leaf([], 0).reward(1).leaf([i32::MIN], 0).next(1, 1);
    w.leaf([], 1).leaf([], 0).test([i32::MIN], 1).end_worth();
    assert_eq!(solved(&w.end(), 1, 100), (11, 1, 0));
}

#[test]
fn limits_of_plain_working() {
    let number = |model: &[u8], state| worth(model, 1, state).number;
    let least = level(i32::MIN, 1);
    let more = level(i32::MIN + 1, 1);
    // D × end worth: 2⁶² is 11. Without an end worth nothing is judged there.
    let huge = tank(0, |w| {
        w.leaf([i32::MIN], 0).end_worth();
    });
    assert_eq!([number(&huge, least), number(&huge, more), number(&tank(0, |_| ()), least)], [11, 0, 0]);
    // D is part of it, and the reward comes before it in the sum.
    let constant = |reward| {
        tank(reward, |w| {
            w.leaf([i32::MAX], i32::MAX).end_worth();
        })
    };
    let (at_0, at_1) = (level(0, i32::MAX), level(i32::MAX, i32::MAX));
    assert_eq!([number(&constant(0), at_0), number(&constant(0), at_1), number(&constant(5), at_0)], [0, 11, 11]);
    // The next numerators are judged before it.
    let mut w = Writer::site(1, 0, 1, 1);
    w.leaf([], 0).reward(1).leaf(L1, 1).next(1, 1).leaf([], 0).end_worth();
    let model = w.end();
    assert_eq!([number(&model, level(i32::MAX, 1)), number(&model, level(i32::MAX - 1, 1))], [11, 0]);
    // Weight × it, and the running sum: two settings of weight 1 each.
    let chance = |yes: i32, total: u8, more: i32| {
        let mut w = Writer::site(1, 1, 1, total);
        w.leaf([], 0).reward(1).leaf([], yes).chance(1, 1).leaf(L1, 0).next(1, 1);
        w.leaf([i32::MIN], 0).leaf([], more).condition(1).end_worth();
        w.end()
    };
    assert_eq!(number(&chance(2, 2, 0), more), 11);
    assert_eq!(number(&chance(1, 2, 0), more), 0);
    assert_eq!(number(&chance(1, 2, i32::MAX), more), 0);
    assert_eq!(number(&chance(1, 2, i32::MAX), level(i32::MIN + 1, 3)), 11);
    // A next state of weight 0 is skipped with its end worth.
    assert_eq!([number(&chance(0, 1, 0), least), number(&chance(1, 1, 0), least)], [0, 11]);
}
