//! K8: actions that are not permitted. The numbers are worked out by hand.

use models::{dry_inlet, forbidding, old_form, random, Rng, Writer};
use reference::widths::{LEVELS, NODE_WORDS};
use reference::{
    listing, name, page, program, solve_with_room, to_old, validate, validate_old, value, with_deep_stack, worth,
    Outcome, Reading, Refusal, State,
};

const L1: [i32; 1] = [1];
const NONE: Reading = Reading { number: 0, place: 0, action: 0, low: 0, high: 0 };

fn level(mask: u32, num: i32, d: i32) -> State {
    let mut nums = [0; LEVELS];
    nums[0] = num;
    State { mask, nums, d }
}

/// Number, place and peak of a solve with room for so many nodes.
fn solved(model: &[u8], horizon: u32, nodes: usize) -> (u32, u32, u32) {
    let done = solve_with_room(model, horizon, nodes);
    (done.number, done.place, done.peak)
}

/// From the tables and by plain working, which agree.
fn read(model: &[u8], done: &Outcome, steps: u32, state: State) -> Reading {
    let reading = value(model, &done.nodes, &done.stages, steps, state);
    assert_eq!(worth(model, steps, state), reading, "{steps} steps at {state:?}");
    reading
}

/// A pump that earns 1 and is forbidden on a dry inlet, below 0. Next the level is −1 if condition 1 is yes, which it is with
/// weight 5 out of 10, but never while it is yes.
fn pump() -> Vec<u8> {
    let mut w = Writer::site(1, 1, 1, 10);
    w.leaf([], 1).forbidden().test([-1], 0).reward(1);
    w.leaf([], 0).leaf([], 5).condition(1).chance(1, 1);
    w.leaf([], -1).leaf(L1, 0).condition(5).next(1, 1);
    w.end()
}

#[test]
fn the_pump() {
    let model = pump();
    let done = solve_with_room(&model, 2, 22);
    assert_eq!((done.number, done.peak, done.nodes.len()), (0, 22, 6 * NODE_WORDS));
    assert_eq!(read(&model, &done, 2, level(0, 0, 1)), NONE);
    // 2 × W^(1×2).
    assert_eq!(read(&model, &done, 2, level(1, 0, 1)), Reading::new(200, 1));
    assert_eq!(read(&model, &done, 1, level(0, 0, 1)), Reading::new(10, 1));
    assert_eq!([1, 2].map(|steps| read(&model, &done, steps, level(1, -1, 2))), [NONE; 2]);
    // Nine nodes are loaded, the forbidden leaf among them.
    let rooms = [8, 9, 21].map(|nodes| solved(&model, 2, nodes));
    assert_eq!(rooms, [(12, 0, 0), (12, 1, 0), (12, 2, 0)]);
    let text = listing(&model, 2, &done.nodes, &done.stages, usize::MAX, 0).expect("a listing");
    let zeros = "0 0 0 0 0 0 0";
    let lines = [
        "PLAN 1 1 1 10 2".to_string(),
        format!("N 1 V 0 {zeros} 10 1"),
        "N 2 X".to_string(),
        format!("N 3 L -1 {zeros} 0 1 2"),
        format!("N 4 V 0 {zeros} 200 1"),
        format!("N 5 L -1 {zeros} 0 4 2"),
        "N 6 B 1 5 2".to_string(),
        "S 1 3".to_string(),
        "S 2 6".to_string(),
    ];
    assert_eq!(text, lines.join("\n") + "\n");
    assert_eq!(program(&[&[2], &model[..]].concat()), text);
    let none = [3, 0, 0, 0, 0, 0, 0, 0, 0, 0, 0, 0];
    assert_eq!(done.nodes[NODE_WORDS..2 * NODE_WORDS], none);
}

/// The example: 10 in, 10 or 20 out, and neither below 0.
#[test]
fn the_dry_inlet() {
    let model = dry_inlet();
    let done = solve_with_room(&model, 3, 1_000);
    let at = |steps, mask, num| read(&model, &done, steps, level(mask, num, 1));
    // One step has a weight of 2, two of 4, three of 8.
    assert_eq!([at(1, 0, 9), at(1, 0, 10), at(1, 0, 20)], [NONE, Reading::new(2 * 20, 1), Reading::new(2 * 50, 2)]);
    // At 10 the slow pump leaves 10 with the inflow and 0 without.
    assert_eq!([at(2, 0, 10), at(2, 1, 10)], [NONE, Reading::new(4 * 40, 1)]);
    // At 20 the fast one would leave 0, the slow one leaves 10 or 20: 20 + (20 + 50) ÷ 2.
    assert_eq!([at(2, 0, 20), at(3, 0, 20)], [Reading::new(4 * 55, 1), NONE]);
    let lines = |mask| {
        let text = page(&model, 3, &done.nodes, &done.stages, level(mask, 20, 1), 153, 0).expect("a page");
        String::from_utf8(text).expect("letters")
    };
    let line = |steps: u32, value: &str, name: &str| format!("{steps:>2} {value:>30} {name:<16}\n");
    assert_eq!(lines(0), [line(1, "50", "Fast"), line(2, "55", "Slow"), line(3, "none", "")].concat());
    assert_eq!(lines(1), [line(1, "50", "Fast"), line(2, "70", "Slow"), line(3, "90", "Slow")].concat());
    // `none` stands behind 26 spaces, and no name behind it.
    assert!(lines(0).ends_with(&format!(" 3 {}none {}\n", " ".repeat(26), " ".repeat(16))));
    // The name of action 0 is refused as before.
    assert_eq!(name(&model, 0).map_err(|refusal| refusal.number), Err(16));
}

/// What the model comes to if `taken` and the end command follow, and the offset of what takes the diagram.
fn judged(write: impl FnOnce(&mut Writer), taken: &[u8]) -> ((u32, u32), u32) {
    let mut w = Writer::site(1, 1, 1, 10);
    write(&mut w);
    let offset = w.len() as u32;
    w.command(taken);
    (validate(&w.end()), offset)
}

const REWARD: [u8; 3] = [0x20, 1, 0];
const CHANCE: [u8; 4] = [0x21, 1, 0, 1];
const NEXT: [u8; 4] = [0x22, 1, 0, 1];
const END_WORTH: [u8; 1] = [0x23];

#[test]
fn allowed_in_rewards_only() {
    let alone = |w: &mut Writer| _ = w.forbidden();
    // Under a condition of equal branches, and below a test that repeats one above it: loading drops the leaf.
    let branch = |w: &mut Writer| _ = w.leaf([], 3).leaf([], 4).forbidden().test(L1, 5).test(L1, 5);
    let under = |w: &mut Writer| _ = w.forbidden().leaf([], 4).condition(1).leaf([], 4).condition(1);
    let writes: [fn(&mut Writer); 3] = [alone, branch, under];
    for write in writes {
        for taken in [&CHANCE[..], &NEXT, &END_WORTH] {
            let (number, offset) = judged(write, taken);
            assert_eq!(number, (4, offset), "{taken:?}");
        }
        let (number, offset) = judged(write, &REWARD);
        assert_eq!(number, (7, offset + 3));
    }
    // After the operands, the stack and what is given twice.
    assert_eq!(judged(alone, &[0x22, 1, 0, 2]).0, (4, 7));
    assert_eq!(judged(|_| (), &NEXT).0, (5, 6));
    let twice = |w: &mut Writer| _ = w.leaf(L1, 0).next(1, 1).forbidden();
    let (number, offset) = judged(twice, &NEXT);
    assert_eq!(number, (6, offset));
    // A reward that asks a next-step condition is refused with a forbidden leaf too.
    let next_step = |w: &mut Writer| _ = w.forbidden().leaf([], 1).condition(5);
    let (number, offset) = judged(next_step, &REWARD);
    assert_eq!(number, (4, offset));
}

#[test]
fn a_push_without_operands() {
    assert_eq!(validate(&[0x13]), (1, 0));
    let site = [0x02, 1, 0, 1, 0, 1];
    let behind = |bytes: &[u8]| validate(&[&site, bytes].concat());
    assert_eq!([behind(&[0x13]), behind(&[0x13, 0xFF])], [(2, 7), (7, 7)]);
    // The 33rd entry, which may be a leaf or a forbidden one.
    assert_eq!([behind(&[0x13; 32]), behind(&[0x13; 33]), behind(&[0x13; 34])], [(2, 38), (5, 38), (5, 38)]);
    let leaf = [&[0x10][..], &[0; 36]].concat();
    assert_eq!(behind(&[&[0x13; 32], &leaf[..]].concat()), (5, 38));
    // In the old form it is an unknown byte.
    let old = |bytes: &[u8]| validate_old(&[&[0x01, 1, 0, 1, 1], bytes].concat());
    assert_eq!([old(&[0x13]), old(&[0x13, 0xFF])], [(3, 5); 2]);
}

/// One action whose reward `write` leaves on the stack, and whose level stays; an end worth if one is given.
fn one_action(write: impl FnOnce(&mut Writer), end: Option<[i32; 1]>) -> Vec<u8> {
    let mut w = Writer::site(1, 0, 1, 1);
    write(&mut w);
    w.reward(1).leaf(L1, 0).next(1, 1);
    if let Some(coefficients) = end {
        w.leaf(coefficients, 0).end_worth();
    }
    w.end()
}

#[test]
fn what_does_not_fit_the_old_form() {
    let dropped = |w: &mut Writer| _ = w.leaf([], 3).leaf([], 4).forbidden().test(L1, 5).test(L1, 5);
    for model in [pump(), dry_inlet(), one_action(|w| _ = w.forbidden(), None), one_action(dropped, None)] {
        assert_eq!(validate(&model), (0, 0));
        for room in [usize::MAX, 0] {
            assert_eq!(to_old(&model, room), Err(Refusal { number: 20, place: 0 }));
        }
        let longer = [&model[..], &[0]].concat();
        assert_eq!(to_old(&longer, 0), Err(Refusal { number: 8, place: model.len() as u32 }));
        // Its commands are no old model.
        assert_eq!(validate_old(&old_form(&model)).0, 3);
    }
    let permitted = one_action(|w| _ = w.leaf([], 0), None);
    assert_eq!(to_old(&permitted, usize::MAX), Ok(old_form(&permitted)));
}

/// A dropped leaf is loaded and counted, and no state comes to it.
#[test]
fn dropped_while_loading() {
    let dropped = |w: &mut Writer| _ = w.leaf([], 3).leaf([], 4).forbidden().test(L1, 5).test(L1, 5);
    let kept = |w: &mut Writer| _ = w.leaf([], 3).forbidden().test(L1, 5);
    let [dropped, kept] = [one_action(dropped, None), one_action(kept, None)];
    // 3, 4, none and the test over them, the test over 3 and none, L1.
    assert_eq!([5, 6].map(|nodes| solved(&dropped, 1, nodes).1), [0, 1]);
    let [first, second] = [&dropped, &kept].map(|model| solve_with_room(model, 3, 100));
    assert_eq!((first.nodes, first.stages), (second.nodes, second.stages));
}

/// Each stage is none everywhere: one node, and its row is kind 3.
#[test]
fn nothing_is_permitted() {
    let model = one_action(|w| _ = w.forbidden(), None);
    // None and L1, then the leaf 0 of stage 0; no operation makes another.
    assert_eq!([solved(&model, 8, 3), solved(&model, 8, 2), solved(&model, 8, 1)], [(0, 0, 3), (12, 1, 0), (12, 0, 0)]);
    let done = solve_with_room(&model, 8, 3);
    assert_eq!(done.nodes, [3, 0, 0, 0, 0, 0, 0, 0, 0, 0, 0, 0]);
    assert_eq!(done.stages, [1; 8]);
    for steps in 1..=8 {
        assert_eq!(read(&model, &done, steps, level(0, 5, 3)), NONE);
    }
    assert_eq!(program(&[&[1], &model[..]].concat()), "PLAN 1 0 1 1 1\nN 1 X\nS 1 1\n");
}

/// None loses to whatever is permitted, whichever comes first, and of two that are not permitted none betters the other.
#[test]
fn none_loses() {
    let model = |first: Option<i32>, second: Option<i32>| {
        let mut w = Writer::site(1, 0, 2, 1);
        for (action, reward) in [(1, first), (2, second)] {
            match reward {
                Some(constant) => w.leaf([], constant),
                None => w.forbidden(),
            };
            w.reward(action).leaf(L1, 0).next(action, 1);
        }
        w.end()
    };
    let at = |first, second| {
        let model = model(first, second);
        read(&model, &solve_with_room(&model, 1, 100), 1, level(0, 0, 1))
    };
    assert_eq!(at(None, Some(i32::MIN)), Reading::new(i32::MIN.into(), 2));
    assert_eq!(at(Some(i32::MIN), None), Reading::new(i32::MIN.into(), 1));
    // A value of 0 has an action.
    assert_eq!([at(None, Some(0)), at(Some(0), None), at(None, None)], [Reading::new(0, 2), Reading::new(0, 1), NONE]);
}

/// No d is worked out against none. Between the totals (2³¹ − 1)² × L1 and its opposite it would leave the limits.
#[test]
fn best_names_no_number_against_none() {
    let number = |forbidden: u16| {
        let mut w = Writer::site(1, 0, 2, 1);
        for (action, factor) in [(1, i32::MAX), (2, -i32::MAX)] {
            if action == forbidden {
                w.forbidden();
            } else {
                w.leaf([], 0);
            }
            w.reward(action).leaf([factor], 0).next(action, 1);
        }
        w.leaf([i32::MAX], 0).end_worth();
        solved(&w.end(), 1, 100).0
    };
    assert_eq!([0, 1, 2].map(number), [11, 0, 0]);
}

/// The settings of two conditions: the first leads below 0, where all is forbidden; the second never is yes, or always.
fn two_conditions(first: i32, second: i32, leads: u8) -> Vec<u8> {
    let mut w = Writer::site(1, 2, 1, 10);
    w.leaf([], 1).forbidden().test([-1], 0).reward(1);
    w.leaf([], first).chance(1, 1).leaf([], second).chance(1, 2);
    w.leaf([], -1).leaf(L1, 0).condition(leads).next(1, 1);
    w.end()
}

/// A next state of weight 0 never makes a value none, in whichever order the conditions are summed out (K8.5).
#[test]
fn weight_0() {
    let at = |first, second, leads| {
        let model = two_conditions(first, second, leads);
        read(&model, &solve_with_room(&model, 2, 1_000), 2, level(0, 0, 1))
    };
    let two = Reading::new(2 * 10_000, 1);
    // By the first condition: only where it can be yes. By the second: its zero comes after the none of the first.
    assert_eq!([at(5, 5, 5), at(0, 5, 5), at(10, 5, 5)], [NONE, two, NONE]);
    assert_eq!([at(5, 5, 6), at(5, 0, 6), at(5, 10, 6)], [NONE, two, NONE]);
    assert_eq!([at(10, 0, 6), at(0, 0, 6), at(0, 10, 6), at(10, 10, 5)], [two, two, NONE, NONE]);
}

/// A product of a weight diagram with none keeps the diagram's tests, over 0 where the weight is 0 (K8.4).
#[test]
fn a_weight_diagram_over_none() {
    let mut store = reference::diagram::Store::new(100);
    let constant = |number: i64| {
        let mut nums = [0; LEVELS + 1];
        nums[LEVELS] = number;
        nums
    };
    let [zero, three] = [0, 3].map(|number| store.leaf(constant(number), 0).expect("room"));
    let none = store.none().expect("room");
    let test = reference::diagram::condition(1);
    let weight = store.choose(test, zero, three).expect("room");
    let product = store.product(weight, none).expect("room");
    assert_eq!((store.node(product).high, store.node(product).low), (zero, none));
    assert_eq!(store.count(), 5);
    // The leaf 0 is made where it is not there.
    let mut store = reference::diagram::Store::new(100);
    let none = store.none().expect("room");
    assert_eq!(
        [store.sum(none, none), store.best(none, none), store.number(1, none), store.scale(7, none)],
        [Ok(none); 4]
    );
    assert_eq!([store.substitute(none, &[]), store.rest(7, none)], [Ok(none); 2]);
    assert_eq!(store.count(), 1);
    let zero = store.scale(0, none).expect("room");
    assert_eq!((store.count(), store.leaf(constant(0), 0)), (2, Ok(zero)));
    assert_eq!([store.sum(zero, none), store.sum(none, zero)], [Ok(none); 2]);
    assert_eq!([store.best(zero, none), store.best(none, zero)], [Ok(zero); 2]);
    // A full store has no room for it.
    let mut store = reference::diagram::Store::new(1);
    let none = store.none().expect("room");
    assert_eq!([store.scale(0, none), store.scale(1, none)], [Err(12), Ok(none)]);
}

/// W^(n×h) is judged although every reward is forbidden; what else stands in the model is then not worked out plainly.
#[test]
fn the_power_is_judged() {
    let mut w = Writer::site(1, 4, 1, 100);
    w.forbidden().reward(1).leaf(L1, 0).next(1, 1);
    (1..=4).for_each(|condition| _ = w.leaf([], 50).chance(1, condition));
    let model = w.end();
    // 100^8 is within 2⁶², 100^12 is not.
    assert_eq!([solved(&model, 2, 100).0, solved(&model, 3, 100).0], [0, 11]);
    assert_eq!(solved(&model, 8, 100), (11, 3, 0));
    let number = |steps| worth(&model, steps, level(0, 0, 1));
    assert_eq!([number(1), number(2)], [NONE; 2]);
    assert_eq!([number(3).number, number(8).number], [11; 2]);
}

/// Plain working: an 11 behind the first none is not met (K8.8).
#[test]
fn behind_the_first_none() {
    let number = |model: &[u8], steps, state| worth(model, steps, state).number;
    let least = level(0, i32::MIN, 1);
    // A forbidden reward ends its action: the next level, which leaves 32 bits, and the end worth are not worked out.
    let next = |forbids: bool| {
        let mut w = Writer::site(1, 0, 1, 1);
        if forbids {
            w.forbidden();
        } else {
            w.leaf([], 0);
        }
        w.reward(1).leaf([2], 0).next(1, 1);
        w.end()
    };
    assert_eq!([number(&next(false), 1, least), number(&next(true), 1, least)], [11, 0]);
    let end = |forbids: bool| {
        let reward = |w: &mut Writer| _ = if forbids { w.forbidden() } else { w.leaf([], 0) };
        one_action(reward, Some([i32::MIN]))
    };
    assert_eq!([number(&end(false), 1, least), number(&end(true), 1, least)], [11, 0]);
    assert_eq!(solve_with_room(&end(true), 1, 100).number, 0);
    // The other action is worked out all the same.
    let mut w = Writer::site(1, 0, 2, 1);
    w.forbidden().reward(1).leaf(L1, 0).next(1, 1).leaf([], 0).reward(2).leaf([2], 0).next(2, 1);
    assert_eq!(number(&w.end(), 1, least), 11);
    // Two settings, no before yes: the first is none, the second leaves 32 bits; or the other way round.
    let settings = |high: i32, low: i32, yes: i32| {
        let mut w = Writer::site(1, 1, 1, 2);
        w.leaf([], 0).forbidden().test([-1], 0).reward(1).leaf([], yes).chance(1, 1);
        w.leaf([high], -1).leaf([low], -1).condition(5).next(1, 1);
        worth(&w.end(), 2, level(0, i32::MAX, 1))
    };
    // A coefficient of 0 leads to −1, where all is forbidden, one of 2 beyond 32 bits, one of 1 on.
    assert_eq!(settings(2, 0, 1), NONE);
    assert_eq!(settings(0, 2, 1).number, 11);
    assert_eq!(settings(2, 1, 1).number, 11);
    // Of weight 0 neither counts.
    assert_eq!([settings(2, 1, 0), settings(0, 1, 0), settings(1, 0, 2)], [Reading::new(0, 1); 3]);
    assert_eq!([settings(1, 0, 0), settings(0, 1, 2)], [NONE; 2]);
    // A next state's numerators are judged before its worth, which would be none.
    let mut w = Writer::site(2, 0, 1, 1);
    w.leaf([], 0).forbidden().test([-1], 0).reward(1).leaf([], -1).next(1, 1).leaf([0, 2], 0).next(1, 2);
    let (model, mut state) = (w.end(), level(0, 0, 1));
    assert_eq!(worth(&model, 2, state), NONE);
    state.nums[1] = i32::MAX;
    assert_eq!(worth(&model, 2, state).number, 11);
}

/// With no step left nothing is none: a state where all is forbidden has its end worth.
#[test]
fn no_step_left() {
    let mut w = Writer::site(1, 0, 1, 1);
    w.leaf([], 1).forbidden().test([-1], 0).reward(1).leaf(L1, -10).next(1, 1).leaf(L1, 0).end_worth();
    let model = w.end();
    let done = solve_with_room(&model, 2, 100);
    assert_eq!(read(&model, &done, 1, level(0, 5, 1)), Reading::new(1 - 5, 1));
    assert_eq!(read(&model, &done, 2, level(0, 5, 1)), NONE);
    assert_eq!(read(&model, &done, 2, level(0, 25, 2)), Reading::new(2 * 2 + 25 - 40, 1));
}

/// A row of kind 3 has zeros alone; a branch to it is one as any other.
#[test]
fn rows_of_kind_3() {
    let model = pump();
    let read = |row: [i64; NODE_WORDS]| {
        let reading = value(&model, &row, &[1; 8], 1, level(0, 7, 1));
        let text = listing(&model, 1, &row, &[1; 8], usize::MAX, 0).map_err(|refusal| refusal.number);
        let lines = page(&model, 1, &row, &[1; 8], level(0, 7, 1), 51, 0).map_err(|refusal| refusal.number);
        assert_eq!([text.clone().err(), lines.err()], [Some(reading.number).filter(|&number| number != 0); 2]);
        (reading, text)
    };
    let mut row = [0; NODE_WORDS];
    row[0] = 3;
    assert_eq!(read(row), (NONE, Ok("PLAN 1 1 1 10 1\nN 1 X\nS 1 1\n".to_string())));
    for word in 1..NODE_WORDS {
        for number in [1, -1, i64::MIN, i64::MAX] {
            let mut other = row;
            other[word] = number;
            assert_eq!(read(other).0.number, 14, "word {word}");
        }
    }
    for kind in [-1, 4, 5, i64::MIN] {
        row[0] = kind;
        assert_eq!(read(row).0.number, 14, "kind {kind}");
    }
}

/// Tables and plain working come to the same at states of random models that forbid, and none is as frequent as a value.
#[test]
fn random_models() {
    let (mut none, mut valued, mut refused) = (0, 0, 0);
    with_deep_stack(|| {
        for seed in 0..2_000 {
            let rng = &mut Rng(seed);
            let model = random(rng);
            let model = forbidding(rng, &model);
            let done = solve_with_room(&model, 2, 1_000);
            refused += u32::from(done.number == 4);
            if done.number != 0 || model[3] > 8 || model[4] > 0 {
                continue;
            }
            for _ in 0..10 {
                let (m, n) = (model[1], model[2]);
                let nums = std::array::from_fn(|i| if i < m.into() { rng.between(-30, 30) } else { 0 });
                let state = State { mask: rng.below(1 << n) as u32, nums, d: rng.between(1, 3) };
                let steps = rng.between(1, 2) as u32;
                let reading = value(&model, &done.nodes, &done.stages, steps, state);
                let plain = worth(&model, steps, state);
                if plain.number == 0 {
                    assert_eq!(reading, plain, "seed {seed}, {steps} steps at {state:?}");
                    *(if plain == NONE { &mut none } else { &mut valued }) += 1;
                }
            }
        }
    });
    assert!(none > 3_000 && valued > 3_000 && refused > 100, "{none} none, {valued} values, {refused} refused");
}
