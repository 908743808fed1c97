//! K11: how much an override loses.

use models::{dry_inlet, forbidding, pond, random, Rng, Writer};
use reference::policy::{course, Course, Policy, Sum};
use reference::widths::LEVELS;
use reference::{solve_with_room, value, with_deep_stack, worth, Reading, State};

const NONE: Reading = Reading { number: 0, place: 0, action: 0, low: 0, high: 0 };

fn level(mask: u32, num: i32) -> State {
    let mut nums = [0; LEVELS];
    nums[0] = num;
    State { mask, nums, d: 1 }
}

fn numerator(reading: Reading) -> i128 {
    i128::from(reading.high) << 64 | i128::from(reading.low)
}

fn asked(model: &[u8], steps: u32, state: &State, policy: &impl Policy) -> Option<Course> {
    course(model, steps, state, policy, Sum::Asked).expect("a model without fault")
}

/// Value, total, what is lost, and the shortfalls in the order of their courses.
fn all(model: &[u8], steps: u32, state: State, policy: &impl Policy) -> (i128, i128, i128, Vec<(u32, i128)>) {
    let course = asked(model, steps, &state, policy).expect("a total");
    (numerator(worth(model, steps, state)), course.total, course.lost, course.shortfalls)
}

/// By hand: of 20 in the pond each release of 10 earns 50.
#[test]
fn the_pond() {
    let pond = pond();
    let hold = |_: u32, _: &State| 0;
    // With two steps left holding still leaves 50: it is the last step that loses, and the one before.
    assert_eq!(all(&pond, 2, level(0, 20), &hold), (100, 0, 100, vec![(2, 50), (1, 50)]));
    assert_eq!(all(&pond, 2, level(0, 10), &hold), (50, 0, 50, vec![(2, 0), (1, 50)]));
    assert_eq!(all(&pond, 3, level(0, 20), &hold), (100, 0, 100, vec![(3, 0), (2, 50), (1, 50)]));
    // Released one step late nothing is lost, and of a dry pond 1.
    let late = |steps: u32, _: &State| usize::from(steps == 1);
    assert_eq!(all(&pond, 2, level(0, 10), &late), (50, 50, 0, vec![(2, 0), (1, 0)]));
    assert_eq!(all(&pond, 2, level(0, 0), &late), (0, -1, 1, vec![(2, 0), (1, 1)]));
}

/// By hand: at 30 the fast pump now leaves 20 or 10, the slow one 30 or 20.
#[test]
fn the_dry_inlet() {
    let model = dry_inlet();
    let (slow, fast) = (|_: u32, _: &State| 0, |_: u32, _: &State| 1);
    // Fast and then the best: 50 + (50 + 20) ÷ 2; slow first: 20 + 50. Times 4 and, with one step left, 2.
    assert_eq!(
        all(&model, 2, level(0, 30), &slow),
        (4 * 85, 4 * 40, 4 * 45, vec![(2, 4 * 15), (1, 2 * 30), (1, 2 * 30)])
    );
    // Fast twice meets a dry inlet with a chance of one half; fast where the inflow is sure does not.
    assert!(asked(&model, 2, &level(0, 30), &fast).is_none());
    assert_eq!(all(&model, 2, level(1, 30), &fast), (4 * 100, 4 * 100, 0, vec![(2, 0), (1, 0)]));
    // Nothing gets through where the value is none.
    assert_eq!(worth(&model, 2, level(0, 10)), NONE);
    assert!([asked(&model, 2, &level(0, 10), &slow), asked(&model, 2, &level(0, 10), &fast)]
        .iter()
        .all(Option::is_none));
}

/// What is lost in a next state of weight 0 does not count.
#[test]
fn weight_0() {
    // Action 2 earns 7 where the level is above 0, which it is next if the condition is: never.
    let mut w = Writer::site(1, 1, 2, 10);
    for action in 1..=2 {
        w.leaf([], 0);
        if action == 2 {
            w.leaf([], 7).test([1], 0);
        }
        w.reward(action).leaf([], 0).chance(action, 1).leaf([], 1).leaf([], 0).condition(5).next(action, 1);
    }
    let model = w.end();
    let first = |_: u32, _: &State| 0;
    assert_eq!(all(&model, 2, level(0, 1), &first), (700, 0, 700, vec![(2, 700), (1, 0)]));
    let wrong = course(&model, 2, &level(0, 1), &first, Sum::WeightZero).expect("a model").expect("a total");
    assert_eq!(wrong.lost, 700 + 70);
}

/// An action for every number of steps left and state, drawn by their numbers: mostly the best, or any.
fn drawn<'a>(model: &'a [u8], actions: usize, seed: u64, best_in: usize) -> impl Policy + 'a {
    move |steps: u32, state: &State| {
        let mix = |hash: u64, number: i32| Rng(hash ^ u64::from(number as u32)).word();
        let hash = state.nums.iter().fold(mix(seed ^ u64::from(steps) << 32, state.mask as i32), |h, &x| mix(h, x));
        let rng = &mut Rng(hash);
        let best = worth(model, steps, *state).action as usize;
        if best > 0 && !rng.once_in(best_in) {
            best - 1
        } else {
            rng.below(actions)
        }
    }
}

#[derive(Debug, Default)]
struct Seen {
    none: u32,
    no_total: u32,
    nothing: u32,
    lost: u32,
    tight: u32,
    own_totals: u32,
    weight_zero: u32,
}

/// The value read less the policy's total is what it loses, and at most as many times the largest shortfall as steps.
fn compare(seen: &mut Seen, model: &[u8], reading: Reading, steps: u32, state: &State, policy: &impl Policy) {
    let Some(course) = asked(model, steps, state, policy) else {
        *(if reading == NONE { &mut seen.none } else { &mut seen.no_total }) += 1;
        return;
    };
    assert_ne!(reading, NONE, "a total where there is no value");
    let lost = numerator(reading) - course.total;
    assert_eq!(lost, course.lost, "{steps} steps at {state:?}");
    *(if lost == 0 { &mut seen.nothing } else { &mut seen.lost }) += 1;
    // Each over D × W^(n×steps left): e is the largest of them, p ÷ q.
    let scale = |left: u32| i128::from(state.d) * i128::from(model[5]).pow(u32::from(model[2]) * left);
    assert!(course.shortfalls.iter().all(|&(_, short)| short >= 0));
    assert_eq!(lost == 0, course.shortfalls.iter().all(|&(_, short)| short == 0));
    let larger = |a: &(i128, i128), b: &(i128, i128)| (a.0 * b.1).cmp(&(b.0 * a.1));
    let fractions = course.shortfalls.iter().map(|&(left, short)| (short, scale(left)));
    let (p, q) = fractions.max_by(larger).expect("a step");
    let bound = i128::from(steps) * p * scale(steps);
    assert!(q * lost <= bound, "{steps} steps at {state:?}");
    seen.tight += u32::from(lost > 0 && q * lost == bound && steps > 1);
    let differs =
        |sum| course.lost != reference::policy::course(model, steps, state, policy, sum).unwrap().unwrap().lost;
    seen.own_totals += u32::from(differs(Sum::OwnTotals));
    seen.weight_zero += u32::from(differs(Sum::WeightZero));
}

/// Small random models, half of them with forbidden leaves, and random policies. Some lose, some nothing, some have no
/// total; the wrong sums are told from the right one.
#[test]
fn random_policies() {
    let mut seen = Seen::default();
    with_deep_stack(|| {
        for seed in 0..10_000 {
            let rng = &mut Rng(seed);
            let mut model = random(rng);
            if rng.once_in(2) {
                model = forbidding(rng, &model);
            }
            let (m, n, actions) = (usize::from(model[1]), u32::from(model[2]), usize::from(model[3]));
            let steps = rng.between(1, 3) as u32;
            if model[4] > 0 || !(2..=3).contains(&actions) || n > 2 || n * steps > 4 {
                continue;
            }
            let done = solve_with_room(&model, 3, 2_000);
            for _ in 0..4 {
                let nums = std::array::from_fn(|i| if i < m { rng.between(-30, 30) } else { 0 });
                let state = State { mask: rng.below(1 << n) as u32, nums, d: rng.between(1, 3) };
                let plain = worth(&model, steps, state);
                if done.number != 0 || plain.number != 0 {
                    continue;
                }
                let reading = value(&model, &done.nodes, &done.stages, steps, state);
                let policy = drawn(&model, actions, rng.word(), rng.pick(&[1, 1, 2, 3]));
                compare(&mut seen, &model, reading, steps, &state, &policy);
            }
        }
    });
    let Seen { none, no_total, nothing, lost, tight, own_totals, weight_zero } = seen;
    let enough = none > 500 && no_total > 200 && nothing > 500 && lost > 500 && tight > 10;
    assert!(enough && own_totals > 100 && weight_zero > 100, "{seen:?}");
}
