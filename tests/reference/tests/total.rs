//! K14: two valleys, one total. The numbers are worked out by hand; the joined site is worked out pair by pair.

use models::{dry_inlet, forbidding, pond, pond_kept, pond_of, rain, random, still, Rng};
use reference::widths::{LEVELS, STAGES};
use reference::{joined, solve_with_room, total, validate, value, with_deep_stack, worth, Outcome, Side, State, Total};

fn level(mask: u32, num: i32, d: i32) -> State {
    let mut nums = [0; LEVELS];
    nums[0] = num;
    State { mask, nums, d }
}

fn side<'a>(model: &'a [u8], done: &'a Outcome, state: State) -> Side<'a> {
    Side { model, nodes: &done.nodes, stages: &done.stages, state }
}

fn numerator(total: Total) -> i128 {
    i128::from(total.high) << 64 | i128::from(total.low)
}

/// 100 at the pond is 100 × 10² over 10², the rain's 28,000 stays, since the pond has no condition: actions 2 and 1.
#[test]
fn pond_and_rain() {
    let (pond, rain) = (pond_of(10), rain());
    let (one, two) = (solve_with_room(&pond, 2, 100), solve_with_room(&rain, 2, 100));
    let (first, second) = (side(&pond, &one, level(0, 20, 1)), side(&rain, &two, level(0, 200, 1)));
    assert_eq!(total(first, second, 2), Total::new(38_000, [2, 1]));
    assert_eq!(total(second, first, 2), Total::new(38_000, [1, 2]));
    assert_eq!(joined((&pond, first.state), (&rain, second.state), 2), Ok(Some(38_000)));
}

/// All of the first's refusals, then the second's, then 26.
#[test]
fn order() {
    let (pond, rain) = (pond_of(10), rain());
    let (one, two) = (solve_with_room(&pond, 2, 100), solve_with_room(&rain, 2, 100));
    let (first, second) = (side(&pond, &one, level(0, 20, 1)), side(&rain, &two, level(0, 200, 2)));
    let number = |first, second, steps| total(first, second, steps).number;
    assert_eq!(total(first, second, 2), Total { number: 26, ..Total::default() });
    let unequal = pond_of(9);
    assert_eq!(number(side(&unequal, &one, first.state), side(&rain, &two, level(0, 200, 1)), 2), 26);
    assert_eq!(number(first, Side { state: level(2, 200, 1), ..second }, 2), 13);
    assert_eq!(number(first, second, 3), 15);
    assert_eq!(number(first, second, 9), 9);
    assert_eq!(number(first, Side { stages: &two.stages[..7], ..second }, 2), 10);
    let short = Side { stages: &two.stages[..7], ..second };
    assert_eq!(number(Side { nodes: &[], ..first }, short, 2), 14);
    let half = &rain[..20];
    assert_eq!(total(first, Side { model: half, ..second }, 2).place, validate(half).1);
}

/// None on either side is none, both actions 0; 26 comes before it.
#[test]
fn none() {
    let (pumps, pond) = (dry_inlet(), pond_of(2));
    let (one, two) = (solve_with_room(&pumps, 2, 200), solve_with_room(&pond, 2, 100));
    let (dry, full) = (side(&pumps, &one, level(0, 0, 1)), side(&pond, &two, level(0, 20, 1)));
    assert_eq!(total(dry, full, 2), Total::default());
    assert_eq!(total(full, dry, 2), Total::default());
    assert_eq!(joined((&pumps, dry.state), (&pond, full.state), 2), Ok(None));
    assert_eq!(total(Side { state: level(0, 0, 3), ..dry }, full, 2).number, 26);
}

/// One leaf with so much to read at L1 = 2³¹ − 1.
fn leaf(numerator: i128) -> Vec<i64> {
    let most = i128::from(i32::MAX);
    let (coefficient, constant) = (numerator.div_euclid(most) as i64, numerator.rem_euclid(most) as i64);
    vec![0, coefficient, 0, 0, 0, 0, 0, 0, 0, constant, 1, 0]
}

/// A product may lie outside two words and the total within; an end of what two words hold, and one beyond it.
#[test]
fn edges() {
    let (many, none) = (still(4, 100), still(0, 100));
    let (top, stages) = (level(0, i32::MAX, 1), [1; STAGES]);
    let power = 100i128.pow(12);
    let of = |x: i128, y: i128| {
        let (x, y) = (leaf(x), leaf(y));
        let first = Side { model: &none, nodes: &x, stages: &stages, state: top };
        total(first, Side { model: &many, nodes: &y, ..first }, 3)
    };
    let x = i128::MAX / power + 1; // x × 100¹² is outside
    let back = i128::MAX.wrapping_sub(x.wrapping_mul(power)); // by so much
    assert!(x.checked_mul(power).is_none() && back < 0 && -back < power);
    assert_eq!(numerator(of(x, back)), i128::MAX);
    assert_eq!(of(x, back).actions, [1, 1]);
    assert_eq!(of(x, back + 1), Total { number: 11, ..Total::default() });
    assert_eq!(numerator(of(-x, -back - 1)), i128::MIN);
    assert_eq!(of(-x, -back - 2).number, 11);
    assert_eq!(of(0, 5).number, 0);
}

/// The total of solved models is the best of the joined site, worked out pair by pair.
#[test]
fn best_of_all_pairs() {
    let mut rng = Rng(14);
    let small = |model: &[u8]| validate(model).0 == 0 && model[2] <= 1 && model[3] <= 3 && model[4] == 0;
    let mut models: Vec<Vec<u8>> = vec![pond(), pond_kept(), rain(), dry_inlet()];
    models.extend((0..400).map(|i| {
        let model = random(&mut rng);
        if i % 4 == 0 {
            forbidding(&mut rng, &model)
        } else {
            model
        }
    }));
    models.retain(|model| small(model));
    let (mut compared, mut none) = (0, 0);
    with_deep_stack(|| {
        for _ in 0..600 {
            let (one, mut two) = (models[rng.below(models.len())].clone(), models[rng.below(models.len())].clone());
            two[5] = one[5];
            let steps = rng.between(1, 2) as u32;
            if validate(&two).0 != 0 {
                continue;
            }
            let solved = [&one, &two].map(|model| solve_with_room(model, steps, 4_000));
            if solved.iter().any(|done| done.number != 0) {
                continue;
            }
            let d = rng.pick(&[1, 1, 2, 3]);
            let states = [&one, &two].map(|model| {
                let nums = std::array::from_fn(|i| if i < model[1] as usize { rng.between(-60, 60) } else { 0 });
                State { mask: rng.word() as u32 & ((1 << model[2]) - 1), nums, d }
            });
            let stays = |model: &[u8], state| worth(model, steps, state).number == 0;
            if !stays(&one, states[0]) || !stays(&two, states[1]) {
                continue;
            }
            let first = side(&one, &solved[0], states[0]);
            let second = side(&two, &solved[1], states[1]);
            let read = total(first, second, steps);
            let pairs = joined((&one, states[0]), (&two, states[1]), steps).expect("both are accepted");
            let own = [first, second].map(|side| value(side.model, side.nodes, side.stages, steps, side.state).action);
            let expected = pairs.map_or(Total::default(), |best| Total::new(best, own));
            assert_eq!(read, expected, "{steps} steps at {states:?}");
            compared += 1;
            none += u32::from(pairs.is_none());
        }
    });
    assert!(compared > 200 && none > 5, "{compared} pairs, {none} of them none");
}
