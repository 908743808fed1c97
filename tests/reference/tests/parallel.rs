//! "Where a model is solved both before and now, no value and no action differs": by the switch that leaves parallel low
//! branches as they are.

use models::{chain, near_limit, pond, random, releases, rover, Rng};
use reference::diagram::without_replacing;
use reference::{solve_with_room, validate, value, with_deep_stack, State};

const NODES: usize = 4_000;

/// Compares what is read at some states; true where both have solved the model and their tables differ.
fn compared(model: &[u8], horizon: u32, rng: &mut Rng) -> bool {
    let now = solve_with_room(model, horizon, NODES);
    let before = without_replacing(|| solve_with_room(model, horizon, NODES));
    if (now.number, before.number) != (0, 0) {
        return false;
    }
    for _ in 0..50 {
        let (m, n) = (model[1], model[2]);
        let nums = std::array::from_fn(|i| if i < m.into() { rng.between(-200, 200) } else { 0 });
        let state = State { mask: rng.below(1 << n) as u32, nums, d: rng.between(1, 3) };
        for steps in 1..=horizon {
            let read = |done: &reference::Outcome| value(model, &done.nodes, &done.stages, steps, state);
            assert_eq!(read(&now), read(&before));
        }
    }
    now.nodes != before.nodes
}

#[test]
fn no_value_and_no_action_differs() {
    with_deep_stack(|| {
        let rng = &mut Rng(4);
        let mut other_tables = 0;
        let known = [(pond(), 8), (releases(&[10, 20]), 8), (chain(3), 6), (rover(), 3), (near_limit(), 4)];
        for (model, horizon) in known {
            other_tables += usize::from(compared(&model, horizon, rng));
        }
        for _ in 0..2_000 {
            let model = random(rng);
            if validate(&model) == (0, 0) {
                other_tables += usize::from(compared(&model, 2, rng));
            }
        }
        assert!(other_tables >= 300, "{other_tables} plans had other tables");
    });
}
