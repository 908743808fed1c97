//! What `crates/check_rules` has to print, worked out by the second program.

use reference::diagram::{Fault, Id, Kind, Label, Store};
use reference::widths::{CONSTANT, NUMBERS};
use reference::with_deep_stack;

const TESTS: i64 = 750;

/// Nodes that the lent tables have room for.
const ROOM: usize = 49_152;

/// So many times L1, and a constant.
fn linear(coefficient: i64, constant: i64) -> [i64; NUMBERS] {
    let mut nums = [0; NUMBERS];
    (nums[0], nums[CONSTANT]) = (coefficient, constant);
    nums
}

fn leaf(store: &mut Store, value: i64) -> Result<Id, Fault> {
    store.leaf(linear(0, value), 0)
}

/// A staircase, its last step first: the tests stand two apart from `from` on, the leaves take `values` values.
fn stairs(store: &mut Store, from: i64, value: i64, values: i64) -> Result<Id, Fault> {
    let mut f = leaf(store, value + TESTS)?;
    for i in 0..TESTS {
        let low = leaf(store, value + i % values)?;
        f = store.choose(Label { kind: Kind::Test, nums: linear(1, from + (TESTS - i) * 2) }, f, low)?;
    }
    Ok(f)
}

/// A line for a step: its refusal and the count of nodes.
fn show(store: &Store, step: Result<Id, Fault>) -> Result<Id, Fault> {
    println!("{} {}", step.err().unwrap_or(0), store.count());
    step
}

fn pair(store: &mut Store, is_best: bool, value: i64, values: i64) -> Result<Id, Fault> {
    let step = stairs(store, 0, value, values);
    let f = show(store, step)?;
    let step = stairs(store, 1, 0, values);
    let g = show(store, step)?;
    let step = if is_best { store.best(f, g) } else { store.sum(f, g) };
    show(store, step)
}

fn main() {
    with_deep_stack(|| {
        let store = &mut Store::new(ROOM);
        let steps = [(true, 1000, 1000), (false, 0, 20), (false, 1000, 1000)];
        let _ =
            steps.into_iter().try_for_each(|(is_best, value, values)| pair(store, is_best, value, values).map(|_| ()));
    });
}
