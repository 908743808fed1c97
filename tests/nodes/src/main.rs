//! Prints the table of docs/PARALLEL-TESTS.md: needed nodes (the peak of a solve) without K4 and with it, by the second
//! program, in tables of 65,535 nodes.

use models::{chain, deep, inventory, near_limit, pond, rain, releases, reservoirs, rover, staircases};
use reference::diagram::without_replacing;
use reference::widths::NODES_MOST;
use reference::{solve_with_room, with_deep_stack, Outcome};

fn rows() -> Vec<(String, Vec<u8>, u32)> {
    let named = |name: &str, model, horizon| (name.to_string(), model, horizon);
    let mut rows = vec![
        named("pond (`examples/pond.model`)", pond(), 2),
        named("pond", pond(), 8),
        named("rain (`examples/rain.model`)", rain(), 8),
        named("two staircases of 750 tests", staircases(), 1),
        named("deepest model known", deep(), 4),
        named("two rain tanks", near_limit(), 6),
        named("two rain tanks", near_limit(), 7),
    ];
    for amounts in [&[10, 20][..], &[10, 20, 30], &[10, 15, 20, 25]] {
        rows.push((format!("pond with releases {amounts:?}"), releases(amounts), 8));
    }
    rows.extend((2..=4).map(|tanks| (format!("chain of {tanks} tanks"), chain(tanks), 8)));
    for (orders, horizon) in [(1, 2), (1, 3), (2, 2), (2, 3), (4, 1), (4, 2), (7, 1), (7, 2)] {
        rows.push((format!("inventory, known demand, orders: {orders}"), inventory(orders, true), horizon));
    }
    for (orders, horizon) in [(1, 1), (1, 2), (2, 1), (2, 2), (4, 1), (7, 1)] {
        rows.push((format!("inventory, uncertain demand, orders: {orders}"), inventory(orders, false), horizon));
    }
    rows.extend([2, 3, 8].map(|horizon| named("rover, two moves", rover(), horizon)));
    rows.extend([2, 3, 8].map(|horizon| named("two reservoirs, two drains", reservoirs(), horizon)));
    rows
}

fn needed(done: &Outcome) -> String {
    match done.number {
        0 => done.peak.to_string(),
        12 => format!("more than {NODES_MOST} (stage {})", done.place),
        number => format!("refused with {number} (stage {})", done.place),
    }
}

fn main() {
    println!("| model | horizon | needed without | needed with | share |");
    println!("|---|---|---|---|---|");
    for (name, model, horizon) in rows() {
        let count = || solve_with_room(&model, horizon, NODES_MOST);
        let (before, now) = with_deep_stack(|| (without_replacing(count), count()));
        let share = match (before.number, now.number) {
            (0, 0) => format!("{:.0} %", 100.0 * f64::from(now.peak) / f64::from(before.peak)),
            _ => "-".to_string(),
        };
        println!("| {name} | {horizon} | {} | {} | {share} |", needed(&before), needed(&now));
    }
}
