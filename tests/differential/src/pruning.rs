//! Paths that no state can take: number, answer and every lent word, for one path after another on the same tables, those of
//! a solve or any others; and that every state reads the same afterwards.

use crate::{actions, damage, expected, out, planner, site, state, Calls, Tables};
use models::{corner, foreign, inventory, mixed, pond, rover, Rng, TableWriter};
use reference::certificate::multipliers;
use reference::prune::{steps, turns, Step};
use reference::widths::{NODES_MOST, NODE_WORDS, STAGES, WORK_WORDS};
use reference::{solve_with_room, validate};
use std::time::Instant;

/// A path for a stage.
#[derive(Clone, Debug)]
struct Sent {
    stage: u32,
    turns: Vec<u8>,
    multipliers: Vec<i32>,
}

/// One call; the tables are left as the library leaves them.
fn compare(calls: &mut Calls, rng: &mut Rng, tables: &mut Tables, sent: &Sent) -> u32 {
    let Tables { nodes, stages, work, .. } = tables;
    compare_in(calls, rng, (nodes, stages, work), sent)
}

type Lent<'a> = (&'a mut [i64], &'a mut [u32], &'a mut [u32]);

fn compare_in(calls: &mut Calls, rng: &mut Rng, (nodes, stages, work): Lent, sent: &Sent) -> u32 {
    let (mut our_nodes, mut our_stages, mut our_work) = (nodes.to_vec(), stages.to_vec(), work.to_vec());
    let before = (nodes.to_vec(), stages.to_vec());
    let mut out = out(rng, 4);
    let mut our_out = out.clone();
    let Sent { stage, turns, multipliers } = sent;
    let number = planner::prune(&calls.model, nodes, stages, work, *stage, turns, multipliers, &mut out);
    let our = (&mut our_nodes, &mut our_stages, &mut our_work);
    let our_number = expected::pruned(&calls.model, our.0, our.1, our.2, *stage, turns, multipliers, &mut our_out);
    let arguments = (nodes.len(), &before.1, work.len(), sent, out.len());
    calls.check("prune", "number", &number, &our_number, &arguments);
    calls.check("prune", "answer", &out, &our_out, &arguments);
    calls.check("prune", "stages", stages, &our_stages[..], &arguments);
    calls.check("prune", "nodes", nodes, &our_nodes[..], &arguments);
    calls.check("prune", "work", work, &our_work[..], &arguments);
    calls.count(number);
    if number == 0 {
        calls.cut += 1;
        compare_readings(calls, rng, (&before.0, &before.1), (nodes, stages));
    }
    number
}

/// Values and actions of all stages, before and after.
fn compare_readings(calls: &Calls, rng: &mut Rng, before: (&[i64], &[u32]), after: (&[i64], &[u32])) {
    for _ in 0..3 {
        let state = state(rng, &calls.model);
        for steps in 1..=STAGES as u32 {
            let read = |(nodes, stages): (&[i64], &[u32])| {
                let mut out = [0; 24];
                (planner::value(&calls.model, nodes, stages, steps, state, &mut out), out)
            };
            calls.check("a path cut off", "value", &read(after), &read(before), &(steps, state));
        }
    }
}

fn tests(path: &[Step]) -> usize {
    path.iter().filter(|step| step.test.is_some()).count()
}

/// A path that no state takes, if one is met in so many tries: up to the last test that counts, or longer.
fn impossible(rng: &mut Rng, tables: &Tables, tries: usize) -> Option<Sent> {
    for _ in 0..tries {
        let stage = rng.below(STAGES.min(tables.stages.len()).max(1));
        let root = *tables.stages.get(stage)?;
        let turns = turns(&tables.nodes, root, 12, || rng.below(2) as u8);
        let path = steps(&tables.nodes, root, &turns)?;
        let ways = multipliers(&path);
        if ways.is_empty() {
            continue;
        }
        let way = &ways[rng.below(ways.len())];
        let used = way.iter().rposition(|&multiplier| multiplier > 0).map_or(0, |last| last + 1);
        let least = (1..=path.len()).find(|&length| tests(&path[..length]) == used)?;
        let length = if rng.once_in(2) { least } else { least + rng.below(path.len() - least + 1) };
        let multipliers = way[..tests(&path[..length])].to_vec();
        return Some(Sent { stage: stage as u32 + 1, turns: turns[..length].to_vec(), multipliers });
    }
    None
}

/// A path that fits, with some multipliers: most are refused with 21.
fn any_path(rng: &mut Rng, tables: &Tables) -> Sent {
    let stage = rng.below(STAGES);
    let root = tables.stages.get(stage).copied().unwrap_or(0);
    let turns = turns(&tables.nodes, root, 20, || rng.below(2) as u8);
    let count = steps(&tables.nodes, root, &turns).map_or(0, |path| tests(&path));
    // 8 × 2⁶¹ and 2²⁴ × 2⁴⁰ are 0 in 64 bits.
    let multipliers = (0..count).map(|_| rng.pick(&[0, 0, 1, 1, 2, 8, 8, 1 << 24, i32::MAX])).collect();
    Sent { stage: stage as u32 + 1, turns, multipliers }
}

/// Moves one from a multiplier to another of the same side, so that the sum stays and one is below 0.
fn balanced_below_zero(sent: &mut Sent, tables: &Tables) {
    let root = tables.stages.get(sent.stage as usize - 1).copied().unwrap_or(0);
    let path = steps(&tables.nodes, root, &sent.turns).unwrap_or_default();
    let sides: Vec<_> = path.iter().filter_map(|step| Some((step.is_high, step.test?))).collect();
    for (i, side) in sides.iter().enumerate().take(sent.multipliers.len()) {
        if let Some(j) = sides[..i].iter().position(|other| other == side) {
            sent.multipliers[j] = sent.multipliers[j].wrapping_add(sent.multipliers[i]).wrapping_add(1);
            sent.multipliers[i] = -1;
            return;
        }
    }
}

/// Changes one thing, mostly to what is refused.
fn changed(rng: &mut Rng, tables: &Tables, sent: &mut Sent) {
    let (turn, multiplier) = (rng.below(sent.turns.len().max(1)), rng.below(sent.multipliers.len().max(1)));
    let largest = sent.multipliers.iter().copied().max().unwrap_or(1).max(1);
    match rng.below(14) {
        0 => {
            let factor = rng.pick(&[2, 3, i32::MAX / largest]);
            sent.multipliers.iter_mut().for_each(|number| *number = number.wrapping_mul(factor));
        }
        1 | 2 if !sent.multipliers.is_empty() => {
            let by = rng.pick(&[-1, 1, -1, 1, i32::MIN]);
            sent.multipliers[multiplier] = sent.multipliers[multiplier].wrapping_add(by);
        }
        3 => sent.multipliers.iter_mut().for_each(|number| *number = -*number),
        4 => balanced_below_zero(sent, tables),
        5 => sent.multipliers.push(rng.pick(&[0, 1, -1])),
        6 => drop(sent.multipliers.pop()),
        7 if !sent.turns.is_empty() => sent.turns[turn] = rng.pick(&[2, 3, 48, 49, 128, 254, 255]),
        8 if !sent.turns.is_empty() => sent.turns[turn] ^= 1,
        9 => {
            sent.turns.extend((0..rng.pick(&[1, 1, 300])).map(|_| rng.below(2) as u8));
            sent.multipliers.extend((0..rng.below(2)).map(|_| 0));
        }
        10 => {
            sent.turns.clear();
            sent.multipliers.truncate(rng.pick(&[0, 0, 1]));
        }
        11 => sent.multipliers.fill(rng.pick(&[0, 0, 1, i32::MAX, i32::MIN])),
        12 => sent.stage = rng.pick(&[0, 9, 256, u32::MAX]),
        _ => sent.stage = 1 + rng.below(STAGES) as u32,
    }
}

fn proposal(rng: &mut Rng, tables: &Tables) -> Sent {
    let mut sent = impossible(rng, tables, 20).unwrap_or_else(|| any_path(rng, tables));
    if rng.once_in(2) {
        changed(rng, tables, &mut sent);
    }
    sent
}

/// Tables for so many nodes by their node words and by their work words; what is new in them is anything.
fn resize(rng: &mut Rng, tables: &mut Tables, by_nodes: usize, by_work: usize) {
    let (node_words, work_words) =
        (NODE_WORDS * by_nodes + rng.below(NODE_WORDS), WORK_WORDS * by_work + rng.below(WORK_WORDS));
    tables.nodes.resize_with(node_words, || rng.word() as i64);
    tables.work.resize_with(work_words, || rng.word() as u32);
}

/// The nodes that 12 counts.
fn needed(tables: &Tables, sent: &Sent) -> usize {
    tables.stages.iter().max().map_or(0, |&root| root as usize) + sent.turns.len().saturating_sub(1)
}

/// One path after another on the same tables, each with room for just what it needs, for more, and for one node less; on
/// copies also with damage, and with other stage words than eight.
fn sequence(calls: &mut Calls, rng: &mut Rng, mut tables: Tables, count: usize) {
    for _ in 0..count {
        let sent = proposal(rng, &tables);
        let need = needed(&tables, &sent).min(3_000);
        let more = need + rng.pick(&[0, 1, 40]);
        let (by_nodes, by_work) = rng.pick(&[(need.saturating_sub(1), more), (more, need.saturating_sub(1))]);
        let mut short = tables.clone();
        resize(rng, &mut short, by_nodes, by_work);
        compare(calls, rng, &mut short, &sent);
        if rng.once_in(3) {
            let mut bad = tables.clone();
            damage(rng, &mut bad);
            compare(calls, rng, &mut bad, &sent);
        }
        if rng.once_in(12) {
            let mut bad = tables.clone();
            bad.stages.resize(rng.pick(&[0, 7, 9]), 1);
            compare(calls, rng, &mut bad, &sent);
        }
        let (by_nodes, by_work) = rng.pick(&[(need, need), (need, more), (more, need)]);
        resize(rng, &mut tables, by_nodes, by_work);
        compare(calls, rng, &mut tables, &sent);
    }
}

/// Good tables for the model's site that no solve left.
fn any_tables(rng: &mut Rng, model: &[u8]) -> Tables {
    let (nodes, stages) = foreign(rng, site(model).1, u32::from(actions(model)).max(1));
    Tables { nodes, stages: stages.to_vec(), work: Vec::new(), peaks: Vec::new() }
}

/// In the tables of the round's solve, in good ones of any kind, and in words that are anything.
pub fn round(calls: &mut Calls, rng: &mut Rng, solved: Option<&Tables>) {
    if let Some(tables) = solved {
        sequence(calls, rng, tables.clone(), 6);
    }
    let is_good = validate(&calls.model).0 == 0;
    for _ in 0..if is_good { 3 } else { 1 } {
        let tables = any_tables(rng, &calls.model.clone());
        sequence(calls, rng, tables, if is_good { 4 } else { 1 });
    }
    let mut anything = Tables::full_of_anything(rng, [3 * NODE_WORDS, STAGES, 3 * WORK_WORDS, 0]);
    anything.stages.fill_with(|| rng.below(4) as u32);
    let sent = any_path(rng, &anything);
    compare(calls, rng, &mut anything, &sent);
}

/// Paths on the lent words, in varying lengths, as earlier calls have left them; now and then other rows are put there.
pub fn endurance(calls: &mut Calls, rng: &mut Rng, lent: &mut Tables) {
    if rng.once_in(2) {
        let Tables { nodes, stages, .. } = any_tables(rng, &calls.model.clone());
        lent.nodes[..nodes.len()].copy_from_slice(&nodes);
        lent.stages.copy_from_slice(&stages);
    }
    for _ in 0..3 {
        let sent = proposal(rng, lent);
        let before = lent.clone();
        let room = match needed(lent, &sent) {
            need if rng.once_in(4) => need.saturating_sub(1),
            need => need + rng.pick(&[0, 0, 1, 100]),
        };
        let (node_words, work_words) =
            ((NODE_WORDS * room).min(lent.nodes.len()), (WORK_WORDS * room).min(lent.work.len()));
        let Tables { nodes, stages, work, .. } = &mut *lent;
        compare_in(calls, rng, (&mut nodes[..node_words], stages, &mut work[..work_words]), &sent);
        calls.check("prune", "nodes not lent", &lent.nodes[node_words..], &before.nodes[node_words..], &sent);
        calls.check("prune", "work not lent", &lent.work[work_words..], &before.work[work_words..], &sent);
    }
}

/// A chain of rows below one root, its high sides all the way down, with numbers that `linear` gives by the row.
fn long_chain(rows: u32, linear: impl Fn(u32) -> (i64, i64)) -> Tables {
    let mut table = TableWriter::default();
    let leaves = [1, 2, 3].map(|value| table.leaf(&[], value, 1));
    let mut below = leaves[0];
    for row in 4..=rows {
        let (coefficient, constant) = linear(row);
        below = table.test(&[coefficient], constant, below, leaves[1 + row as usize % 2]);
    }
    let stages = [below, 0, 0, 0, 0, 0, 0, 0].to_vec();
    Tables { nodes: table.0, stages, work: Vec::new(), peaks: Vec::new() }
}

/// A path in tables of just enough nodes, of one less and of the most, with the library's time for the last; what it leaves.
fn large_path(calls: &mut Calls, rng: &mut Rng, name: &str, tables: Tables, sent: &Sent) -> Tables {
    let (need, turns) = (needed(&tables, sent), sent.turns.len());
    let rows = |tables: &Tables| tables.stages.iter().max().copied().unwrap_or(0);
    let mut last = tables.clone();
    for room in [need, need - 1, NODES_MOST] {
        let mut lent = tables.clone();
        lent.nodes.resize(NODE_WORDS * room, -1);
        lent.work.resize(WORK_WORDS * room, 9);
        last = lent.clone();
        let number = compare(calls, rng, &mut lent, sent);
        let (before, after) = (rows(&tables), rows(&lent));
        println!("{name}: a path of {turns} turns, N {room}: number {number}, {before} nodes before, {after} after");
    }
    let start = Instant::now();
    let Tables { nodes, stages, work, .. } = &mut last;
    planner::prune(&calls.model, nodes, stages, work, sent.stage, &sent.turns, &sent.multipliers, &mut [0; 4]);
    println!("  library {:.3} s", start.elapsed().as_secs_f64());
    last
}

/// Paths in plans of many nodes, one after another.
fn large_plans(calls: &mut Calls, rng: &mut Rng) {
    let plans = [
        ("corner", corner(), 1),
        ("inventory", inventory(4, true), 2),
        ("eight levels mixed", mixed(), 1),
        ("rover", rover(), 8),
    ];
    for (name, model, horizon) in plans {
        let done = solve_with_room(&model, horizon, NODES_MOST);
        calls.model = model;
        let mut tables =
            Tables { nodes: done.nodes, stages: done.stages.to_vec(), work: Vec::new(), peaks: Vec::new() };
        for _ in 0..3 {
            let Some(sent) = impossible(rng, &tables, 200) else { break };
            tables = large_path(calls, rng, name, tables, &sent);
        }
    }
}

/// Paths in large plans; the longest ones that tables hold, with the largest sums.
pub fn large(calls: &mut Calls, rng: &mut Rng) {
    large_plans(calls, rng);
    calls.model = pond();
    // L1 ≥ 1 at the root and L1 ≤ 0 at the last turn, with other tests of L1 between: 65,535 nodes are needed.
    let (rows, turns) = (40_000, 25_536);
    let tables = long_chain(rows, |row| match rows - row {
        0 => (-1, 1),
        above if above + 1 == turns => (1, 0),
        above => (1, i64::from(above) - 70_000),
    });
    let mut multipliers = vec![0; turns as usize];
    (multipliers[0], multipliers[turns as usize - 1]) = (1, 1);
    let sent = Sent { stage: 1, turns: vec![1; turns as usize], multipliers };
    large_path(calls, rng, "a long path", tables, &sent);
    // Half of the tests are limit × L1 + limit, the others the same below zero; the last is one more.
    let (rows, turns, limit) = (32_770, 32_766, (1 << 62) - 1);
    let tables = long_chain(rows, |row| match rows - row {
        above if above + 1 == turns => (-limit, 1 - limit),
        above if above < turns / 2 => (limit, limit),
        _ => (-limit, -limit),
    });
    let sent = Sent { stage: 1, turns: vec![1; turns as usize], multipliers: vec![i32::MAX; turns as usize] };
    large_path(calls, rng, "a large sum", tables, &sent);
}
