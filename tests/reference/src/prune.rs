//! Paths that no state can take (K10 of document 02): a path is judged, cut off, and all diagrams are made anew.

use crate::diagram::{Fault, Id, Kind, Label, Store};
use crate::model::{open, NoTrees, Refusal};
use crate::read::{row, Row};
use crate::solve::{room, Rows};
use crate::widths::{CONSTANT, LEVELS, NODE_WORDS, NUMBERS, STAGES};

/// What an accepted path leaves: the rows in use, and the stage words. Every node word after the rows is zero, and so is
/// every work word. A refusal leaves all as it was.
#[derive(Clone, Debug, PartialEq, Eq)]
pub struct Pruned {
    pub nodes: Vec<i64>,
    pub stages: [u32; STAGES],
}

/// A condition, or a test with its linear, and its branches.
#[derive(Clone, Copy, Debug, PartialEq, Eq)]
pub struct Fork {
    pub test: Option<[i64; NUMBERS]>,
    pub high: u32,
    pub low: u32,
}

/// A node where a turn can be taken: no leaf, and none of those that are not there. The table need not be good.
pub fn fork(nodes: &[i64], node: u32) -> Option<Fork> {
    let words = nodes.chunks_exact(NODE_WORDS).nth((node as usize).checked_sub(1)?)?;
    let branch = |place: usize| u32::try_from(words[place]).ok();
    let test = match words[0] {
        1 => None,
        2 => Some(words[1..=NUMBERS].try_into().expect("the numbers of a row")),
        _ => return None,
    };
    Some(Fork { test, high: branch(NUMBERS + 1)?, low: branch(NUMBERS + 2)? })
}

/// The turns from a root to a leaf, or the first so many of them, each as `side` has it.
pub fn turns(nodes: &[i64], root: u32, most: usize, mut side: impl FnMut() -> u8) -> Vec<u8> {
    let (mut turns, mut node) = (Vec::new(), root);
    while let Some(fork) = fork(nodes, node).filter(|_| turns.len() < most) {
        let turn = side();
        turns.push(turn);
        node = if turn == 1 { fork.high } else { fork.low };
    }
    turns
}

/// A turn of a path: the node where it is taken, the side, and the node's linear unless it is a condition.
#[derive(Clone, Copy, Debug, PartialEq, Eq)]
pub struct Step {
    pub node: u32,
    pub is_high: bool,
    pub test: Option<[i64; NUMBERS]>,
}

/// The steps of turns from a root; nothing where they do not fit (K10.2).
pub fn steps(nodes: &[i64], root: u32, turns: &[u8]) -> Option<Vec<Step>> {
    let mut node = root;
    let mut steps = Vec::with_capacity(turns.len());
    for &turn in turns {
        let Fork { test, high, low } = fork(nodes, node)?;
        let is_high = match turn {
            0 => false,
            1 => true,
            _ => return None,
        };
        steps.push(Step { node, is_high, test });
        node = if is_high { high } else { low };
    }
    Some(steps)
}

/// Do the multipliers of the tests show that no state takes the path? All sums are exact (K10.4).
fn is_shown(steps: &[Step], multipliers: &[i32]) -> bool {
    let (mut sum, mut is_strict) = ([0i128; NUMBERS], false);
    let tests = steps.iter().filter_map(|step| Some((step.is_high, step.test?)));
    for ((is_high, test), &multiplier) in tests.zip(multipliers) {
        let times = i128::from(if is_high { i64::from(multiplier) } else { -i64::from(multiplier) });
        for (sum, number) in sum.iter_mut().zip(test) {
            *sum += times * i128::from(number);
        }
        is_strict |= !is_high && multiplier > 0;
    }
    let cancels = sum[..LEVELS] == [0; LEVELS];
    let least = if is_strict { 0 } else { 1 };
    multipliers.iter().all(|&multiplier| multiplier >= 0) && cancels && sum[CONSTANT] >= least
}

/// Cuts off a path of a stage, in tables with so many work words; a long diagram asks for `with_deep_stack`.
pub fn prune(
    bytes: &[u8],
    nodes: &[i64],
    stages: &[u32],
    work_words: usize,
    stage: u32,
    turns: &[u8],
    multipliers: &[i32],
) -> Result<Pruned, Refusal> {
    let site = open::<NoTrees>(bytes, Some(stages.len()), Some(stage))?.site;
    let root = stages[stage as usize - 1];
    if root == 0 {
        return Refusal::of(15);
    }
    let greatest = stages.iter().fold(root, |greatest, &word| greatest.max(word));
    let rows: Result<Vec<Row>, Refusal> = (1..=greatest).map(|number| row(&site, nodes, number.into())).collect();
    let rows = rows?;
    let tests = |steps: &[Step]| steps.iter().filter(|step| step.test.is_some()).count();
    let path = steps(nodes, root, turns).filter(|path| !path.is_empty() && tests(path) == multipliers.len());
    let Some(path) = path else {
        return Refusal::of(22);
    };
    if !is_shown(&path, multipliers) {
        return Refusal::of(21);
    }
    if rows.len() + path.len() - 1 > room(nodes.len(), work_words) {
        return Err(Refusal { number: 12, place: stage });
    }
    Ok(remade(&rows, stages, stage, &path).expect("a store without a limit, and no number is worked out"))
}

/// A condition's or a test's, as it stands: nothing is divided.
fn label(row: &Row) -> Label {
    Label { kind: if row.kind == 1 { Kind::Condition } else { Kind::Test }, nums: *row.nums }
}

/// All stages anew, that of the path with its last node replaced by the branch that the path does not take.
fn remade(rows: &[Row], stages: &[u32], stage: u32, path: &[Step]) -> Result<Pruned, Fault> {
    let mut store = Store::new(usize::MAX);
    let mut made: Vec<Id> = Vec::with_capacity(rows.len());
    for row in rows {
        made.push(match row.kind {
            0 => store.leaf(*row.nums, row.high as Id)?,
            3 => store.none()?,
            _ => store.node_over(label(row), made[row.high as usize - 1], made[row.low as usize - 1])?,
        });
    }
    // From the last turn up: other paths keep the nodes that they share with this one (K10.6).
    let mut cut = None;
    for step in path.iter().rev() {
        let row = &rows[step.node as usize - 1];
        let (high, low) = (made[row.high as usize - 1], made[row.low as usize - 1]);
        cut = Some(match (cut, step.is_high) {
            (None, is_high) => {
                if is_high {
                    low
                } else {
                    high
                }
            }
            (Some(below), true) => store.node_over(label(row), below, low)?,
            (Some(below), false) => store.node_over(label(row), high, below)?,
        });
    }
    let mut written = Rows::new(&store);
    let mut words = [0; STAGES];
    for (h, (word, &root)) in (1..).zip(words.iter_mut().zip(stages)) {
        if root > 0 {
            let kept = made[root as usize - 1];
            *word = written.write(if h == stage { cut.unwrap_or(kept) } else { kept });
        }
    }
    Ok(Pruned { nodes: written.words, stages: words })
}
