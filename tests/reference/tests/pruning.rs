//! K10: paths that no state can take. The numbers are worked out by hand; random tables are held to what is read from them.

use models::{corner, foreign, pond, rain, random, Rng, TableWriter, Writer, MODEL_BYTES};
use reference::certificate::{found, multipliers};
use reference::prune::{fork, prune, steps, turns, Fork, Pruned, Step};
use reference::widths::{NODE_WORDS, STAGES, WORK_WORDS};
use reference::{listing, solve_with_room, validate, value, with_deep_stack, Refusal, State, LIMIT};
use std::rc::Rc;

/// A model, tables that go with its site, and what is to be cut off: a test changes one thing.
#[derive(Clone)]
struct Call {
    model: Vec<u8>,
    nodes: Vec<i64>,
    stages: Vec<u32>,
    work_words: usize,
    stage: u32,
    turns: Vec<u8>,
    multipliers: Vec<i32>,
}

impl Call {
    /// For stage 1, in tables of so many nodes.
    fn new(model: Vec<u8>, nodes: Vec<i64>, stages: [u32; STAGES], room: usize) -> Call {
        let (stages, turns, multipliers) = (stages.to_vec(), Vec::new(), Vec::new());
        let mut call = Call { model, nodes, stages, work_words: 0, stage: 1, turns, multipliers };
        call.resize(room);
        call
    }

    fn solved(model: Vec<u8>, horizon: u32, room: usize) -> Call {
        let done = solve_with_room(&model, horizon, 100);
        assert_eq!(done.number, 0);
        Call::new(model, done.nodes, done.stages, room)
    }

    /// Tables of so many nodes.
    fn resize(&mut self, room: usize) {
        self.nodes.resize(NODE_WORDS * room, 0);
        self.work_words = WORK_WORDS * room;
    }

    fn prune(&self) -> Result<Pruned, Refusal> {
        let Call { model, nodes, stages, work_words, stage, turns, multipliers } = self;
        prune(model, nodes, stages, *work_words, *stage, turns, multipliers)
    }

    /// The same call for another path.
    fn path(&self, turns: &[u8], multipliers: &[i32]) -> Call {
        Call { turns: turns.to_vec(), multipliers: multipliers.to_vec(), ..self.clone() }
    }

    fn judged(&self, turns: &[u8], multipliers: &[i32]) -> (u32, u32) {
        self.path(turns, multipliers).prune().map_or_else(|r| (r.number, r.place), |_| (0, 0))
    }

    /// Cuts the path off, and has what is left in tables of the same size.
    fn cut(&mut self, turns: &[u8], multipliers: &[i32]) {
        let Pruned { mut nodes, stages } = self.path(turns, multipliers).prune().expect("a path that no state takes");
        nodes.resize(self.nodes.len(), 0);
        (self.nodes, self.stages) = (nodes, stages.to_vec());
    }

    /// The lines of the nodes, without what begins them.
    fn lines(&self, horizon: u32) -> Vec<String> {
        let text = listing(&self.model, horizon, &self.nodes, &self.stages, usize::MAX, 0).expect("a listing");
        text.lines().skip(1).map(|line| line.to_string()).collect()
    }

    fn value(&self, steps: u32, state: State) -> reference::Reading {
        value(&self.model, &self.nodes, &self.stages, steps, state)
    }
}

/// One level, one condition and three actions; what the tables say is no matter of the model's.
fn site() -> Vec<u8> {
    let mut w = Writer::site(1, 1, 3, 1);
    for action in 1..=3 {
        w.leaf([], 0).reward(action).leaf([], 0).chance(action, 1).leaf([1], 0).next(action, 1);
    }
    w.end()
}

/// Tables in the hands of that site, for stages with these roots.
fn tables(write: impl FnOnce(&mut TableWriter), roots: &[u32]) -> Call {
    let mut table = TableWriter::default();
    write(&mut table);
    let stages = std::array::from_fn(|i| roots.get(i).copied().unwrap_or(0));
    let room = 60.max(2 * table.rows() as usize);
    Call::new(site(), table.0, stages, room)
}

fn state(levels: &[i32], d: i32) -> State {
    State { mask: 0, nums: std::array::from_fn(|i| levels.get(i).copied().unwrap_or(0)), d }
}

/// The plan asks L2 ≤ 0, then L1 ≤ 0, then L1 + L2 ≤ 0: ten nodes. With L2 ≤ 0 and L1 ≤ 0 the sum is not above 0; with both
/// above 0 it is.
#[test]
fn the_corner() {
    let mut call = Call::solved(corner(), 1, 12);
    let [l2, l1, both] = ["L 0 1 0 0 0 0 0 0 0", "L 1 0 0 0 0 0 0 0 0", "L 1 1 0 0 0 0 0 0 0"];
    let leaf = |number: u32, value: u32| format!("N {number} V 0 0 0 0 0 0 0 0 {value} 1");
    let node = |number: u32, test: &str, high: u32, low: u32| format!("N {number} {test} {high} {low}");
    let ten = [leaf(1, 1), leaf(2, 2), node(3, both, 1, 2), leaf(4, 3), node(5, both, 1, 4), node(6, l1, 3, 5)];
    let rest = [leaf(7, 4), node(8, both, 1, 7), node(9, l1, 3, 8), node(10, l2, 6, 9), "S 1 10".to_string()];
    assert_eq!(call.lines(1), [&ten[..], &rest].concat());
    // The node that is cut off stays in use where L2 is above 0: ten nodes again.
    call.cut(&[1, 1, 0], &[1, 1, 1]);
    let ten = [leaf(1, 1), leaf(2, 3), node(3, both, 1, 2), node(4, l1, 1, 3), leaf(5, 2), node(6, both, 1, 5)];
    let rest = [leaf(7, 4), node(8, both, 1, 7), node(9, l1, 6, 8), node(10, l2, 4, 9), "S 1 10".to_string()];
    assert_eq!(call.lines(1), [&ten[..], &rest].concat());
    // The other one is nobody's but its path's.
    call.cut(&[0, 0, 1], &[1, 1, 1]);
    let rest = [leaf(7, 4), node(8, l1, 6, 7), node(9, l2, 4, 8), "S 1 9".to_string()];
    assert_eq!(call.lines(1), [&ten[..], &rest].concat());
    // Now each path is some state's.
    for (turns, levels) in [
        ([1, 1].as_slice(), [-1, -1]),
        (&[1, 0, 1], [1, -1]),
        (&[1, 0, 0], [2, -1]),
        (&[0, 1, 1], [-1, 1]),
        (&[0, 1, 0], [-1, 2]),
        (&[0, 0], [1, 1]),
    ] {
        let taken = steps(&call.nodes, 9, turns).expect("a path");
        assert_eq!(found(&taken), Some(Vec::new()));
        assert!(taken.iter().all(|step| takes(step, state(&levels, 1))));
    }
}

/// Does a state take this turn?
fn takes(step: &Step, state: State) -> bool {
    step.test.is_none_or(|test| {
        let sum: i128 = test.iter().zip(&state.nums).map(|(&c, &x)| i128::from(c) * i128::from(x)).sum();
        (sum + i128::from(test[8]) * i128::from(state.d) <= 0) == step.is_high
    })
}

/// 12 counts the nodes up to the greatest root and a node for each turn but the last, of both slices.
#[test]
fn room() {
    let call = |room| Call::solved(corner(), 1, room).path(&[1, 1, 0], &[1, 1, 1]);
    let full = Err(Refusal { number: 12, place: 1 });
    assert!(call(12).prune().is_ok());
    assert_eq!(call(11).prune(), full);
    let mut short = call(12);
    short.work_words -= 1;
    assert_eq!(short.prune(), full);
    short.work_words = 0;
    assert_eq!(short.prune(), full);
    let mut short = call(12);
    short.nodes.pop();
    assert_eq!(short.prune(), full);
    // A single turn copies nothing: two nodes, and no more.
    let write = |t: &mut TableWriter| {
        t.leaf(&[], 5, 1);
        t.test(&[], 1, 1, 1);
    };
    let mut one = tables(write, &[0, 0, 0, 2]).path(&[1], &[1]);
    one.stage = 4;
    one.resize(2);
    assert_eq!(one.prune().map(|left| left.stages), Ok([0, 0, 0, 1, 0, 0, 0, 0]));
    one.work_words -= 1;
    assert_eq!(one.prune(), Err(Refusal { number: 12, place: 4 }));
    // The greatest root counts, whichever stage has it.
    let mut other = call(12);
    other.stages[7] = 11;
    other.nodes[10 * NODE_WORDS..][..NODE_WORDS].copy_from_slice(&Call::solved(corner(), 1, 12).nodes[..NODE_WORDS]);
    assert_eq!(other.prune(), full);
}

#[test]
fn shape() {
    let corner = Call::solved(corner(), 1, 12);
    for (turns, multipliers) in [
        (&[][..], &[][..]),
        (&[], &[1]),
        (&[1, 1, 2], &[1, 1, 1]),
        (&[255], &[1]),
        (&[1, 1, 0, 0], &[1, 1, 1]),
        (&[1, 1, 0, 0], &[1, 1, 1, 1]),
        (&[1, 1, 0], &[]),
        (&[1, 1, 0], &[1, 1]),
        (&[1, 1, 0], &[1, 1, 1, 0]),
        (&[1, 1, 0], &[1, -1]),
        (&[1; 300], &[1; 300]),
    ] {
        assert_eq!(corner.judged(turns, multipliers), (22, 0), "{turns:?} {multipliers:?}");
    }
    // A leaf has no turn, and neither has none.
    let leaves = |t: &mut TableWriter| _ = (t.none(), t.leaf(&[], 0, 1), t.test(&[1], 0, 1, 2));
    let call = tables(leaves, &[1, 2, 3]);
    for (stage, turns) in [(1, &[1][..]), (2, &[0]), (3, &[1, 1]), (3, &[0, 0])] {
        assert_eq!(Call { stage, ..call.clone() }.judged(turns, &[1][..turns.len().min(1)]), (22, 0));
    }
}

#[test]
fn sums() {
    let corner = Call::solved(corner(), 1, 12);
    for multipliers in [[2, 2, 2], [i32::MAX; 3], [1; 3]] {
        assert_eq!(corner.judged(&[1, 1, 0], &multipliers), (0, 0));
    }
    for (turns, multipliers) in [
        ([1, 1, 1], [1, 1, 1]),
        ([1, 1, 0], [0, 0, 0]),
        ([1, 1, 0], [1, 1, 2]),
        ([1, 1, 0], [1, 2, 1]),
        ([1, 1, 0], [0, 1, 1]),
        ([1, 1, 0], [-1, -1, -1]),
        ([0, 0, 0], [1, 1, 1]),
        ([0, 0, 0], [1, 1, -1]),
        ([1, 0, 0], [1, 0, 0]),
        ([1, 1, 0], [i32::MIN; 3]),
    ] {
        assert_eq!(corner.judged(&turns, &multipliers), (21, 0), "{turns:?} {multipliers:?}");
    }
}

/// L1 ≤ 0 and −L1 ≤ 0 leave 0; with L1 − 1 it is the same the other way round.
#[test]
fn strictness() {
    let call = tables(
        |t| {
            let (yes, no) = (t.leaf(&[], 1, 1), t.leaf(&[], 2, 1));
            let (above, below) = (t.test(&[-1], 0, yes, no), t.test(&[1], 0, yes, no));
            t.test(&[1], 0, above, below); // 5: L1 ≤ 0, then −L1 ≤ 0 on the high side, L1 ≤ 0 again on the low side
            let later = t.test(&[-1], 1, yes, no);
            t.test(&[1], 0, later, no); // 7: L1 ≤ 0, then L1 ≥ 1
            t.test(&[-2], 0, above, below); // 8: L1 ≥ 0, twice over
        },
        &[5, 7, 8],
    );
    let judged = |stage, turns: &[u8], multipliers: &[i32]| Call { stage, ..call.clone() }.judged(turns, multipliers).0;
    // Constant 0 with only high sides: 0 is such a level.
    assert_eq!(judged(1, &[1, 1], &[1, 1]), 21);
    // With a low side, if its multiplier is above 0.
    assert_eq!(judged(1, &[0, 1], &[1, 1]), 0);
    assert_eq!(judged(1, &[0, 1], &[0, 0]), 21);
    // Above 0 with high sides alone.
    assert_eq!(judged(2, &[1, 1], &[1, 1]), 0);
    // Below 0: 1/2 is such a level.
    assert_eq!(judged(2, &[0], &[1]), 21);
    assert_eq!(judged(3, &[1, 1], &[0, 1]), 21);
    // −2 L1 ≤ 0 twice over is no contradiction, and with −L1 > 0 it is: λ is 1 and 2.
    assert_eq!(judged(3, &[1, 0], &[1, 2]), 0);
    assert_eq!(judged(3, &[1, 0], &[1, 1]), 21);
    assert_eq!(judged(3, &[1, 0], &[2, 1]), 21);
}

/// −(L1 − 1) + L1 is 1: multipliers below 0 would show anything.
#[test]
fn negative_multipliers() {
    let call = tables(
        |t| {
            let (yes, no) = (t.leaf(&[], 1, 1), t.leaf(&[], 2, 1));
            let inner = t.test(&[1], 0, yes, no);
            let twice = t.test(&[1], 0, inner, no);
            t.test(&[1], -1, twice, no);
        },
        &[5],
    );
    assert_eq!(call.judged(&[1, 1], &[-1, 1]), (21, 0));
    // L1 ≤ 0 and then its low side: 1 and 1 are enough, and 2 less 1 comes to the same.
    assert_eq!(call.judged(&[1, 1, 0], &[0, 1, 1]), (0, 0));
    assert_eq!(call.judged(&[1, 1, 0], &[-1, 2, 1]), (21, 0));
    assert_eq!(call.judged(&[1, 1, 0], &[-1, 1, 1]), (21, 0));
    assert_eq!(call.judged(&[1, 1, 1], &[0, 1, -1]), (21, 0));
}

/// A condition has no multiplier and shows nothing, not even asked twice.
#[test]
fn conditions() {
    let call = tables(
        |t| {
            let (yes, no) = (t.leaf(&[], 1, 1), t.leaf(&[], 2, 1));
            let again = t.condition(1, yes, no);
            let first = t.condition(1, again, no);
            let after = t.test(&[1], 1, first, no);
            let between = t.condition(1, after, no);
            t.test(&[-1], 0, between, no); // 7: L1 ≥ 0, C1, L1 ≤ −1, C1, C1
        },
        &[4, 7],
    );
    assert_eq!(call.judged(&[1, 0], &[]), (21, 0));
    assert_eq!(call.judged(&[1, 0], &[0]), (22, 0));
    assert_eq!(call.judged(&[1, 1], &[]), (21, 0));
    let mut call = Call { stage: 2, ..call };
    for turns in [&[1, 1, 1][..], &[1, 0], &[1]] {
        assert_eq!(call.judged(turns, &[1; 3]), (22, 0));
    }
    assert_eq!(call.judged(&[1, 1], &[1]), (21, 0));
    assert_eq!(call.judged(&[1, 1, 1, 1], &[1, 1]), (0, 0));
    call.cut(&[1, 1, 1], &[1, 1]);
    // The test is gone: L1 ≥ 0 over C1 over two equal leaves, and so leaf 2 alone.
    assert_eq!(call.stages, [4, 2, 0, 0, 0, 0, 0, 0]);
}

/// Of two stages with one root only the one that is sent changes; a stage that begins within the path keeps its nodes.
#[test]
fn shared_nodes() {
    let plan = Call::solved(corner(), 1, 30);
    let stages = vec![10, 10, 0, 6, 3, 0, 9, 0];
    for stage in [1, 2] {
        let mut call = Call { stage, stages: stages.clone(), ..plan.clone() };
        let untouched = call.clone();
        let needed = 10 + 2;
        call.resize(needed);
        call.cut(&[1, 1, 0], &[1, 1, 1]);
        let rows = call.nodes.chunks(NODE_WORDS).filter(|row| **row != [0; NODE_WORDS]).count();
        // A copy of the root and one of the node below it.
        assert_eq!(rows, 12);
        assert_ne!(call.stages[0], call.stages[1]);
        assert_eq!([call.stages[2], call.stages[5], call.stages[7]], [0; 3]);
        for h in [1, 2, 4, 5, 7] {
            let path = steps(&call.nodes, call.stages[h - 1], &[1, 1, 0]);
            assert_eq!(path.is_some(), h <= 2 && h as u32 != stage, "stage {h}");
            for (x, y) in (-2..=2).flat_map(|x| (-2..=2).map(move |y| (x, y))) {
                let at = state(&[x, y], 1);
                assert_eq!(call.value(h as u32, at), untouched.value(h as u32, at));
            }
        }
        // Stages 4 and 7 begin at L1, and stage 5 at L1 + L2: the same paths as before.
        for (h, turns) in [(4, &[1, 0][..]), (7, &[1, 0]), (5, &[0])] {
            assert!(steps(&call.nodes, call.stages[h - 1], turns).is_some());
        }
    }
}

/// Equal rows become one, rows that no stage leads to go, stages without a root stay so.
#[test]
fn equal_and_unused_rows() {
    let mut call = tables(
        |t| {
            let (one, again, other) = (t.leaf(&[], 1, 1), t.leaf(&[], 1, 1), t.leaf(&[], 2, 3));
            t.none(); // 4, which nothing leads to
            let (first, second) = (t.test(&[1], 2, one, other), t.test(&[1], 2, again, other));
            t.condition(1, first, second); // 7, whose branches are equal
            let gone = t.test(&[-1], -5, other, first);
            t.test(&[-1], -3, gone, 7); // 9: L1 ≥ −3, L1 ≥ −5
            t.leaf(&[1], 0, 2); // 10, behind all roots
        },
        &[0, 9, 0, 7, 6, 0, 0, 3],
    );
    call.stage = 2;
    assert_eq!(call.judged(&[1, 0], &[1, 1]), (0, 0));
    call.cut(&[1, 0], &[1, 1]);
    assert_eq!(call.stages, [0, 4, 0, 3, 3, 0, 0, 1]);
    let row = |kind, c1, constant, high, low| [kind, c1, 0, 0, 0, 0, 0, 0, 0, constant, high, low];
    let rows = [row(0, 0, 2, 3, 0), row(0, 0, 1, 1, 0), row(2, 1, 2, 2, 1), row(2, -1, -3, 1, 3)];
    assert_eq!(call.nodes[..4 * NODE_WORDS], rows.concat());
    assert_eq!(call.nodes[4 * NODE_WORDS..], [0; 56 * NODE_WORDS]);
}

/// Making a node anew replaces a low branch that begins with a parallel test of a larger constant, as often as it applies,
/// and then compares the branches (K4); tests keep their factors.
#[test]
fn parallel_tests() {
    let mut call = tables(
        |t| {
            let (one, other) = (t.leaf(&[], 1, 1), t.leaf(&[], 2, 1));
            let third = t.test(&[1], 4, one, other);
            let second = t.test(&[1], 3, one, third);
            t.test(&[1], 1, one, second); // 5: three parallel tests, of which one is left
            t.test(&[1], 1, other, second); // 6: nothing is left of it but leaf 2
            t.test(&[2], 4, one, 5); // 7: twice L1 + 2 is not parallel to L1 + 1
            t.test(&[1], 9, one, 7); // 8
            let same = t.test(&[1], 5, one, other);
            t.test(&[1], 5, other, same); // 10: an equal constant is no larger one
            t.test(&[0], 1, 10, 8); // 11: 1 ≤ 0
        },
        &[11, 5, 6, 7, 10],
    );
    call.cut(&[1], &[1]);
    let row = |c1, constant, high, low| [2, c1, 0, 0, 0, 0, 0, 0, 0, constant, high, low];
    let leaf = |value| [0, 0, 0, 0, 0, 0, 0, 0, 0, value, 1, 0];
    let rows = [leaf(1), leaf(2), row(1, 1, 1, 2), row(2, 4, 1, 3), row(1, 9, 1, 4), row(1, 5, 1, 2), row(1, 5, 2, 6)];
    assert_eq!(call.stages, [5, 3, 2, 4, 7, 0, 0, 0]);
    assert_eq!(call.nodes[..7 * NODE_WORDS], rows.concat());
}

/// The path's own nodes are made by the same rule: the cut brings a parallel test to a low side.
#[test]
fn parallel_after_the_cut() {
    let mut call = tables(
        |t| {
            let (one, other) = (t.leaf(&[], 1, 1), t.leaf(&[], 2, 1));
            let parallel = t.test(&[1], 4, one, other);
            let asked = t.condition(1, parallel, one);
            let last = t.test(&[-1], 0, one, parallel);
            let low = t.test(&[0], 7, other, last); // 6: 7 ≤ 0
            t.test(&[1], 0, asked, low); // 7: L1 ≤ 0
        },
        &[7, 0, 3],
    );
    // L1 > 0, 7 > 0 and L1 < 0 is no state's: the low side is then leaf 1 behind 7 ≤ 0.
    call.cut(&[0, 0, 0], &[1, 0, 1]);
    call.cut(&[0, 1], &[0, 1]);
    let row = |kind, c1, constant, high, low| [kind, c1, 0, 0, 0, 0, 0, 0, 0, constant, high, low];
    let leaf = |value| row(0, 0, value, 1, 0);
    let rows = [leaf(1), leaf(2), row(2, 1, 4, 1, 2), row(1, 1, 0, 3, 1), row(2, 1, 0, 4, 1)];
    assert_eq!((&call.stages[..3], &call.nodes[..5 * NODE_WORDS]), (&[5, 0, 3][..], &rows.concat()[..]));
    // With the other branch in its place the test is parallel to the root, and leaf 2 behind it is left.
    let mut call = tables(
        |t| {
            let (one, other) = (t.leaf(&[], 1, 1), t.leaf(&[], 2, 1));
            let parallel = t.test(&[1], 4, one, other);
            let low = t.test(&[-1], 0, parallel, one);
            t.test(&[1], 0, one, low);
        },
        &[5, 4],
    );
    call.cut(&[0, 0], &[1, 1]);
    let rows = [leaf(1), leaf(2), row(2, 1, 0, 1, 2), row(2, 1, 4, 1, 2), row(2, -1, 0, 4, 1)];
    assert_eq!((&call.stages[..2], &call.nodes[..5 * NODE_WORDS]), (&[3, 5][..], &rows.concat()[..]));
}

#[test]
fn order_of_refusals() {
    let mut call = Call::solved(corner(), 1, 11).path(&[1, 1, 0], &[1, 1, 2]);
    call.multipliers = vec![1, 1, 1];
    let judged = |call: &Call| call.prune().map_or_else(|r| (r.number, r.place), |_| (0, 0));
    assert_eq!(judged(&call), (12, 1));
    call.multipliers[2] = 2;
    assert_eq!(judged(&call), (21, 0));
    call.turns[2] = 3;
    assert_eq!(judged(&call), (22, 0));
    call.nodes[NODE_WORDS] = 4;
    assert_eq!(judged(&call), (14, 0));
    call.stages[0] = 0;
    assert_eq!(judged(&call), (15, 0));
    call.model.truncate(9);
    assert_eq!(judged(&call), (2, 6));
    for stage in [0, 9, u32::MAX] {
        call.stage = stage;
        assert_eq!(judged(&call), (9, 0));
    }
    call.stages.pop();
    assert_eq!(judged(&call), (10, 0));
    call.stages.resize(8, 0);
    call.model.resize(MODEL_BYTES + 1, 0);
    assert_eq!(judged(&call), (10, 0));
}

/// 15 is the sent stage's alone; 14 is of every row up to the greatest of the eight words, whatever leads there.
#[test]
fn stages_and_rows() {
    let call = Call::solved(corner(), 1, 14).path(&[1, 1, 0], &[1, 1, 1]);
    let judged = |call: &Call| call.prune().map_or_else(|r| r.number, |_| 0);
    assert_eq!(judged(&Call { stage: 2, ..call.clone() }), 15);
    let mut behind = call.clone();
    behind.nodes[10 * NODE_WORDS] = 9;
    assert_eq!(judged(&behind), 0);
    behind.stages[5] = 11;
    assert_eq!(judged(&behind), 14);
    behind.stages[5] = u32::MAX;
    assert_eq!(judged(&behind), 14);
    behind.stages[5] = 15;
    behind.nodes[10 * NODE_WORDS] = 0;
    assert_eq!(judged(&behind), 14);
    for (word, number) in [(0, 5), (1, LIMIT + 1), (9, i64::MIN), (10, 0), (10, 2), (11, 1)] {
        let mut bad = call.clone();
        bad.nodes[word] = number; // of leaf 1, whose action is 1
        assert_eq!(judged(&bad), 14, "word {word}");
    }
}

/// Nine sums of products with the largest numbers, and with all eight coefficients, also those beyond the site's levels.
#[test]
fn large_sums() {
    let chain = |count: u32, last: i64| {
        tables(
            |t| {
                let (yes, no) = (t.leaf(&[], 1, 1), t.leaf(&[], 2, 1));
                let mut below = yes;
                for i in 0..2 * count {
                    // Seen from the root, first all of the one and then all of the other.
                    let sign = if i < count { -1 } else { 1 };
                    let constant = if i == 0 { last } else { sign * LIMIT };
                    below = t.test(&[sign * LIMIT; 8], constant, below, no);
                }
            },
            &[2 + 2 * count],
        )
    };
    let long = chain(1_000, 1 - LIMIT);
    assert_eq!(long.judged(&[1; 2_000], &[i32::MAX; 2_000]), (0, 0));
    assert_eq!(long.judged(&[1; 2_000], &[&[i32::MAX; 1_999][..], &[i32::MAX - 1]].concat()), (21, 0));
    let none = chain(1_000, -LIMIT);
    assert_eq!(none.judged(&[1; 2_000], &[i32::MAX; 2_000]), (21, 0));
    // The last turn is low: then the sum is that of one more, and does not cancel.
    assert_eq!(none.judged(&[&[1; 1_999][..], &[0]].concat(), &[i32::MAX; 2_000]), (21, 0));
    // A single coefficient, of any level, that is left over.
    for level in 0..8 {
        let mut one = chain(1, 1 - LIMIT);
        assert_eq!(one.judged(&[1, 1], &[7, 7]), (0, 0));
        one.nodes[2 * NODE_WORDS + 1 + level] += 1;
        assert_eq!(one.judged(&[1, 1], &[7, 7]), (21, 0), "L{}", level + 1);
    }
}

/// Rows are distinct, each is used, and they are numbered as after solving; every word behind them is zero.
fn assert_canonical(nodes: &[i64], stages: &[u32]) {
    let rows: Vec<&[i64]> = nodes.chunks(NODE_WORDS).collect();
    let mut numbers = vec![0; rows.len()];
    let mut count = 0;
    fn number(rows: &[&[i64]], at: usize, numbers: &mut [usize], count: &mut usize) {
        if numbers[at] > 0 {
            return;
        }
        if matches!(rows[at][0], 1 | 2) {
            number(rows, rows[at][10] as usize - 1, numbers, count);
            number(rows, rows[at][11] as usize - 1, numbers, count);
        }
        *count += 1;
        numbers[at] = *count;
    }
    for &root in stages.iter().filter(|&&root| root > 0) {
        number(&rows, root as usize - 1, &mut numbers, &mut count);
    }
    assert!(numbers.iter().enumerate().all(|(at, &number)| number == at + 1), "{numbers:?}");
    let mut sorted = rows.clone();
    sorted.sort();
    assert!(sorted.windows(2).all(|pair| pair[0] != pair[1]));
    for row in rows.iter().filter(|row| matches!(row[0], 1 | 2)) {
        assert_ne!(row[10..11], row[11..12]);
        let low = rows[row[11] as usize - 1];
        assert!(row[0] != 2 || low[0] != 2 || row[1..9] != low[1..9] || low[9] <= row[9]);
    }
}

/// Every stage reads the same at random states, on small numbers where many tests change.
fn assert_same_values(call: &Call, left: &Pruned, rng: &mut Rng) {
    let (m, n) = (usize::from(call.model[1]), call.model[2]);
    let after = Call { nodes: left.nodes.clone(), stages: left.stages.to_vec(), ..call.clone() };
    for _ in 0..20 {
        let size = rng.pick(&[1, 3, 20, i32::MAX]);
        let nums = std::array::from_fn(|i| if i < m { rng.between(0, size) * rng.pick(&[-1, 1]) } else { 0 });
        let at = State { mask: rng.below(1 << n) as u32, nums, d: rng.pick(&[1, 1, 2, 3]) };
        for h in 1..=STAGES as u32 {
            assert_eq!(call.value(h, at), after.value(h, at));
        }
    }
}

/// A diagram written out: no node is shared.
#[derive(PartialEq, Eq)]
enum Tree {
    Leaf(Vec<i64>),
    Node(Vec<i64>, Rc<Tree>, Rc<Tree>),
}

fn tree(nodes: &[i64], number: i64) -> Rc<Tree> {
    let row = &nodes[NODE_WORDS * (number as usize - 1)..][..NODE_WORDS];
    Rc::new(match row[0] {
        1 | 2 => Tree::Node(row[..10].to_vec(), tree(nodes, row[10]), tree(nodes, row[11])),
        _ => Tree::Leaf(row.to_vec()),
    })
}

fn cut(turns: &[u8], whole: &Rc<Tree>) -> Rc<Tree> {
    match (&**whole, turns) {
        (Tree::Node(_, high, low), [last]) => if *last == 1 { low } else { high }.clone(),
        (Tree::Node(test, high, low), [1, rest @ ..]) => {
            Rc::new(Tree::Node(test.clone(), cut(rest, high), low.clone()))
        }
        (Tree::Node(test, high, low), [_, rest @ ..]) => {
            Rc::new(Tree::Node(test.clone(), high.clone(), cut(rest, low)))
        }
        _ => whole.clone(),
    }
}

fn made_anew(whole: &Rc<Tree>) -> Rc<Tree> {
    let Tree::Node(test, high, low) = &**whole else { return whole.clone() };
    let (high, mut low) = (made_anew(high), made_anew(low));
    while let Tree::Node(below, _, next) = &*low {
        if test[0] != 2 || test[..9] != below[..9] || below[9] <= test[9] {
            break;
        }
        low = next.clone();
    }
    if high == low {
        high
    } else {
        Rc::new(Tree::Node(test.clone(), high, low))
    }
}

/// Enters what is not there, and says the number.
fn enter(table: &mut Vec<(Rc<Tree>, Vec<i64>)>, whole: &Rc<Tree>) -> i64 {
    if let Some(place) = table.iter().position(|(there, _)| there == whole) {
        return place as i64 + 1;
    }
    let row = match &**whole {
        Tree::Leaf(row) => row.clone(),
        Tree::Node(test, high, low) => {
            let high = enter(table, high);
            [&test[..], &[high, enter(table, low)]].concat()
        }
    };
    table.push((whole.clone(), row));
    table.len() as i64
}

/// The same by the words of K10, over diagrams written out: each stage cut, made anew from below, entered.
fn written_out(call: &Call, turns: &[u8]) -> Pruned {
    let (mut table, mut stages) = (Vec::new(), [0; STAGES]);
    for (h, (word, &root)) in (1..).zip(stages.iter_mut().zip(&call.stages)) {
        if root > 0 {
            let whole = tree(&call.nodes, root.into());
            *word = enter(&mut table, &made_anew(&if h == call.stage { cut(turns, &whole) } else { whole })) as u32;
        }
    }
    Pruned { nodes: table.into_iter().flat_map(|(_, row)| row).collect(), stages }
}

/// How often something was seen.
#[derive(Debug, Default)]
struct Seen {
    accepted: usize,
    by_strictness: usize,
    shrunk: usize,
    grown: usize,
    taken: usize,
    written_out: usize,
}

/// Of so many paths, those that can be shown to be no state's, one after the other.
fn random_paths(call: &mut Call, count: usize, rng: &mut Rng, seen: &mut Seen) {
    for _ in 0..count {
        let stage = rng.below(STAGES);
        let root = call.stages[stage];
        let turns = turns(&call.nodes, root, 12, || rng.below(2) as u8);
        let path = steps(&call.nodes, root, &turns).expect("a path");
        let ways = multipliers(&path);
        if ways.is_empty() {
            seen.taken += usize::from(!path.is_empty());
            continue;
        }
        call.stage = stage as u32 + 1;
        let way = &ways[rng.below(ways.len())];
        let left = one_path(call, &turns, &path, way, rng, seen);
        let words = call.nodes.len();
        (call.nodes, call.stages) = (left.nodes, left.stages.to_vec());
        call.nodes.resize(words, 0);
    }
}

/// Cuts a path off, and holds what is left to what was there.
fn one_path(call: &Call, turns: &[u8], path: &[Step], way: &[i32], rng: &mut Rng, seen: &mut Seen) -> Pruned {
    let before = *call.stages.iter().max().expect("eight words") as usize;
    let left = call.path(turns, way).prune().expect("shown");
    let rows = left.nodes.len() / NODE_WORDS;
    assert!(rows < before + turns.len());
    assert_canonical(&left.nodes, &left.stages);
    assert_same_values(call, &left, rng);
    if before <= 20 {
        assert_eq!(left, written_out(call, turns));
        seen.written_out += 1;
    }
    fail_by_one(call, path, turns, way);
    let terms = way.iter().zip(tests(path)).map(|(&k, (is_high, test))| {
        let size = i128::from(k) * i128::from(test[8]);
        if is_high {
            size
        } else {
            -size
        }
    });
    seen.accepted += 1;
    seen.by_strictness += usize::from(terms.sum::<i128>() == 0);
    seen.shrunk += usize::from(rows < before);
    seen.grown += usize::from(rows > before);
    left
}

fn tests(path: &[Step]) -> impl Iterator<Item = (bool, [i64; 9])> + '_ {
    path.iter().filter_map(|step| Some((step.is_high, step.test?)))
}

/// A multiplier that is one more or one less shows nothing, if its test has some coefficient; the turns have to be the same.
fn fail_by_one(call: &Call, path: &[Step], turns: &[u8], way: &[i32]) {
    for (place, (_, test)) in tests(path).enumerate().filter(|(_, (_, test))| test[..8] != [0; 8]) {
        for by in [-1, 1] {
            let mut other = way.to_vec();
            other[place] = other[place].wrapping_add(by);
            assert_eq!(call.judged(turns, &other), (21, 0), "{test:?}");
        }
    }
    assert_eq!(call.judged(turns, &[way, &[0]].concat()).0, 22);
    assert_eq!(call.judged(turns, &way[..way.len() - 1]).0, 22);
}

/// In tables of a solve, and in any that 14 lets pass.
#[test]
fn random_tables() {
    let (mut solved, mut others) = (Seen::default(), Seen::default());
    with_deep_stack(|| {
        for seed in 0..1_500 {
            let mut rng = Rng(seed);
            let model = random(&mut rng);
            if validate(&model) != (0, 0) {
                continue;
            }
            let done = solve_with_room(&model, 3, 600);
            if done.number == 0 {
                random_paths(&mut Call::new(model.clone(), done.nodes, done.stages, 2_000), 60, &mut rng, &mut solved);
            }
            let (nodes, stages) = foreign(&mut rng, model[2].into(), u16::from_le_bytes([model[3], model[4]]).into());
            random_paths(&mut Call::new(model, nodes, stages, 2_000), 6, &mut rng, &mut others);
        }
    });
    for seen in [&solved, &others] {
        assert!(seen.accepted > 300 && seen.taken > 300 && seen.by_strictness > 20, "{solved:?} {others:?}");
        assert!(seen.shrunk > 30 && seen.grown > 10 && seen.written_out > 30, "{solved:?} {others:?}");
    }
}

/// No path that some state takes is shown to be nobody's.
#[test]
fn paths_of_states() {
    let mut rng = Rng(7);
    for _ in 0..2_000 {
        let (nodes, stages) = foreign(&mut rng, 2, 3);
        let root = *stages.iter().max().expect("eight words");
        let at = State { mask: 0, nums: std::array::from_fn(|_| rng.between(-3, 3)), d: rng.pick(&[1, 2]) };
        let (mut path, mut node) = (Vec::new(), root);
        while let Some(Fork { test, high, low }) = fork(&nodes, node).filter(|_| path.len() < 12) {
            let is_high = takes(&Step { node, is_high: true, test }, at);
            path.push(Step { node, is_high, test });
            node = if is_high { high } else { low };
        }
        assert_eq!(found(&path).unwrap_or_default(), Vec::<Vec<i128>>::new());
    }
}

/// Both ponds keep their plans: their paths are all some state's.
#[test]
fn nothing_to_cut() {
    for model in [pond(), rain()] {
        let call = Call::solved(model, 4, 100);
        let mut rng = Rng(1);
        for _ in 0..100 {
            let root = call.stages[rng.below(4)];
            let turns = turns(&call.nodes, root, 20, || rng.below(2) as u8);
            assert_eq!(found(&steps(&call.nodes, root, &turns).expect("a path")), Some(Vec::new()));
        }
    }
}
