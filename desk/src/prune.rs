//! Paths of a solved plan that no state can take: found by linear programming, and cut off by the library.

use crate::certificate::{is_high_at, judge_last, Judged, Linear, Point, Side};
use crate::fraction::Fraction;
use crate::library::{self, Refusal};
use crate::solved::Solved;
use crate::whole::Whole;
use crate::widths::*;
use std::time::Instant;

/// A path as the library has taken it.
#[derive(Clone, Debug)]
pub struct Sent {
    pub stage: u32,
    pub turns: Vec<u8>,
    pub multipliers: Vec<i32>,
}

/// Paths that stay although no state can take them.
#[derive(Clone, Debug, Default)]
pub struct Left {
    /// Their smallest multipliers do not fit 32 bits.
    pub wide: usize,
    /// The tables have no room for them.
    pub full: usize,
}

/// The nodes of a plan.
#[derive(Clone, Debug, PartialEq, Eq)]
pub struct Nodes {
    pub all: usize,
    /// Of each stage, those that it shares with others too.
    pub stages: Vec<usize>,
}

/// What has come of a plan.
pub struct Pruned {
    pub had: Nodes,
    pub has: Nodes,
    pub paths: Vec<Sent>,
    pub left: Left,
    /// Whether all paths were looked at in the time.
    pub whole: bool,
}

/// How far a walk is.
pub struct Progress {
    pub stage: u32,
    pub paths: usize,
    pub nodes: usize,
}

/// When a walk ends, and who is told how far it is.
pub struct Watch<'a> {
    pub until: Instant,
    pub tell: &'a mut dyn FnMut(&Progress),
}

#[derive(Clone)]
struct Tables {
    nodes: Vec<i64>,
    stages: [u32; STAGE_WORDS],
}

/// What stands at the end of a way.
enum Node {
    Leaf,
    Condition,
    Test(Linear),
}

/// The turns from a stage's root, and the sides of the tests among them.
struct Way {
    stage: u32,
    turns: Vec<u8>,
    sides: Vec<Side>,
}

/// Why a walk does not go on.
enum Stop {
    /// A node on the way is not there any more.
    Changed,
    TimeUp,
    Refused(Refusal),
}

impl Tables {
    fn rows(&self) -> usize {
        self.stages.iter().fold(0, |rows, &root| rows.max(root as usize))
    }

    fn words(&self, node: u32) -> &[i64] {
        &self.nodes[NODE_WORDS * (node as usize - 1)..][..NODE_WORDS]
    }

    /// How many nodes a stage's diagram has. Branches lie below their nodes.
    fn nodes_of(&self, stage: usize) -> usize {
        let root = self.stages[stage - 1] as usize;
        let mut is_met = vec![false; root + 1];
        is_met[root] = true;
        for node in (1..=root).rev() {
            let words = self.words(node as u32);
            if is_met[node] && !matches!(words[KIND], kind::LEAF | kind::NONE) {
                is_met[words[HIGH] as usize] = true;
                is_met[words[LOW] as usize] = true;
            }
        }
        is_met[1..].iter().filter(|&&met| met).count()
    }

    fn count(&self, horizon: usize) -> Nodes {
        Nodes { all: self.rows(), stages: (1..=horizon).map(|stage| self.nodes_of(stage)).collect() }
    }

    /// The nodes on the way and the one at its end, as far as they are there.
    fn nodes_on(&self, way: &Way) -> Vec<&[i64]> {
        let mut on = vec![self.words(self.stages[way.stage as usize - 1])];
        for &turn in &way.turns {
            let words = on[on.len() - 1];
            if matches!(words[KIND], kind::LEAF | kind::NONE) {
                break;
            }
            on.push(self.words(words[if turn == 1 { HIGH } else { LOW }] as u32));
        }
        on
    }

    fn end(&self, way: &Way) -> Node {
        let on = self.nodes_on(way);
        let words = on[on.len() - 1];
        match words[KIND] {
            kind::LEAF | kind::NONE => Node::Leaf,
            kind::CONDITION => Node::Condition,
            _ => Node::Test(std::array::from_fn(|place| words[COEFFICIENTS + place])),
        }
    }

    /// Whether the turns are taken at the same conditions and tests as in other tables.
    fn has_way_of(&self, other: &Tables, way: &Way) -> bool {
        let (on, on_other) = (self.nodes_on(way), other.nodes_on(way));
        let same = |(one, other): (&&[i64], &&[i64])| one[..HIGH] == other[..HIGH];
        on.len() == on_other.len() && on.iter().zip(&on_other).take(way.turns.len()).all(same)
    }
}

struct Walk<'a, 'b> {
    model: &'a [u8],
    watch: Watch<'b>,
    /// What the tables may hold.
    most: usize,
    tables: Tables,
    paths: Vec<Sent>,
    /// The smallest plan on the way, and how many paths it is without.
    best: (Tables, usize),
    left: Left,
}

impl Walk<'_, '_> {
    /// All stages: again while paths that had no room before may have it now.
    fn plan(&mut self, horizon: u32) -> Result<(), Stop> {
        loop {
            let sent = self.paths.len();
            self.left = Left::default();
            for stage in 1..=horizon {
                self.stage(stage)?;
            }
            if self.left.full == 0 || self.paths.len() == sent {
                return Ok(());
            }
        }
    }

    /// All paths of a stage: again from its root after a cut that has changed more than what lies below it.
    fn stage(&mut self, stage: u32) -> Result<(), Stop> {
        let (left, origin) = (self.left.clone(), std::array::from_fn(|_| Fraction::from(0)));
        loop {
            let mut way = Way { stage, turns: Vec::new(), sides: Vec::new() };
            match self.below(&mut way, &origin) {
                Err(Stop::Changed) => self.left = left.clone(),
                ended => return ended,
            }
        }
    }

    /// All paths that go on from the end of a way that the point takes. What is cut off there makes place for another node.
    fn below(&mut self, way: &mut Way, point: &Point) -> Result<(), Stop> {
        loop {
            let linear = match self.tables.end(way) {
                Node::Leaf => return Ok(()),
                Node::Condition => {
                    self.turn(way, true, None, point)?;
                    return self.turn(way, false, None, point);
                }
                Node::Test(linear) => linear,
            };
            let is_high = is_high_at(&linear, point);
            match self.judge(way, Side { is_high: !is_high, linear }, point)? {
                Judged::Impossible(multipliers) => {
                    if self.cut(way, !is_high, &multipliers)? {
                        continue;
                    }
                    return self.turn(way, is_high, Some(linear), point);
                }
                Judged::Taken(there) => {
                    self.turn(way, is_high, Some(linear), point)?;
                    return self.turn(way, !is_high, Some(linear), &there);
                }
            }
        }
    }

    /// The paths behind one more turn, which a test adds a side to.
    fn turn(&mut self, way: &mut Way, is_high: bool, test: Option<Linear>, point: &Point) -> Result<(), Stop> {
        way.turns.push(u8::from(is_high));
        way.sides.extend(test.map(|linear| Side { is_high, linear }));
        self.below(way, point)?;
        way.turns.pop();
        if test.is_some() {
            way.sides.pop();
        }
        Ok(())
    }

    /// Whether some state takes the way, as the point does, and this side.
    fn judge(&mut self, way: &mut Way, side: Side, point: &Point) -> Result<Judged, Stop> {
        (self.watch.tell)(&Progress { stage: way.stage, paths: self.paths.len(), nodes: self.tables.rows() });
        let until = self.watch.until;
        way.sides.push(side);
        let judged = judge_last(&way.sides, point, &|| Instant::now() < until);
        way.sides.pop();
        judged.ok_or(Stop::TimeUp)
    }

    /// Has the library cut off the way with one more turn; false where the path is left alone.
    fn cut(&mut self, way: &mut Way, is_high: bool, multipliers: &[Whole]) -> Result<bool, Stop> {
        let Some(multipliers) = multipliers.iter().map(Whole::to_i32).collect::<Option<Vec<i32>>>() else {
            self.left.wide += 1;
            return Ok(false);
        };
        let turns = [&way.turns[..], &[u8::from(is_high)]].concat();
        let rows = self.tables.rows();
        let room = (rows + turns.len() - 1).min(self.most);
        let mut after = Tables { nodes: self.tables.nodes[..NODE_WORDS * rows].to_vec(), stages: self.tables.stages };
        after.nodes.resize(NODE_WORDS * room, 0);
        let mut work = vec![0; WORK_WORDS * room];
        let Tables { nodes, stages } = &mut after;
        match library::prune(self.model, nodes, stages, &mut work, way.stage, &turns, &multipliers) {
            Err(refused) if library::wants_room(refused) => {
                self.left.full += 1;
                return Ok(false);
            }
            done => done.map_err(Stop::Refused)?,
        }
        let before = std::mem::replace(&mut self.tables, after);
        self.paths.push(Sent { stage: way.stage, turns, multipliers });
        if self.tables.rows() <= self.best.0.rows() {
            self.best = (self.tables.clone(), self.paths.len());
        }
        if self.tables.has_way_of(&before, way) {
            Ok(true)
        } else {
            Err(Stop::Changed)
        }
    }
}

/// Cuts off all paths of a plan that no state can take, stage by stage, in tables of so many nodes or of the most, as long as
/// the watch allows. Nodes that other paths share are copied, so that a plan may grow before it shrinks: the smallest one on
/// the way is what it comes to.
pub fn prune(solved: &Solved, nodes: Option<usize>, watch: Watch) -> Result<Pruned, Refusal> {
    let tables = Tables { nodes: solved.nodes.clone(), stages: solved.stages };
    let had = tables.count(solved.horizon);
    let (model, most, best) = (solved.model, nodes.unwrap_or(NODES_MOST), (tables.clone(), 0));
    let mut walk = Walk { model, watch, most, tables, paths: Vec::new(), best, left: Left::default() };
    let whole = match walk.plan(solved.horizon as u32) {
        Ok(()) => true,
        Err(Stop::Refused(refused)) => return Err(refused),
        Err(Stop::Changed | Stop::TimeUp) => false,
    };
    let (best, count) = walk.best;
    walk.paths.truncate(count);
    Ok(Pruned { had, has: best.count(solved.horizon), paths: walk.paths, left: walk.left, whole })
}
