//! A solve: loading, the operations of each stage, and the tables.

use crate::diagram::{condition, divided, Effort, Fault, Id, Kind, Label, Store};
use crate::model::{open, open_as, Model, Refusal, Site, Tree};
use crate::widths::{Old, CONDITIONS, NODES_MOST, NODE_WORDS, NUMBERS, PEAK_WORDS, STAGES, WORK_WORDS};
use crate::LIMIT;

/// What a solve returns and leaves. `nodes` has the rows in use; every node word after them is zero, and so is every
/// work word. After 11 and 12 all words are zero; after another refusal nothing is touched, and `peaks` is empty.
#[derive(Clone, Debug, Default, PartialEq, Eq)]
pub struct Outcome {
    pub number: u32,
    pub place: u32,
    pub peak: u32,
    pub nodes: Vec<i64>,
    pub stages: [u32; STAGES],
    /// The needed nodes of loading, and of each action over all stages (K9.1).
    pub peaks: Vec<u32>,
    /// Rule calls worked out and their greatest depth: figures of this program, not of 01.
    pub calls: u64,
    pub deepest: u32,
}

impl Outcome {
    /// Are the lent words left as they were?
    pub fn is_untouched(&self) -> bool {
        !matches!(self.number, 0 | 11 | 12)
    }
}

/// The loaded diagrams of an action.
struct Action {
    reward: Id,
    chances: Vec<Id>,
    nexts: Vec<Id>,
}

impl Action {
    fn roots(&mut self) -> impl Iterator<Item = &mut Id> {
        std::iter::once(&mut self.reward).chain(&mut self.chances).chain(&mut self.nexts)
    }
}

/// The largest counts of needed nodes.
struct Peaks {
    /// Of all operations, loading included (51).
    one: usize,
    /// Of loading, and of each action's own operations (K9.2, K9.3).
    each: Vec<u32>,
    /// The action at work, 0 while loading.
    action: usize,
}

impl Peaks {
    fn count(&mut self, needed: usize) {
        self.one = self.one.max(needed);
        self.each[self.action] = self.each[self.action].max(needed as u32);
    }
}

struct Solver<'a> {
    model: &'a Model,
    store: Store,
    actions: Vec<Action>,
    stages: Vec<Id>,
    best: Option<Id>,
    last: Option<Id>,
    peaks: Peaks,
    /// The stage at work.
    stage: u32,
}

/// What tables of so many words hold: N.
pub fn room(node_words: usize, work_words: usize) -> usize {
    (node_words / NODE_WORDS).min(work_words / WORK_WORDS).min(NODES_MOST)
}

/// Solves a model for tables of so many words; a large model asks for `with_deep_stack`.
pub fn solve(
    bytes: &[u8],
    horizon: u32,
    node_words: usize,
    stage_words: usize,
    work_words: usize,
    peak_words: usize,
) -> Outcome {
    let most = room(node_words, work_words);
    let model = match peak_words {
        PEAK_WORDS => open(bytes, Some(stage_words), Some(horizon)),
        _ => Refusal::of(10),
    };
    run(model, horizon, most)
}

/// A model of the old form, for a horizon of 1 to 8 and tables of so many nodes.
pub fn solve_old(bytes: &[u8], horizon: u32, nodes: usize) -> Outcome {
    run(open_as::<Old, _>(bytes), horizon, nodes)
}

fn run(model: Result<Model, Refusal>, horizon: u32, most: usize) -> Outcome {
    match model {
        Ok(model) => Solver::new(&model, most).run(horizon),
        Err(Refusal { number, place }) => Outcome { number, place, ..Outcome::default() },
    }
}

/// Solves a model in tables of so many nodes.
pub fn solve_with_room(bytes: &[u8], horizon: u32, nodes: usize) -> Outcome {
    solve(bytes, horizon, NODE_WORDS * nodes, STAGES, WORK_WORDS * nodes, PEAK_WORDS)
}

impl Solver<'_> {
    fn new(model: &Model, most: usize) -> Solver<'_> {
        Solver {
            model,
            store: Store::new(most),
            actions: Vec::new(),
            stages: Vec::new(),
            best: None,
            last: None,
            peaks: Peaks { one: 0, each: vec![0; PEAK_WORDS], action: 0 },
            stage: 0,
        }
    }

    fn run(mut self, horizon: u32) -> Outcome {
        let done = self.all_stages(horizon);
        let Effort { calls, deepest, .. } = self.store.effort;
        let mut outcome = Outcome { calls, deepest, ..Outcome::default() };
        match done {
            Ok(()) => {
                outcome.peak = self.peaks.one as u32;
                self.write(&mut outcome);
            }
            Err(number) => {
                (outcome.number, outcome.place) = (number, self.stage);
                self.peaks.each.fill(0);
            }
        }
        outcome.peaks = self.peaks.each;
        outcome
    }

    /// Keeps the needed nodes only: model, finished stages, best so far, last result (47, 50). An end worth is stage 0,
    /// finished as it is loaded (K1.2). Model and stages stand below what `fix` has fixed.
    fn begin(&mut self) {
        self.store.keep(self.best.iter_mut().chain(&mut self.last));
    }

    /// Before a stage: model and finished stages are needed to the end, and nothing else is. The last result is a stage.
    fn fix(&mut self) {
        self.last = None;
        let model = self.actions.iter_mut().flat_map(Action::roots);
        self.store.keep(model.chain(&mut self.stages));
        self.store.fix();
    }

    /// One operation: its result is the last one, and its count goes into the peaks.
    fn operation(&mut self, rule: impl FnOnce(&mut Self) -> Result<Id, Fault>) -> Result<(), Fault> {
        self.begin();
        self.last = Some(rule(self)?);
        self.peaks.count(self.store.count());
        Ok(())
    }

    fn load(&mut self) -> Result<(), Fault> {
        let mut made: Vec<Id> = Vec::with_capacity(self.model.trees.len());
        for tree in &self.model.trees {
            made.push(match *tree {
                Tree::Leaf(nums) => self.store.leaf(nums, 0)?,
                Tree::Forbidden => self.store.none()?,
                Tree::Condition { number, high, low } => {
                    self.store.choose(condition(number.into()), made[high as usize], made[low as usize])?
                }
                Tree::Test { linear, high, low } => {
                    self.store.choose(divided(linear), made[high as usize], made[low as usize])?
                }
            });
        }
        self.peaks.count(self.store.count());
        let of = |trees: &[u32]| -> Vec<Id> { trees.iter().map(|&tree| made[tree as usize]).collect() };
        let action = |i| Action {
            reward: made[self.model.reward(i) as usize],
            chances: of(self.model.chances(i)),
            nexts: of(self.model.nexts(i)),
        };
        self.actions = (0..self.model.site.a).map(action).collect();
        self.stages.extend(self.model.end_worth().map(|tree| made[tree as usize]));
        Ok(())
    }

    fn all_stages(&mut self, horizon: u32) -> Result<(), Fault> {
        self.load()?;
        for h in 1..=horizon {
            self.stage = h;
            self.fix();
            if self.stages.is_empty() {
                let zero = self.store.leaf([0; NUMBERS], 0)?; // 49, without an end worth
                self.stages.push(zero);
                self.fix();
            }
            for action in 0..self.model.site.a {
                self.peaks.action = action + 1;
                self.try_action(h, action)?;
            }
            self.stages.extend(self.best.take());
        }
        Ok(())
    }

    fn try_action(&mut self, h: u32, action: usize) -> Result<(), Fault> {
        let Site { n, w, .. } = self.model.site;
        self.operation(|s| {
            let before = s.stages[h as usize - 1];
            s.store.substitute(before, &s.actions[action].nexts)
        })?;
        for i in 0..n {
            self.operation(|s| {
                let (weight, last) = (s.actions[action].chances[i], s.last());
                let next = condition((CONDITIONS + 1 + i) as i64);
                let side = s.store.side(next, true, last)?; // 41
                let yes = s.store.product(weight, side)?;
                let rest = s.store.rest(w, weight)?;
                let side = s.store.side(next, false, last)?;
                let no = s.store.product(rest, side)?;
                s.store.sum(yes, no)
            })?;
        }
        self.operation(|s| {
            let power = power(w, n as u32 * h).ok_or(11u32)?; // 42
            let reward = s.store.scale(power, s.actions[action].reward)?;
            let total = s.store.sum(s.last(), reward)?;
            s.store.number(action as Id + 1, total) // 43
        })?;
        self.operation(|s| match s.best {
            None => Ok(s.last()),
            Some(best) => s.store.best(best, s.last()),
        })?;
        self.best = self.last;
        Ok(())
    }

    fn last(&self) -> Id {
        self.last.expect("a last result")
    }

    /// Numbers the nodes of stages 1 to H and writes them.
    fn write(&self, outcome: &mut Outcome) {
        let mut rows = Rows::new(&self.store);
        for (word, &root) in outcome.stages.iter_mut().zip(&self.stages[1..]) {
            *word = rows.write(root);
        }
        outcome.nodes = rows.words;
    }
}

/// Rows of the tables: nodes are numbered in the order in which they are written (57).
pub struct Rows<'a> {
    store: &'a Store,
    numbers: Vec<u32>,
    pub words: Vec<i64>,
}

impl Rows<'_> {
    pub fn new(store: &Store) -> Rows<'_> {
        Rows { store, numbers: vec![0; store.count()], words: Vec::new() }
    }

    /// Writes what is not there yet of a diagram, high before low, a node after its branches; its number.
    pub fn write(&mut self, id: Id) -> u32 {
        if self.numbers[id as usize] == 0 {
            let (node, &Label { kind, nums }) = (self.store.node(id), self.store.label(id));
            let (kind, high, low) = match kind {
                Kind::Leaf => (0, node.high, 0),
                Kind::None => (3, 0, 0),
                kind => {
                    let high = self.write(node.high);
                    (kind as i64, high, self.write(node.low))
                }
            };
            self.words.push(kind);
            self.words.extend(nums);
            self.words.extend([high, low].map(i64::from));
            self.numbers[id as usize] = (self.words.len() / NODE_WORDS) as u32;
        }
        self.numbers[id as usize]
    }
}

/// W to a power, if it is within the limits.
pub fn power(w: i64, exponent: u32) -> Option<i64> {
    w.checked_pow(exponent).filter(|&x| x <= LIMIT)
}
