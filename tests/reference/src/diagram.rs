//! Diagrams in a store, and the rules on them. A fault is 11 or 12, given the moment it is met.
//!
//! Between operations the store is cut down to the needed nodes, so that its length is the count of needed nodes at
//! every moment: what is needed from before, and what the operation's rules have made.

use crate::unique::{hash, Computed, Places};
use crate::widths::{CONDITIONS, CONSTANT, LEVELS, NUMBERS};
use crate::LIMIT;
use std::cell::Cell;

/// A node's place in the store. Branches stand before their node.
pub type Id = u32;
pub type Fault = u32;
type Numbers = [i64; NUMBERS];
/// A label's place in the store.
type LabelId = u32;

#[derive(Clone, Copy, Debug, PartialEq, Eq, PartialOrd, Ord)]
pub enum Kind {
    /// The condition's number is the first of the label's.
    Condition = 1,
    Test,
    /// A leaf that is forbidden, or without a value (K8): its numbers are zero.
    None,
    Leaf,
}

/// What a node tests or a leaf holds. The derived order is that of tests in 01 (23); leaves come last.
#[derive(Clone, Copy, Debug, PartialEq, Eq, PartialOrd, Ord)]
pub struct Label {
    pub kind: Kind,
    pub nums: Numbers,
}

/// A node; equal labels are one label, so that it is three numbers. A leaf has its action in place of `high`, or none.
#[derive(Clone, Copy, Debug, PartialEq, Eq)]
pub struct Node {
    label: LabelId,
    pub high: Id,
    pub low: Id,
}

/// What a result is remembered under, within one operation (52).
#[derive(Clone, Copy)]
enum Rule {
    Choose,
    Sum,
    Product,
    Best,
    Scale,
    Add,
    From,
    Number,
    Side,
    Substitute,
    Walk,
}

/// Rule calls that were worked out, and how deep they went, over all operations.
#[derive(Default)]
pub struct Effort {
    pub calls: u64,
    pub deepest: u32,
    depth: u32,
}

pub struct Store {
    nodes: Vec<Node>,
    node_places: Places,
    labels: Vec<Label>,
    label_places: Places,
    computed: Computed,
    /// The nodes before this place are needed as long as the store is.
    fixed: usize,
    most: usize,
    replaces: bool,
    pub effort: Effort,
}

thread_local! {
    static REPLACES: Cell<bool> = const { Cell::new(true) };
}

/// Runs a job whose stores leave parallel low branches as they are, as before K4: to count what the rule saves. No
/// comparison uses it.
pub fn without_replacing<T>(job: impl FnOnce() -> T) -> T {
    REPLACES.set(false);
    let result = job();
    REPLACES.set(true);
    result
}

impl Effort {
    fn begin(&mut self) {
        self.calls += 1;
        self.depth += 1;
        self.deepest = self.deepest.max(self.depth);
    }

    fn end(&mut self) {
        self.depth -= 1;
    }
}

/// A leaf's `low`.
const NO_BRANCH: Id = Id::MAX;
/// The `high` of the leaf none, which is never numbered and equals no other one (K8.2).
const NO_ACTION: Id = Id::MAX;
/// Where a node goes that is not needed.
const GONE: Id = Id::MAX;
/// Labels that no node has are dropped once there are so many for each node, and some.
const LABELS_A_NODE: usize = 4;

/// Judges a number (46); nothing is one that does not even fit.
fn judge(number: Option<i64>) -> Result<i64, Fault> {
    number.filter(|x| (-LIMIT..=LIMIT).contains(x)).ok_or(11)
}

/// Number by number.
fn combine(f: &Numbers, g: &Numbers, with: fn(i64, i64) -> Option<i64>) -> Result<Numbers, Fault> {
    let mut nums = [0; NUMBERS];
    for i in 0..NUMBERS {
        nums[i] = judge(with(f[i], g[i]))?;
    }
    Ok(nums)
}

/// Has a linear no coefficient?
fn is_constant(nums: &Numbers) -> bool {
    nums[..LEVELS] == [0; LEVELS]
}

pub fn condition(number: i64) -> Label {
    let mut nums = [0; NUMBERS];
    nums[0] = number;
    Label { kind: Kind::Condition, nums }
}

/// A linear with some coefficient not 0, divided by the common divisor (22).
pub fn divided(nums: Numbers) -> Label {
    let divisor = nums.iter().fold(0, |divisor, &x| common_divisor(divisor, x));
    Label { kind: Kind::Test, nums: if divisor == 1 { nums } else { nums.map(|x| x / divisor) } }
}

fn common_divisor(mut x: i64, mut y: i64) -> i64 {
    while y != 0 && x != 1 {
        (x, y) = (y, x % y);
    }
    x.abs()
}

impl Label {
    fn hash(&self) -> u32 {
        let mut words = [self.kind as u64; NUMBERS + 1];
        for (word, &number) in words.iter_mut().zip(&self.nums) {
            *word = number as u64;
        }
        hash(words)
    }

    /// The same coefficients and a larger constant: never true on the low side of the other.
    fn is_parallel_to(&self, other: &Label) -> bool {
        (self.kind, other.kind) == (Kind::Test, Kind::Test)
            && self.nums[CONSTANT] > other.nums[CONSTANT]
            && self.nums[..LEVELS] == other.nums[..LEVELS]
    }
}

impl Node {
    fn is_leaf(&self) -> bool {
        self.low == NO_BRANCH
    }

    fn is_none(&self) -> bool {
        self.high == NO_ACTION
    }

    fn hash(&self) -> u32 {
        hash([self.label.into(), self.high.into(), self.low.into()])
    }
}

impl Store {
    pub fn new(most: usize) -> Store {
        Store {
            nodes: Vec::new(),
            node_places: Places::new(),
            labels: Vec::new(),
            label_places: Places::new(),
            computed: Computed::new(),
            fixed: 0,
            most,
            replaces: REPLACES.get(),
            effort: Effort::default(),
        }
    }

    /// How many nodes there are.
    pub fn count(&self) -> usize {
        self.nodes.len()
    }

    pub fn node(&self, id: Id) -> Node {
        self.nodes[id as usize]
    }

    pub fn label(&self, id: Id) -> &Label {
        &self.labels[self.node(id).label as usize]
    }

    /// Says that all nodes there are will be needed to the end: `keep` need not look at them any more.
    pub fn fix(&mut self) {
        self.fixed = self.nodes.len();
    }

    /// Cuts the store down to what is fixed and what the roots lead to, and forgets all results.
    pub fn keep<'a>(&mut self, roots: impl Iterator<Item = &'a mut Id>) {
        let roots: Vec<&mut Id> = roots.filter(|root| **root as usize >= self.fixed).collect();
        let mut places = self.needed(&roots);
        self.slide(&mut places);
        for root in roots {
            *root = self.place(*root, &places);
        }
        if self.labels.len() > LABELS_A_NODE * (self.nodes.len() + 256) {
            self.keep_labels();
        }
        self.computed.forget();
    }

    /// Where a node has gone, of the places of those that are not fixed.
    fn place(&self, id: Id, places: &[Id]) -> Id {
        (id as usize).checked_sub(self.fixed).map_or(id, |i| places[i])
    }

    /// 0 for each node that the roots lead to, of those that are not fixed.
    fn needed(&self, roots: &[&mut Id]) -> Vec<Id> {
        let mut places = vec![GONE; self.nodes.len() - self.fixed];
        for root in roots {
            places[**root as usize - self.fixed] = 0;
        }
        for (i, node) in self.nodes[self.fixed..].iter().enumerate().rev() {
            if places[i] == 0 && !node.is_leaf() {
                for branch in [node.high, node.low] {
                    if let Some(place) = (branch as usize).checked_sub(self.fixed) {
                        places[place] = 0;
                    }
                }
            }
        }
        places
    }

    /// Moves the needed nodes together, and says where each one went. Those before the first gap stay as they are.
    fn slide(&mut self, places: &mut [Id]) {
        let fixed = self.fixed;
        let standing = places.iter().position(|&place| place == GONE).unwrap_or(places.len());
        for node in self.nodes[fixed + standing..].iter().rev() {
            self.node_places.take_last(node.hash());
        }
        for (i, place) in places[..standing].iter_mut().enumerate() {
            *place = (fixed + i) as Id;
        }
        let mut count = fixed + standing;
        for i in standing..places.len() {
            if places[i] == GONE {
                continue;
            }
            let mut node = self.nodes[fixed + i];
            if !node.is_leaf() {
                node.high = self.place(node.high, places);
                node.low = self.place(node.low, places);
            }
            places[i] = self.node_places.enter(node.hash());
            self.nodes[count] = node;
            count += 1;
        }
        self.nodes.truncate(count);
    }

    /// Drops the labels that no node has.
    fn keep_labels(&mut self) {
        let labels = std::mem::take(&mut self.labels);
        self.label_places = Places::new();
        self.node_places = Places::new();
        for i in 0..self.nodes.len() {
            let mut node = self.nodes[i];
            node.label = self.label_id(labels[node.label as usize]);
            self.nodes[i] = node;
            self.node_places.enter(node.hash());
        }
    }

    fn label_id(&mut self, label: Label) -> LabelId {
        let hash = label.hash();
        let labels = &self.labels;
        if let Some(id) = self.label_places.find(hash, |id| labels[id as usize] == label) {
            return id;
        }
        self.labels.push(label);
        self.label_places.enter(hash)
    }

    fn make(&mut self, node: Node) -> Result<Id, Fault> {
        let hash = node.hash();
        let nodes = &self.nodes;
        if let Some(id) = self.node_places.find(hash, |id| nodes[id as usize] == node) {
            return Ok(id);
        }
        if self.nodes.len() == self.most {
            return Err(12);
        }
        self.nodes.push(node);
        Ok(self.node_places.enter(hash))
    }

    pub fn leaf(&mut self, nums: Numbers, action: Id) -> Result<Id, Fault> {
        let label = self.label_id(Label { kind: Kind::Leaf, nums });
        self.make(Node { label, high: action, low: NO_BRANCH })
    }

    pub fn none(&mut self) -> Result<Id, Fault> {
        let label = self.label_id(Label { kind: Kind::None, nums: [0; NUMBERS] });
        self.make(Node { label, high: NO_ACTION, low: NO_BRANCH })
    }

    /// The low branch of a test, or its own low side while it begins with a parallel test.
    fn replaced(&self, label: LabelId, mut low: Id) -> Id {
        let test = &self.labels[label as usize];
        while self.replaces && self.label(low).is_parallel_to(test) {
            low = self.node(low).low;
        }
        low
    }

    /// A node: the low branch is replaced first, then the branches are compared (28).
    fn over(&mut self, label: LabelId, high: Id, low: Id) -> Result<Id, Fault> {
        let low = self.replaced(label, low);
        if high == low {
            return Ok(high);
        }
        self.make(Node { label, high, low })
    }

    /// The same, with a label as it stands.
    pub fn node_over(&mut self, label: Label, high: Id, low: Id) -> Result<Id, Fault> {
        let label = self.label_id(label);
        self.over(label, high, low)
    }

    fn first(&self, one: LabelId, other: LabelId) -> LabelId {
        if one == other || self.labels[one as usize] < self.labels[other as usize] {
            one
        } else {
            other
        }
    }

    /// High and low side at a test; a diagram without it at its root stands whole (24).
    fn sides(&self, id: Id, test: LabelId) -> (Id, Id) {
        let node = self.node(id);
        if node.label == test {
            (node.high, node.low)
        } else {
            (id, id)
        }
    }

    /// Works a rule out, unless the result is known.
    #[inline(always)]
    fn once(
        &mut self,
        rule: Rule,
        operands: [u32; 3],
        work: impl FnOnce(&mut Store) -> Result<Id, Fault>,
    ) -> Result<Id, Fault> {
        let key = (rule as u32, operands);
        if let Some(id) = self.computed.find(key) {
            return Ok(id);
        }
        self.effort.begin();
        let id = work(self)?;
        self.effort.end();
        self.computed.keep(key, id);
        Ok(id)
    }

    pub fn choose(&mut self, test: Label, high: Id, low: Id) -> Result<Id, Fault> {
        let test = self.label_id(test);
        self.choose_by(test, high, low)
    }

    fn choose_by(&mut self, test: LabelId, high: Id, low: Id) -> Result<Id, Fault> {
        // Equal operands may come to another diagram where the test is linear (25).
        if high == low && self.labels[test as usize].kind == Kind::Condition {
            return Ok(high);
        }
        self.once(Rule::Choose, [test, high, low], |s| {
            let root = s.first(test, s.first(s.node(high).label, s.node(low).label));
            let (high_sides, low_sides) = (s.sides(high, root), s.sides(low, root));
            if root == test {
                return s.over(test, high_sides.0, low_sides.1);
            }
            let high = s.choose_by(test, high_sides.0, low_sides.0)?;
            let low = s.choose_by(test, high_sides.1, low_sides.1)?;
            s.over(root, high, low)
        })
    }

    /// Sum and product, by the first root (29, 30).
    fn pair(&mut self, rule: Rule, f: Id, g: Id) -> Result<Id, Fault> {
        self.once(rule, [f, g, 0], |s| {
            let (x, y) = (s.node(f), s.node(g));
            if x.is_leaf() && y.is_leaf() {
                return if x.is_none() || y.is_none() {
                    s.pair_with_none(rule, f, g)
                } else {
                    s.pair_of_leaves(rule, f, g)
                };
            }
            let root = s.first(x.label, y.label);
            let (f, g) = (s.sides(f, root), s.sides(g, root));
            let high = s.pair(rule, f.0, g.0)?;
            let low = s.pair(rule, f.1, g.1)?;
            s.over(root, high, low)
        })
    }

    fn pair_of_leaves(&mut self, rule: Rule, f: Id, g: Id) -> Result<Id, Fault> {
        let (x, y) = (&self.label(f).nums, &self.label(g).nums);
        let nums = match rule {
            Rule::Sum => combine(x, y, i64::checked_add)?,
            _ => combine(&[x[CONSTANT]; NUMBERS], y, i64::checked_mul)?,
        };
        self.leaf(nums, 0)
    }

    /// A sum with none is none, and so is a product, unless the weight is 0: that is the leaf 0 (K8.3).
    fn pair_with_none(&mut self, rule: Rule, f: Id, g: Id) -> Result<Id, Fault> {
        match rule {
            Rule::Product if !self.node(f).is_none() && self.label(f).nums[CONSTANT] == 0 => self.leaf([0; NUMBERS], 0),
            _ => Ok(if self.node(f).is_none() { f } else { g }),
        }
    }

    pub fn sum(&mut self, f: Id, g: Id) -> Result<Id, Fault> {
        self.pair(Rule::Sum, f, g)
    }

    pub fn product(&mut self, weight: Id, f: Id) -> Result<Id, Fault> {
        self.pair(Rule::Product, weight, f)
    }

    /// The better of two (31). Two leaves are sooner compared than looked up.
    pub fn best(&mut self, f: Id, g: Id) -> Result<Id, Fault> {
        let (x, y) = (self.node(f), self.node(g));
        if x.is_leaf() && y.is_leaf() {
            return match (x.is_none(), y.is_none()) {
                (false, false) => self.best_of_leaves(f, g),
                (is_none, _) => Ok(if is_none { g } else { f }), // no d is worked out
            };
        }
        self.once(Rule::Best, [f, g, 0], |s| {
            let root = s.first(x.label, y.label);
            let (f, g) = (s.sides(f, root), s.sides(g, root));
            let high = s.best(f.0, g.0)?;
            let low = s.best(f.1, g.1)?;
            s.choose_by(root, high, low)
        })
    }

    fn best_of_leaves(&mut self, f: Id, g: Id) -> Result<Id, Fault> {
        self.effort.begin();
        let d = combine(&self.label(g).nums, &self.label(f).nums, i64::checked_sub)?;
        let result = match is_constant(&d) {
            true => Ok(if d[CONSTANT] <= 0 { f } else { g }),
            false => self.choose(divided(d), f, g),
        };
        self.effort.end();
        result
    }

    /// A bare number acting on the leaves (32).
    fn act(&mut self, rule: Rule, number: i64, f: Id) -> Result<Id, Fault> {
        self.once(rule, [f, number as u32, (number >> 32) as u32], |s| {
            let node = s.node(f);
            if node.is_leaf() {
                return if node.is_none() { s.act_on_none(rule, number, f) } else { s.act_on_leaf(rule, number, f) };
            }
            let high = s.act(rule, number, node.high)?;
            let low = s.act(rule, number, node.low)?;
            s.over(node.label, high, low)
        })
    }

    fn act_on_leaf(&mut self, rule: Rule, number: i64, f: Id) -> Result<Id, Fault> {
        let mut nums = self.label(f).nums;
        match rule {
            Rule::Scale => nums = combine(&[number; NUMBERS], &nums, i64::checked_mul)?,
            Rule::Add => nums[CONSTANT] = judge(number.checked_add(nums[CONSTANT]))?,
            Rule::From => nums[CONSTANT] = judge(number.checked_sub(nums[CONSTANT]))?,
            _ => return self.leaf(nums, number as Id),
        }
        self.leaf(nums, 0)
    }

    /// None stays, but 0 × none is 0.
    fn act_on_none(&mut self, rule: Rule, number: i64, f: Id) -> Result<Id, Fault> {
        match rule {
            Rule::Scale if number == 0 => self.leaf([0; NUMBERS], 0),
            _ => Ok(f),
        }
    }

    pub fn scale(&mut self, number: i64, f: Id) -> Result<Id, Fault> {
        self.act(Rule::Scale, number, f)
    }

    /// W − w.
    pub fn rest(&mut self, total: i64, weight: Id) -> Result<Id, Fault> {
        self.act(Rule::From, total, weight)
    }

    pub fn number(&mut self, action: Id, f: Id) -> Result<Id, Fault> {
        self.act(Rule::Number, action.into(), f)
    }

    /// The yes or no side of a next-step condition (40).
    pub fn side(&mut self, test: Label, yes: bool, f: Id) -> Result<Id, Fault> {
        let test = self.label_id(test);
        self.side_by(test, yes, f)
    }

    fn side_by(&mut self, test: LabelId, yes: bool, f: Id) -> Result<Id, Fault> {
        self.once(Rule::Side, [f, test, yes.into()], |s| {
            let node = s.node(f);
            if node.is_leaf() {
                return Ok(f);
            }
            if node.label == test {
                return Ok(if yes { node.high } else { node.low });
            }
            let high = s.side_by(test, yes, node.high)?;
            let low = s.side_by(test, yes, node.low)?;
            s.over(node.label, high, low)
        })
    }

    /// A linear of the next levels (33, 34).
    fn linear(&mut self, nums: &Numbers, nexts: &[Id]) -> Result<Id, Fault> {
        let mut sum = self.scale(nums[0], nexts[0])?;
        for (&c, &next) in nums.iter().zip(nexts).skip(1) {
            let term = self.scale(c, next)?;
            sum = self.sum(sum, term)?;
        }
        self.act(Rule::Add, nums[CONSTANT], sum)
    }

    /// Substitutes the next levels, one operation having one list of them (35 to 38).
    pub fn substitute(&mut self, f: Id, nexts: &[Id]) -> Result<Id, Fault> {
        self.once(Rule::Substitute, [f, 0, 0], |s| {
            let (node, Label { kind, nums }) = (s.node(f), *s.label(f));
            if kind == Kind::Leaf {
                return s.linear(&nums, nexts);
            }
            if kind == Kind::None {
                return Ok(f);
            }
            if kind == Kind::Condition {
                let high = s.substitute(node.high, nexts)?;
                let low = s.substitute(node.low, nexts)?;
                return s.choose(condition(nums[0] + CONDITIONS as i64), high, low);
            }
            let linear = s.linear(&nums, nexts)?;
            let high = s.substitute(node.high, nexts)?;
            let low = s.substitute(node.low, nexts)?;
            s.walk(linear, high, low)
        })
    }

    fn walk(&mut self, linear: Id, high: Id, low: Id) -> Result<Id, Fault> {
        self.once(Rule::Walk, [linear, high, low], |s| {
            let node = s.node(linear);
            if node.is_leaf() {
                return match s.label(linear).nums {
                    nums if is_constant(&nums) => Ok(if nums[CONSTANT] <= 0 { high } else { low }),
                    nums => s.choose(divided(nums), high, low),
                };
            }
            let on_high = s.walk(node.high, high, low)?;
            let on_low = s.walk(node.low, high, low)?;
            s.choose_by(node.label, on_high, on_low)
        })
    }
}
