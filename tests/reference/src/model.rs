//! The site model: commands, refusals 1 to 8, and the diagrams as written, in either form.

use crate::widths::{Form, New, Old, CONDITIONS, CONSTANT, LETTERS, LEVELS, NUMBERS, STACK_MOST, STAGES, WEIGHT_MOST};
use std::marker::PhantomData;

/// A refusal: 01's number and place.
#[derive(Clone, Copy, Debug, PartialEq, Eq)]
pub struct Refusal {
    pub number: u32,
    pub place: u32,
}

impl Refusal {
    /// A refusal at place 0.
    pub fn of<T>(number: u32) -> Result<T, Refusal> {
        Err(Refusal { number, place: 0 })
    }
}

pub const LEAF: u8 = 0x10;
pub const CONDITION: u8 = 0x11;
pub const TEST: u8 = 0x12;
pub const FORBIDDEN: u8 = 0x13;
pub const REWARD: u8 = 0x20;
pub const CHANCE: u8 = 0x21;
pub const NEXT: u8 = 0x22;
pub const END_WORTH: u8 = 0x23;
pub const NAME: u8 = 0x30;
pub const END: u8 = 0xFF;

/// The site command: levels, conditions, actions, weight total.
#[derive(Clone, Copy, Debug)]
pub struct Site {
    pub m: usize,
    pub n: usize,
    pub a: usize,
    pub w: i64,
}

/// A diagram as written. Branches are earlier places in the list of trees, whose order is that of the commands.
#[derive(Clone, Copy, Debug)]
pub enum Tree {
    Leaf([i64; NUMBERS]),
    Forbidden,
    Condition { number: u8, high: u32, low: u32 },
    Test { linear: [i64; NUMBERS], high: u32, low: u32 },
}

/// Where a reader leaves the written diagrams.
pub trait Trees: Default {
    /// Says at which place.
    fn add(&mut self, tree: impl FnOnce() -> Tree) -> u32;
}

impl Trees for Vec<Tree> {
    fn add(&mut self, tree: impl FnOnce() -> Tree) -> u32 {
        self.push(tree());
        self.len() as u32 - 1
    }
}

/// Takes no diagram: for those who only ask whether a model is without fault.
#[derive(Debug, Default)]
pub struct NoTrees;

impl Trees for NoTrees {
    fn add(&mut self, _: impl FnOnce() -> Tree) -> u32 {
        0
    }
}

/// What an action is given: its reward first, then places for chances, for next levels, and one for the name.
const CHANCES: usize = 1;
const NEXTS: usize = CHANCES + CONDITIONS;
const NAMES: usize = NEXTS + LEVELS;
const MISSING: u32 = u32::MAX;

/// A model without fault. What is given are places of trees, and for a name the offset of its letters; actions count
/// from 0.
#[derive(Debug)]
pub struct Model<T = Vec<Tree>> {
    pub site: Site,
    pub trees: T,
    given: Vec<[u32; NAMES + 1]>,
    end_worth: u32,
    /// Has it a forbidden leaf, also one that loading would drop?
    pub forbids: bool,
}

impl<T> Model<T> {
    /// Where one is given (K1.1).
    pub fn end_worth(&self) -> Option<u32> {
        (self.end_worth != MISSING).then_some(self.end_worth)
    }

    pub fn reward(&self, action: usize) -> u32 {
        self.given[action][0]
    }

    pub fn chances(&self, action: usize) -> &[u32] {
        &self.given[action][CHANCES..][..self.site.n]
    }

    pub fn nexts(&self, action: usize) -> &[u32] {
        &self.given[action][NEXTS..][..self.site.m]
    }

    pub fn name(&self, action: usize) -> Option<usize> {
        let offset = self.given[action][NAMES];
        (offset != MISSING).then_some(offset as usize)
    }

    fn is_whole(&self, action: usize) -> bool {
        let mut diagrams = self.chances(action).iter().chain(self.nexts(action));
        self.reward(action) != MISSING && diagrams.all(|&tree| tree != MISSING)
    }
}

/// The three facts of a written tree (11), as bits: one holds of a tree if it holds of a part.
mod fact {
    pub const NEXT_STEP: u8 = 1;
    pub const NO_WEIGHT: u8 = 2;
    pub const FORBIDDEN: u8 = 4;
}

#[derive(Clone, Copy, Default)]
struct Entry {
    tree: u32,
    facts: u8,
}

impl Entry {
    /// The rule on diagrams, by the facts that are refused.
    fn without(self, refused: u8) -> Result<(), u32> {
        if self.facts & refused == 0 {
            Ok(())
        } else {
            Err(4)
        }
    }
}

/// The operands of a leaf or a test. An old one has no words for the upper half of the coefficients, which are zero.
struct Linear<'a, F>(&'a [u8], PhantomData<F>);

/// All coefficients as two words, the first one lowest.
type Coefficients = [u128; 2];
const COEFFICIENT_BITS: usize = 32;
const _: () = assert!(LEVELS * COEFFICIENT_BITS == 2 * 128);

impl<F: Form> Linear<'_, F> {
    fn number(&self, place: usize) -> i64 {
        let bytes = self.0[4 * place..][..4].try_into().expect("four bytes");
        i32::from_le_bytes(bytes).into()
    }

    fn constant(&self) -> i64 {
        self.number(F::LEVELS)
    }

    fn numbers(&self) -> [i64; NUMBERS] {
        let mut numbers = [0; NUMBERS];
        for (place, number) in numbers[..F::LEVELS].iter_mut().enumerate() {
            *number = self.number(place);
        }
        numbers[CONSTANT] = self.constant();
        numbers
    }

    fn coefficients(&self) -> Coefficients {
        let word = |place: usize| match self.0[..4 * F::LEVELS].get(16 * place..16 * (place + 1)) {
            Some(bytes) => u128::from_le_bytes(bytes.try_into().expect("sixteen bytes")),
            None => 0,
        };
        [word(0), word(1)]
    }
}

/// The bits of the coefficients beyond level m.
fn beyond(m: usize) -> Coefficients {
    let bits = |word: usize| {
        let kept = (m * COEFFICIENT_BITS).saturating_sub(128 * word) as u32;
        u128::MAX.checked_shl(kept).unwrap_or(0)
    };
    [bits(0), bits(1)]
}

/// Is the operand 1 to `most`?
fn within(operand: u16, most: usize) -> bool {
    operand >= 1 && usize::from(operand) <= most
}

/// A number of one or two bytes, low byte first.
fn number(bytes: &[u8]) -> u16 {
    bytes.iter().rev().fold(0, |number, &byte| number << 8 | u16::from(byte))
}

/// Is the first operand of this command an action?
pub fn takes_action(code: u8) -> bool {
    matches!(code, REWARD | CHANCE | NEXT | NAME)
}

/// A command and its operands, or 3 or 2 (1).
pub fn command<F: Form>(bytes: &[u8], offset: usize) -> Result<(u8, &[u8]), u32> {
    let &code = bytes.get(offset).ok_or(2u32)?;
    let width = match code {
        LEAF | TEST => 4 * (F::LEVELS + 1),
        CONDITION => 1,
        REWARD => F::ACTION_BYTES,
        CHANCE | NEXT => F::ACTION_BYTES + 1,
        NAME => F::ACTION_BYTES + LETTERS,
        END_WORTH | END => 0,
        FORBIDDEN if F::FORBIDS => 0,
        code if code == F::SITE => 3 + F::ACTION_BYTES,
        _ => return Err(3),
    };
    Ok((code, bytes.get(offset + 1..offset + 1 + width).ok_or(2u32)?))
}

fn site<F: Form>(bytes: &[u8]) -> Result<Site, u32> {
    let (code, operands) = command::<F>(bytes, 0)?;
    if code != F::SITE {
        return Err(1);
    }
    let (m, n, w) = (operands[0], operands[1], operands[2 + F::ACTION_BYTES]);
    let a = number(&operands[2..2 + F::ACTION_BYTES]);
    let conditions = usize::from(n) <= CONDITIONS;
    if within(m.into(), F::LEVELS) && conditions && within(a, F::ACTIONS) && within(w.into(), WEIGHT_MOST) {
        Ok(Site { m: m.into(), n: n.into(), a: a.into(), w: w.into() })
    } else {
        Err(4)
    }
}

/// A model as far as it has been read. Each command gives its refusal's number, or nothing; within a command the
/// operands are judged first (4), then the stack (5), what is given twice (6), the diagram (4).
struct Reader<F, T> {
    model: Model<T>,
    beyond: Coefficients,
    stack: [Entry; STACK_MOST],
    height: usize,
    form: PhantomData<F>,
}

impl<F: Form, T: Trees> Reader<F, T> {
    fn new(site: Site) -> Reader<F, T> {
        let given = vec![[MISSING; NAMES + 1]; site.a];
        let model = Model { site, trees: T::default(), given, end_worth: MISSING, forbids: false };
        let stack = [Entry::default(); STACK_MOST];
        Reader { model, beyond: beyond(site.m), stack, height: 0, form: PhantomData }
    }

    fn take(&mut self, code: u8, operands: &[u8], offset: usize) -> Result<(), u32> {
        match code {
            LEAF => self.leaf(Linear(operands, PhantomData)),
            TEST => self.test(Linear(operands, PhantomData)),
            CONDITION => self.condition(operands[0]),
            FORBIDDEN => self.forbidden(),
            REWARD | CHANCE | NEXT => self.give(code, operands),
            END_WORTH => self.end_worth(),
            NAME => self.name(operands, offset),
            _ => Err(1),
        }
    }

    fn is_within(&self, coefficients: Coefficients) -> bool {
        coefficients[0] & self.beyond[0] | coefficients[1] & self.beyond[1] == 0
    }

    fn leaf(&mut self, linear: Linear<F>) -> Result<(), u32> {
        let coefficients = linear.coefficients();
        if !self.is_within(coefficients) {
            return Err(4);
        }
        let is_weight = coefficients == [0; 2] && (0..=self.model.site.w).contains(&linear.constant());
        self.push(|| Tree::Leaf(linear.numbers()), if is_weight { 0 } else { fact::NO_WEIGHT })
    }

    fn forbidden(&mut self) -> Result<(), u32> {
        self.model.forbids = true;
        self.push(|| Tree::Forbidden, fact::FORBIDDEN)
    }

    fn push(&mut self, tree: impl FnOnce() -> Tree, facts: u8) -> Result<(), u32> {
        if self.height == STACK_MOST {
            return Err(5);
        }
        self.stack[self.height] = Entry { tree: self.model.trees.add(tree), facts };
        self.height += 1;
        Ok(())
    }

    fn test(&mut self, linear: Linear<F>) -> Result<(), u32> {
        let coefficients = linear.coefficients();
        if !self.is_within(coefficients) || coefficients == [0; 2] {
            return Err(4);
        }
        self.branch(0, |high, low| Tree::Test { linear: linear.numbers(), high, low })
    }

    fn condition(&mut self, number: u8) -> Result<(), u32> {
        let later = CONDITIONS as u8;
        let is_next = number > later;
        let condition = if is_next { number - later } else { number };
        if !within(condition.into(), self.model.site.n) {
            return Err(4);
        }
        let facts = if is_next { fact::NEXT_STEP } else { 0 };
        self.branch(facts, |high, low| Tree::Condition { number, high, low })
    }

    fn branch(&mut self, facts: u8, tree: impl FnOnce(u32, u32) -> Tree) -> Result<(), u32> {
        if self.height < 2 {
            return Err(5);
        }
        let [high, low] = [self.stack[self.height - 2], self.stack[self.height - 1]];
        self.height -= 1;
        let facts = facts | high.facts | low.facts;
        self.stack[self.height - 1] = Entry { tree: self.model.trees.add(|| tree(high.tree, low.tree)), facts };
        Ok(())
    }

    /// The action's place in what is given, or 4.
    fn action(&self, operands: &[u8]) -> Result<usize, u32> {
        let action = number(&operands[..F::ACTION_BYTES]);
        if within(action, self.model.site.a) {
            Ok(usize::from(action) - 1)
        } else {
            Err(4)
        }
    }

    fn give(&mut self, code: u8, operands: &[u8]) -> Result<(), u32> {
        let action = self.action(operands)?;
        let (most, first, refused) = match code {
            REWARD => (0, 0, fact::NEXT_STEP),
            CHANCE => (self.model.site.n, CHANCES, fact::NEXT_STEP | fact::NO_WEIGHT | fact::FORBIDDEN),
            _ => (self.model.site.m, NEXTS, fact::FORBIDDEN),
        };
        let what = match operands.get(F::ACTION_BYTES) {
            None => 0,
            Some(&index) if within(index.into(), most) => first + usize::from(index) - 1,
            Some(_) => return Err(4),
        };
        let entry = self.pop()?;
        put(&mut self.model.given[action][what], entry.tree)?;
        entry.without(refused)
    }

    /// Any linear, as in a reward, but no forbidden leaf; and no next-step condition.
    fn end_worth(&mut self) -> Result<(), u32> {
        let entry = self.pop()?;
        put(&mut self.model.end_worth, entry.tree)?;
        entry.without(fact::NEXT_STEP | fact::FORBIDDEN)
    }

    fn pop(&mut self) -> Result<Entry, u32> {
        self.height = self.height.checked_sub(1).ok_or(5u32)?;
        Ok(self.stack[self.height])
    }

    fn name(&mut self, operands: &[u8], offset: usize) -> Result<(), u32> {
        let (action, letters) = (self.action(operands)?, &operands[F::ACTION_BYTES..]);
        if !letters.iter().all(|b| (0x20..=0x7E).contains(b)) {
            return Err(4);
        }
        put(&mut self.model.given[action][NAMES], (offset + 1 + F::ACTION_BYTES) as u32)
    }

    fn end(self) -> Result<Model<T>, u32> {
        let is_whole = (0..self.model.site.a).all(|action| self.model.is_whole(action));
        if is_whole && self.height == 0 {
            Ok(self.model)
        } else {
            Err(7)
        }
    }
}

/// Gives what has not been given before.
fn put(given: &mut u32, place: u32) -> Result<(), u32> {
    if *given != MISSING {
        return Err(6);
    }
    *given = place;
    Ok(())
}

/// Reads a model, or gives the first refusal of 1 to 8.
fn parse<F: Form, T: Trees>(bytes: &[u8]) -> Result<Model<T>, Refusal> {
    let refusal = |place: usize| move |number| Refusal { number, place: place as u32 };
    let mut reader = Reader::<F, T>::new(site::<F>(bytes).map_err(refusal(0))?);
    let mut offset = 4 + F::ACTION_BYTES;
    loop {
        let (code, operands) = command::<F>(bytes, offset).map_err(refusal(offset))?;
        if code == END {
            break;
        }
        reader.take(code, operands, offset).map_err(refusal(offset))?;
        offset += 1 + operands.len();
    }
    let model = reader.end().map_err(refusal(offset))?;
    if offset + 1 < bytes.len() {
        return Err(refusal(offset + 1)(8));
    }
    Ok(model)
}

/// A model of either form: 10 for too many bytes, then 1 to 8.
pub fn open_as<F: Form, T: Trees>(bytes: &[u8]) -> Result<Model<T>, Refusal> {
    if bytes.len() > F::MODEL_BYTES {
        return Refusal::of(10);
    }
    parse::<F, T>(bytes)
}

/// 10, 9 and the model, for calls with `stage_words` or `steps` where these are given (17).
pub fn open<T: Trees>(bytes: &[u8], stage_words: Option<usize>, steps: Option<u32>) -> Result<Model<T>, Refusal> {
    if bytes.len() > New::MODEL_BYTES || stage_words.is_some_and(|count| count != STAGES) {
        return Refusal::of(10);
    }
    if steps.is_some_and(|h| !(1..=STAGES as u32).contains(&h)) {
        return Refusal::of(9);
    }
    open_as::<New, T>(bytes)
}

fn judged<F: Form>(bytes: &[u8]) -> (u32, u32) {
    open_as::<F, NoTrees>(bytes).map_or_else(|refusal| (refusal.number, refusal.place), |_| (0, 0))
}

/// Number and place of a model's refusal, 0 and 0 for a model without fault.
pub fn validate(bytes: &[u8]) -> (u32, u32) {
    judged::<New>(bytes)
}

/// The same for a model of the old form.
pub fn validate_old(bytes: &[u8]) -> (u32, u32) {
    judged::<Old>(bytes)
}
