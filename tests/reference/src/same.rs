//! Whether two models mean the same, at random states: what their diagrams give as written, without solving.

use crate::model::{open, Model, Tree};
use crate::widths::{CONDITIONS, LETTERS, LEVELS};
use crate::{at, State};

/// A diagram's value at a state whose mask has the next conditions behind those now; none where it is forbidden.
fn value(model: &Model, mut tree: u32, state: &State) -> Option<i128> {
    loop {
        let (holds, high, low) = match &model.trees[tree as usize] {
            Tree::Leaf(linear) => return Some(at(linear, &state.nums, state.d)),
            Tree::Forbidden => return None,
            Tree::Condition { number, high, low } => (state.mask >> (number - 1) & 1 == 1, high, low),
            Tree::Test { linear, high, low } => (at(linear, &state.nums, state.d) <= 0, high, low),
        };
        tree = if holds { *high } else { *low };
    }
}

/// All that a model gives, action by action.
fn given(model: &Model) -> Vec<u32> {
    let of_action = |action| {
        let others = model.chances(action).iter().chain(model.nexts(action));
        std::iter::once(model.reward(action)).chain(others.copied()).collect::<Vec<_>>()
    };
    (0..model.site.a).flat_map(of_action).chain(model.end_worth()).collect()
}

/// Constants of the tests and leaves, at which values change.
fn constants(model: &Model) -> Vec<i64> {
    let constant = |tree: &Tree| match tree {
        Tree::Leaf(linear) | Tree::Test { linear, .. } => linear.last().copied(),
        _ => None,
    };
    model.trees.iter().filter_map(constant).filter(|constant| constant.unsigned_abs() < 1 << 30).collect()
}

/// A source of numbers: xorshift.
struct Source(u64);

impl Source {
    fn below(&mut self, count: u64) -> u64 {
        self.0 ^= self.0 << 13;
        self.0 ^= self.0 >> 7;
        self.0 ^= self.0 << 17;
        self.0 % count
    }
}

/// Refused models are not the same as any.
pub fn same(first: &[u8], second: &[u8], states: u32, seed: u64) -> bool {
    let read = |bytes| open::<Vec<Tree>>(bytes, None, None).ok();
    let (Some(one), Some(two)) = (read(first), read(second)) else { return false };
    let site = |model: &Model| (model.site.m, model.site.n, model.site.a, model.site.w, model.end_worth().is_some());
    let names = |model: &Model, bytes: &[u8]| -> Vec<Option<Vec<u8>>> {
        let letters = |start: usize| bytes[start..start + LETTERS].to_vec();
        (0..model.site.a).map(|action| model.name(action).map(letters)).collect()
    };
    if site(&one) != site(&two) || names(&one, first) != names(&two, second) {
        return false;
    }
    let (constants, mut source) = (constants(&one), Source(seed | 1));
    let mut number = || match source.below(3) {
        0 if !constants.is_empty() => {
            let near = constants[source.below(constants.len() as u64) as usize];
            (if source.below(2) == 0 { near } else { -near }) + source.below(3) as i64 - 1
        }
        1 => source.below(2_000) as i64 - 1_000,
        _ => source.below(21) as i64 - 10,
    };
    (0..states).all(|_| {
        let nums: [i32; LEVELS] = std::array::from_fn(|level| if level < one.site.m { number() as i32 } else { 0 });
        let state = State { mask: number() as u32 & ((1 << (2 * CONDITIONS)) - 1), nums, d: 1 + (number() & 1) as i32 };
        let both = given(&one).into_iter().zip(given(&two));
        both.into_iter().all(|(left, right)| value(&one, left, &state) == value(&two, right, &state))
    })
}
