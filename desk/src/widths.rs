//! Widths of models, tables and states, each in this place alone. Those that the C header names are taken from it.

mod header {
    include!(concat!(env!("OUT_DIR"), "/header.rs"));
}

pub use header::*;

/// Levels, and so the coefficients of a linear and the numerators of a state.
pub const LEVELS: usize = LEVELS_MOST;
/// Conditions that a site may have. Next-step ones are numbered behind them.
pub const CONDITIONS: usize = 4;
pub const ACTIONS: usize = ACTIONS_MOST;
pub const WEIGHT_MOST: usize = 100;
/// Diagrams that the stack of a model holds.
pub const STACK_MOST: usize = 32;
/// Letters of a name.
pub const LETTERS: usize = NAME_LETTERS_MOST;

/// Bytes of each number of a linear.
pub const NUMBER_BYTES: usize = 4;

/// A form of models: the planner's own, or the old one, before document 02's K5.
#[derive(Debug)]
pub struct Form {
    /// The byte of the site command. The other form's is an unknown byte.
    pub site: u8,
    /// Levels that a site may have, and so coefficients of a written linear.
    pub levels: usize,
    pub actions: usize,
    /// Bytes of an action, as an operand and in the site, low byte first.
    pub action_bytes: usize,
    pub model_bytes: usize,
    /// Whether it has the forbidden leaf; else that is an unknown byte.
    pub forbids: bool,
}

impl Form {
    /// The bytes that its commands begin with.
    pub fn codes(&self) -> impl Iterator<Item = u8> + '_ {
        let known = |&code: &u8| self.forbids || code != code::FORBIDDEN;
        [self.site].into_iter().chain(code::BUT_SITE.into_iter().filter(known))
    }
}

pub static NEW: Form = Form {
    site: code::SITE,
    levels: LEVELS,
    actions: ACTIONS,
    action_bytes: 2,
    model_bytes: MODEL_BYTES_MOST,
    forbids: true,
};
pub static OLD: Form = Form {
    site: code::OLD_SITE,
    levels: 4,
    actions: 8,
    action_bytes: 1,
    model_bytes: OLD_MODEL_BYTES_MOST,
    forbids: false,
};

/// Words of a node: kind, a coefficient for each level, constant, high, low. A condition has its number first, a leaf its
/// action in place of high.
pub const KIND: usize = 0;
pub const COEFFICIENTS: usize = 1;
pub const CONSTANT: usize = COEFFICIENTS + LEVELS;
pub const HIGH: usize = CONSTANT + 1;
pub const LOW: usize = HIGH + 1;
const _: () = assert!(LOW + 1 == NODE_WORDS);

/// Kinds of nodes; any other is a test. None is a leaf without a value, its other words zero.
pub mod kind {
    pub const LEAF: i64 = 0;
    pub const CONDITION: i64 = 1;
    pub const NONE: i64 = 3;
}

/// What a value that is none has for an action; its number is 0.
pub const NO_ACTION: u32 = 0;

/// The word of the peaks that is loading's; word a is that of action a.
pub const LOADING: u32 = 0;

/// Bytes of the answers: place and one number; the same with a name behind it.
pub const PAIR_BYTES: usize = 8;
pub const NAME_BYTES: usize = PAIR_BYTES + LETTERS;

/// No line of the listing of a solved model is longer: words of up to 20 characters for the numbers of a linear, and less than
/// 64 for all else.
pub const LINE_BYTES_MOST: usize = 64 + 21 * (LEVELS + 1);

/// Sizes of tables that are tried one after the other.
pub const SIZES: [usize; 4] = [1024, 4096, 16384, NODES_MOST];

/// The bytes that commands begin with.
pub mod code {
    pub const SITE: u8 = 0x02;
    /// The site of models before document 02's K5, which the planner reads to convert them only.
    pub const OLD_SITE: u8 = 0x01;
    pub const LEAF: u8 = 0x10;
    pub const CONDITION: u8 = 0x11;
    pub const TEST: u8 = 0x12;
    pub const FORBIDDEN: u8 = 0x13;
    pub const REWARD: u8 = 0x20;
    pub const CHANCE: u8 = 0x21;
    pub const NEXT: u8 = 0x22;
    pub const END_WORTH: u8 = 0x23;
    pub const NAME: u8 = 0x30;
    pub const END: u8 = 0xFF;
    /// All but the site, which the forms differ in.
    pub const BUT_SITE: [u8; 10] = [LEAF, CONDITION, TEST, FORBIDDEN, REWARD, CHANCE, NEXT, END_WORTH, NAME, END];
}

/// The numbers of refusals.
pub mod refusal {
    pub const FIRST: u32 = 1;
    pub const SHORT: u32 = 2;
    pub const UNKNOWN: u32 = 3;
    pub const RULE: u32 = 4;
    pub const STACK: u32 = 5;
    pub const TWICE: u32 = 6;
    pub const MISSING: u32 = 7;
    pub const AFTER_END: u32 = 8;
    pub const STEPS: u32 = 9;
    pub const SIZE: u32 = 10;
    pub const LIMITS: u32 = 11;
    pub const ROOM: u32 = 12;
    pub const STATE: u32 = 13;
    pub const NODE: u32 = 14;
    pub const STAGE: u32 = 15;
    pub const ACTION: u32 = 16;
    pub const BUFFER: u32 = 17;
    pub const NAMELESS: u32 = 18;
    pub const AMBIGUOUS: u32 = 19;
    pub const NO_FIT: u32 = 20;
    pub const NOT_SHOWN: u32 = 21;
    pub const NO_PATH: u32 = 22;
    pub const CHANGE: u32 = 23;
    pub const GRAMMAR: u32 = 24;
    pub const BEYOND: u32 = 25;
    pub const SCALES: u32 = 26;
}
