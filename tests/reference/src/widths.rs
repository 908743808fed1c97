//! Widths of models, tables and states, each in this place alone.

/// Levels of a site, and so coefficients of a linear and numerators of a state.
pub const LEVELS: usize = 8;
/// The numbers of a linear: a coefficient for each level, and the constant last.
pub const NUMBERS: usize = LEVELS + 1;
pub const CONSTANT: usize = LEVELS;
/// Conditions of a site; those of the next step are numbered behind them.
pub const CONDITIONS: usize = 4;
pub const WEIGHT_MOST: usize = 100;
pub const STACK_MOST: usize = 32;
pub const LETTERS: usize = 16;
/// Bytes of a model written as text, and brackets in one another there.
pub const TEXT_BYTES: usize = 262_144;
pub const BRACKETS_MOST: usize = 32;

/// Words of a node: kind, numbers, high, low. N divides node words by this, and work words by another eight.
pub const NODE_WORDS: usize = 1 + NUMBERS + 2;
pub const WORK_WORDS: usize = 8;
pub const NODES_MOST: usize = 65_535;
/// Stage words, and the steps of the longest horizon.
pub const STAGES: usize = 8;
/// Words of the peaks: loading's, and one for each action that a site may have.
pub const PEAK_WORDS: usize = 1 + New::ACTIONS;

/// What the listing program takes and has.
pub mod program {
    pub const MODEL_BYTES: usize = 65_535;
    pub const NODES: usize = 512;
    pub const TEXT_BYTES: usize = 65_536;
}

/// A form of models: the planner's own, or the one before document 02's K5.
pub trait Form {
    /// The byte of the site command. The other form's is an unknown byte.
    const SITE: u8;
    /// Coefficients of a written linear, and levels that a site may have.
    const LEVELS: usize;
    const ACTIONS: usize;
    /// Bytes of an action, as an operand and in the site; low byte first.
    const ACTION_BYTES: usize;
    const MODEL_BYTES: usize;
    /// Has it the forbidden leaf, or is its byte unknown?
    const FORBIDS: bool;
}

#[derive(Debug)]
pub struct New;

impl Form for New {
    const SITE: u8 = 0x02;
    const LEVELS: usize = LEVELS;
    const ACTIONS: usize = 400;
    const ACTION_BYTES: usize = 2;
    const MODEL_BYTES: usize = 262_144;
    const FORBIDS: bool = true;
}

#[derive(Debug)]
pub struct Old;

impl Form for Old {
    const SITE: u8 = 0x01;
    const LEVELS: usize = 4;
    const ACTIONS: usize = 8;
    const ACTION_BYTES: usize = 1;
    const MODEL_BYTES: usize = 65_535;
    const FORBIDS: bool = false;
}
