//! Readers: a value from the tables, a name, the listing, and what the listing program prints.

use crate::model::{open, Model, NoTrees, Refusal, Site};
use crate::widths::{program, LETTERS, NODE_WORDS, NUMBERS};
use crate::{at, solve_with_room, State, LIMIT};
use std::fmt::Write;

/// A value's answer: the numerator in two words, and the action.
#[derive(Clone, Copy, Debug, Default, PartialEq, Eq)]
pub struct Reading {
    pub number: u32,
    pub place: u32,
    pub action: u32,
    pub low: u64,
    pub high: i64,
}

impl Reading {
    pub fn new(numerator: i128, action: u32) -> Reading {
        Reading { number: 0, place: 0, action, low: numerator as u64, high: (numerator >> 64) as i64 }
    }

    pub fn refused(refusal: Refusal) -> Reading {
        Reading { number: refusal.number, place: refusal.place, ..Reading::default() }
    }
}

/// A row of the table.
pub struct Row<'a> {
    pub kind: i64,
    pub nums: &'a [i64; NUMBERS],
    pub high: i64,
    pub low: i64,
}

/// A row of the table, or 14 (65 to 69).
pub fn row<'a>(site: &Site, nodes: &'a [i64], number: i64) -> Result<Row<'a>, Refusal> {
    let inside = 1 <= number && number <= (nodes.len() / NODE_WORDS) as i64;
    if !inside {
        return Refusal::of(14);
    }
    let words = &nodes[NODE_WORDS * (number as usize - 1)..][..NODE_WORDS];
    let nums: &[i64; NUMBERS] = words[1..=NUMBERS].try_into().expect("the numbers of a row");
    let (kind, high, low) = (words[0], words[NUMBERS + 1], words[NUMBERS + 2]);
    let in_limits = nums.iter().all(|x| (-LIMIT..=LIMIT).contains(x));
    let branches = 1 <= high && high < number && 1 <= low && low < number;
    let good = match kind {
        0 => in_limits && (1..=site.a as i64).contains(&high) && low == 0,
        1 => (1..=site.n as i64).contains(&nums[0]) && nums[1..] == [0; NUMBERS - 1] && branches,
        2 => in_limits && branches,
        3 => words[1..] == [0; NODE_WORDS - 1],
        _ => false,
    };
    if good {
        Ok(Row { kind, nums, high, low })
    } else {
        Refusal::of(14)
    }
}

/// Reads a value and an action (62 to 71).
pub fn value(bytes: &[u8], nodes: &[i64], stages: &[u32], steps: u32, state: State) -> Reading {
    let reading = || {
        let site = open::<NoTrees>(bytes, Some(stages.len()), Some(steps))?.site;
        state.judge(&site)?;
        value_of_site(&site, nodes, stages, steps, &state)
    };
    reading().unwrap_or_else(Reading::refused)
}

/// 15 and 14, for a state of an accepted model.
pub fn value_of_site(
    site: &Site,
    nodes: &[i64],
    stages: &[u32],
    steps: u32,
    state: &State,
) -> Result<Reading, Refusal> {
    let nums = &state.nums[..site.m];
    let mut place = i64::from(stages[steps as usize - 1]);
    if place == 0 {
        return Refusal::of(15);
    }
    loop {
        let Row { kind, nums: linear, high, low } = row(site, nodes, place)?;
        let holds = match kind {
            0 => return Ok(Reading::new(at(linear, nums, state.d), high as u32)),
            1 => state.mask >> (linear[0] - 1) & 1 == 1,
            3 => return Ok(Reading::new(0, 0)), // none
            _ => at(linear, nums, state.d) <= 0,
        };
        place = if holds { high } else { low };
    }
}

/// An action's name, as a part of the model (80).
pub fn name(bytes: &[u8], action: u32) -> Result<&[u8], Refusal> {
    let model = open::<NoTrees>(bytes, None, None)?;
    if !(1..=model.site.a as u32).contains(&action) {
        return Refusal::of(16);
    }
    Ok(name_in(&model, bytes, action as usize - 1))
}

/// Without trailing spaces; empty where none is given. Actions count from 0 here.
pub fn name_in<'a>(model: &Model<NoTrees>, bytes: &'a [u8], action: usize) -> &'a [u8] {
    without_trailing_spaces(model.name(action).map_or(&[], |start| &bytes[start..start + LETTERS]))
}

pub fn without_trailing_spaces(name: &[u8]) -> &[u8] {
    let length = name.iter().rposition(|&b| b != b' ').map_or(0, |last| last + 1);
    &name[..length]
}

/// The listing for a buffer of so many bytes, to stand at a place of it (82 to 86).
pub fn listing(
    bytes: &[u8],
    horizon: u32,
    nodes: &[i64],
    stages: &[u32],
    text_length: usize,
    place: usize,
) -> Result<String, Refusal> {
    let site = open::<NoTrees>(bytes, Some(stages.len()), Some(horizon))?.site;
    let roots = &stages[..horizon as usize];
    if roots.contains(&0) {
        return Refusal::of(15);
    }
    let mut text = String::new();
    let mut line = |parts: &[i64], start: &str| {
        text.push_str(start);
        for part in parts {
            write!(text, " {part}").expect("a string takes everything");
        }
        text.push('\n');
    };
    line(&[site.m as i64, site.n as i64, site.a as i64, site.w, horizon.into()], "PLAN");
    for number in 1..=i64::from(*roots.iter().max().expect("a stage")) {
        let Row { kind, nums, high, low } = row(&site, nodes, number)?;
        match kind {
            0 => line(&[&nums[..], &[high]].concat(), &format!("N {number} V")),
            1 => line(&[nums[0], high, low], &format!("N {number} B")),
            3 => line(&[], &format!("N {number} X")),
            _ => line(&[&nums[..], &[high, low]].concat(), &format!("N {number} L")),
        }
    }
    for (h, &root) in (1..).zip(roots) {
        line(&[h, root.into()], "S");
    }
    if text_length < place || text_length - place < text.len() {
        return Refusal::of(17);
    }
    Ok(text)
}

/// What the listing program prints for its input (87). It says 10 itself for what it takes no more of, before all else.
pub fn program(input: &[u8]) -> String {
    let (horizon, model) = input.split_first().map_or((0, input), |(&h, rest)| (h.into(), rest));
    plan(model, horizon).unwrap_or_else(|Refusal { number, place }| format!("R {number} {place}\n"))
}

fn plan(model: &[u8], horizon: u32) -> Result<String, Refusal> {
    if model.len() > program::MODEL_BYTES {
        return Refusal::of(10);
    }
    let mut solved = solve_with_room(model, horizon, program::NODES);
    if solved.number != 0 {
        return Err(Refusal { number: solved.number, place: solved.place });
    }
    solved.nodes.resize(NODE_WORDS * program::NODES, 0);
    listing(model, horizon, &solved.nodes, &solved.stages, program::TEXT_BYTES, 0)
}
