//! What each C function has to return and to leave, by the second program.

use reference::{
    find, listing, name, page, prune, solve, sure, total, value, worth, Outcome, Reading, Refusal, Side, State, Total,
};

/// The answer's bytes, or 17 for a short `out`, where an earlier refusal keeps its number (decision 97).
fn answer(number: u32, bytes: Vec<u8>, out: &mut [u8]) -> u32 {
    if out.len() < bytes.len() {
        return if matches!(number, 0 | 11 | 12) { 17 } else { number };
    }
    out[..bytes.len()].copy_from_slice(&bytes);
    number
}

fn words(numbers: &[u32]) -> Vec<u8> {
    numbers.iter().flat_map(|number| number.to_le_bytes()).collect()
}

pub fn reading(reading: Reading, out: &mut [u8]) -> u32 {
    let mut bytes = words(&[reading.place, reading.action]);
    bytes.extend(reading.low.to_le_bytes());
    bytes.extend(reading.high.to_le_bytes());
    answer(reading.number, bytes, out)
}

/// Leaves the outcome of a solve in lent words.
pub fn leave(done: &Outcome, nodes: &mut [i64], stages: &mut [u32], work: &mut [u32], peaks: &mut [u32]) {
    if !done.is_untouched() {
        nodes.fill(0);
        nodes[..done.nodes.len()].copy_from_slice(&done.nodes);
        stages.copy_from_slice(&done.stages);
        work.fill(0);
        peaks.copy_from_slice(&done.peaks);
    }
}

pub fn solved(
    model: &[u8],
    horizon: u32,
    nodes: &mut [i64],
    stages: &mut [u32],
    work: &mut [u32],
    peaks: &mut [u32],
    out: &mut [u8],
) -> u32 {
    let done = solve(model, horizon, nodes.len(), stages.len(), work.len(), peaks.len());
    let number = answer(done.number, words(&[done.place, done.peak]), out);
    if number == done.number && out.len() >= 8 {
        leave(&done, nodes, stages, work, peaks);
    }
    number
}

pub fn valued(model: &[u8], nodes: &[i64], stages: &[u32], steps: u32, state: State, out: &mut [u8]) -> u32 {
    reading(value(model, nodes, stages, steps, state), out)
}

pub fn named(model: &[u8], action: u32, out: &mut [u8]) -> u32 {
    let (number, place, name) = name(model, action).map_or_else(|r| (r.number, r.place, &[][..]), |name| (0, 0, name));
    let mut bytes = words(&[place, name.len() as u32]);
    bytes.extend(name);
    bytes.resize(24, 0);
    answer(number, bytes, out)
}

pub fn worked(model: &[u8], steps: u32, state: State, out: &mut [u8]) -> u32 {
    reading(worth(model, steps, state), out)
}

pub fn assured(model: &[u8], steps: u32, state: State, e: i32, out: &mut [u8]) -> u32 {
    let (number, place, sure) =
        sure(model, steps, state, e).map_or_else(|r| (r.number, r.place, 0), |sure| (0, 0, u32::from(sure)));
    answer(number, words(&[place, sure]), out)
}

pub fn listed(
    model: &[u8],
    horizon: u32,
    nodes: &[i64],
    stages: &[u32],
    text: &mut [u8],
    place: usize,
    out: &mut [u8],
) -> u32 {
    let lines = listing(model, horizon, nodes, stages, text.len(), place).map(String::into_bytes);
    written(lines, text, place, out)
}

/// Bytes written to a lent buffer from a place on, or a refusal; the answer has their length.
fn written(bytes: Result<Vec<u8>, Refusal>, buffer: &mut [u8], from: usize, out: &mut [u8]) -> u32 {
    match bytes {
        Ok(bytes) => {
            let number = answer(0, words(&[0, bytes.len() as u32]), out);
            if number == 0 {
                buffer[from..from + bytes.len()].copy_from_slice(&bytes);
            }
            number
        }
        Err(Refusal { number, place }) => answer(number, words(&[place, 0]), out),
    }
}

pub fn to_new(old: &[u8], buffer: &mut [u8], out: &mut [u8]) -> u32 {
    written(reference::to_new(old, buffer.len()), buffer, 0, out)
}

pub fn to_old(model: &[u8], buffer: &mut [u8], out: &mut [u8]) -> u32 {
    written(reference::to_old(model, buffer.len()), buffer, 0, out)
}

pub fn imported(text: &[u8], buffer: &mut [u8], out: &mut [u8]) -> u32 {
    written(reference::import(text, buffer.len()), buffer, 0, out)
}

pub fn found(model: &[u8], name: &[u8], out: &mut [u8]) -> u32 {
    let (number, place, action) = find(model, name).map_or_else(|r| (r.number, r.place, 0), |action| (0, 0, action));
    answer(number, words(&[place, action]), out)
}

#[allow(clippy::too_many_arguments)]
pub fn paged(
    model: &[u8],
    horizon: u32,
    nodes: &[i64],
    stages: &[u32],
    state: State,
    text: &mut [u8],
    place: usize,
    out: &mut [u8],
) -> u32 {
    written(page(model, horizon, nodes, stages, state, text.len(), place), text, place, out)
}

#[allow(clippy::too_many_arguments)]
pub fn pruned(
    model: &[u8],
    nodes: &mut [i64],
    stages: &mut [u32],
    work: &mut [u32],
    stage: u32,
    turns: &[u8],
    multipliers: &[i32],
    out: &mut [u8],
) -> u32 {
    match prune(model, nodes, stages, work.len(), stage, turns, multipliers) {
        Ok(left) => {
            let number = answer(0, words(&[0]), out);
            if number == 0 {
                nodes.fill(0);
                nodes[..left.nodes.len()].copy_from_slice(&left.nodes);
                stages.copy_from_slice(&left.stages);
                work.fill(0);
            }
            number
        }
        Err(Refusal { number, place }) => answer(number, words(&[place]), out),
    }
}

pub fn totalled(first: Side, second: Side, steps: u32, out: &mut [u8]) -> u32 {
    let Total { number, place, actions: [one, two], low, high } = total(first, second, steps);
    let mut bytes = words(&[place, one, two]);
    bytes.extend(low.to_le_bytes());
    bytes.extend(high.to_le_bytes());
    answer(number, bytes, out)
}
