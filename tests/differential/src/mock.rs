//! Stands in for the library, so that the comparison can be built and tried without it. A fault can be asked for with
//! PLANNER_FAULT=function (solve, value, name, worth, sure, listing, find, page, to_new, to_old, import, prune or total;
//! to_new_buffer, to_old_buffer and import_buffer spoil the last byte of the lent buffer, solve_peaks the last word of the peaks, prune_tables the last one
//! of the nodes); the comparison has to find it.

use crate::expected;
use reference::{Side, State};
use std::ops::BitXorAssign;
use std::sync::atomic::{AtomicU32, Ordering};

/// Says once in 50 times yes, if that fault is asked for.
fn is_due(fault: &str) -> bool {
    static COUNT: AtomicU32 = AtomicU32::new(0);
    let asked = std::env::var("PLANNER_FAULT").is_ok_and(|asked| asked == fault);
    asked && COUNT.fetch_add(1, Ordering::Relaxed) % 50 == 49
}

/// Spoils one answer in 50, if asked to for this function.
fn spoil(function: &str, number: u32, out: &mut [u8]) -> u32 {
    if !out.is_empty() && is_due(function) {
        out[0] ^= 1;
    }
    number
}

/// Spoils the last byte or word of what was lent instead.
fn spoil_last<T: From<u8> + BitXorAssign>(fault: &str, lent: &mut [T]) {
    if let Some(last) = lent.last_mut().filter(|_| is_due(fault)) {
        *last ^= T::from(1);
    }
}

pub fn validate(model: &[u8]) -> (u32, usize) {
    let (number, place) = reference::validate(model);
    (number, place as usize)
}

pub fn solve(
    m: &[u8],
    horizon: u32,
    nodes: &mut [i64],
    stages: &mut [u32],
    work: &mut [u32],
    peaks: &mut [u32],
    out: &mut [u8],
) -> u32 {
    let number = spoil("solve", expected::solved(m, horizon, nodes, stages, work, peaks, out), out);
    spoil_last("solve_peaks", peaks);
    number
}

pub fn value(model: &[u8], nodes: &[i64], stages: &[u32], steps: u32, state: State, out: &mut [u8]) -> u32 {
    spoil("value", expected::valued(model, nodes, stages, steps, state, out), out)
}

pub fn name(model: &[u8], action: u32, out: &mut [u8]) -> u32 {
    spoil("name", expected::named(model, action, out), out)
}

pub fn worth(model: &[u8], steps: u32, state: State, out: &mut [u8]) -> u32 {
    spoil("worth", expected::worked(model, steps, state, out), out)
}

pub fn sure(model: &[u8], steps: u32, state: State, e: i32, out: &mut [u8]) -> u32 {
    spoil("sure", expected::assured(model, steps, state, e, out), out)
}

pub fn listing(
    model: &[u8],
    horizon: u32,
    nodes: &[i64],
    stages: &[u32],
    text: &mut [u8],
    place: usize,
    out: &mut [u8],
) -> u32 {
    spoil("listing", expected::listed(model, horizon, nodes, stages, text, place, out), out)
}

pub fn find(model: &[u8], name: &[u8], out: &mut [u8]) -> u32 {
    spoil("find", expected::found(model, name, out), out)
}

#[allow(clippy::too_many_arguments)]
pub fn page(
    model: &[u8],
    horizon: u32,
    nodes: &[i64],
    stages: &[u32],
    state: State,
    text: &mut [u8],
    place: usize,
    out: &mut [u8],
) -> u32 {
    spoil("page", expected::paged(model, horizon, nodes, stages, state, text, place, out), out)
}

pub fn to_new(old: &[u8], buffer: &mut [u8], out: &mut [u8]) -> u32 {
    let number = spoil("to_new", expected::to_new(old, buffer, out), out);
    spoil_last("to_new_buffer", buffer);
    number
}

pub fn to_old(model: &[u8], buffer: &mut [u8], out: &mut [u8]) -> u32 {
    let number = spoil("to_old", expected::to_old(model, buffer, out), out);
    spoil_last("to_old_buffer", buffer);
    number
}

pub fn import(text: &[u8], buffer: &mut [u8], out: &mut [u8]) -> u32 {
    let number = spoil("import", expected::imported(text, buffer, out), out);
    spoil_last("import_buffer", buffer);
    number
}

#[allow(clippy::too_many_arguments)]
pub fn prune(
    model: &[u8],
    nodes: &mut [i64],
    stages: &mut [u32],
    work: &mut [u32],
    stage: u32,
    turns: &[u8],
    multipliers: &[i32],
    out: &mut [u8],
) -> u32 {
    let number = expected::pruned(model, nodes, stages, work, stage, turns, multipliers, out);
    spoil_last("prune_tables", nodes);
    spoil("prune", number, out)
}

pub fn total(first: Side, second: Side, steps: u32, out: &mut [u8]) -> u32 {
    spoil("total", expected::totalled(first, second, steps, out), out)
}
