//! Models of the old form into the planner's, and back: number, answer and every byte of the buffer, and that the plan of
//! an old model is the plan of what it becomes.

use crate::{bytes, cost, expected, out, planner, state, Calls};
use models::{
    chain, damaged_in, deep, dry_inlet, mixed, near_limit, of_length, of_old_length, old_form, pond, pond_kept, rain,
    rain_tanks_kept, settings, staircases, steep_end, Rng, MODEL_BYTES, OLD, OLD_BYTES,
};
use reference::widths::{NODE_WORDS, PEAK_WORDS, STAGES, WORK_WORDS};
use reference::{solve_old, worth_old};

#[derive(Clone, Copy, PartialEq)]
enum Way {
    ToNew,
    ToOld,
}

type Call = fn(&[u8], &mut [u8], &mut [u8]) -> u32;

impl Way {
    fn name(self) -> &'static str {
        match self {
            Way::ToNew => "to_new",
            Way::ToOld => "to_old",
        }
    }

    fn other(self) -> Way {
        match self {
            Way::ToNew => Way::ToOld,
            Way::ToOld => Way::ToNew,
        }
    }

    /// The library's, and what it has to do.
    fn calls(self) -> (Call, Call) {
        match self {
            Way::ToNew => (planner::to_new, expected::to_new),
            Way::ToOld => (planner::to_old, expected::to_old),
        }
    }

    /// The bytes that are written where there is room for them.
    fn result(self, model: &[u8]) -> Option<Vec<u8>> {
        let result = match self {
            Way::ToNew => reference::to_new(model, usize::MAX),
            Way::ToOld => reference::to_old(model, usize::MAX),
        };
        result.ok()
    }
}

/// One call with this buffer, which has marks all over.
fn compare_in(calls: &mut Calls, rng: &mut Rng, way: Way, model: &[u8], buffer: &mut [u8]) -> u32 {
    let mut ours = buffer.to_vec();
    let mut out = out(rng, 8);
    let mut our_out = out.clone();
    let (library, reference) = way.calls();
    calls.model = model.to_vec();
    let number = library(model, buffer, &mut out);
    let our_number = reference(model, &mut ours, &mut our_out);
    let arguments = (ours.len(), out.len());
    calls.check(way.name(), "number", &number, &our_number, &arguments);
    calls.check(way.name(), "answer", &out, &our_out, &arguments);
    calls.check(way.name(), "buffer", buffer, &ours[..], &arguments);
    calls.count(number);
    number
}

/// Buffers just long enough, one byte short, longer and empty; then back again from what was written.
fn compare(calls: &mut Calls, rng: &mut Rng, way: Way, model: &[u8]) {
    let result = way.result(model);
    let needed = result.as_ref().map_or(model.len(), Vec::len);
    let longer = needed + rng.pick(&[1, 20, 300]);
    for length in [needed, needed.saturating_sub(1), longer, rng.below(needed + 1), 0] {
        let mut buffer = bytes(rng, length);
        let number = compare_in(calls, rng, way, model, &mut buffer);
        let Some(result) = result.as_ref().filter(|_| number == 0) else { continue };
        calls.check(way.name(), "what was written", &buffer[..needed], &result[..], &length);
        let mut back = bytes(rng, model.len());
        if compare_in(calls, rng, way.other(), result, &mut back) == 0 {
            calls.check("there and back", "bytes", &back[..], model, &way.name());
        }
    }
}

/// An old model: that of a model that has one, or damaged, or too long, or one of the planner's form.
fn any_old(rng: &mut Rng, model: &[u8]) -> Vec<u8> {
    let old = reference::to_old(model, usize::MAX).unwrap_or_else(|_| old_form(&pond_kept()));
    match rng.below(12) {
        0 => model.to_vec(),
        1..=4 => damaged_in(&OLD, rng, &old),
        5 if rng.once_in(10) => {
            let length = OLD_BYTES + rng.pick(&[0, 1, 200_000]);
            old.into_iter().chain(std::iter::repeat(0x10)).take(length).collect()
        }
        _ => old,
    }
}

/// The model of a round both ways, and its old one's plan beside the library's plan of what that becomes.
pub fn round(calls: &mut Calls, rng: &mut Rng, horizon: u32) {
    let model = calls.model.clone();
    compare(calls, rng, Way::ToOld, &model);
    let old = any_old(rng, &model);
    compare(calls, rng, Way::ToNew, &old);
    if horizon <= STAGES as u32 && horizon > 0 {
        same_plan(calls, rng, &old, horizon);
    }
}

/// Values and actions at states: of the old model by the second program, of the new one by the library.
fn same_plan(calls: &mut Calls, rng: &mut Rng, old: &[u8], horizon: u32) {
    let Some(needed) = Way::ToNew.result(old).map(|model| model.len()) else { return };
    let mut model = vec![0; needed];
    planner::to_new(old, &mut model, &mut [0; 8]);
    calls.model = model.clone();
    let ours = solve_old(old, horizon, 600);
    let (mut nodes, mut work) = (vec![0; NODE_WORDS * 600], vec![0; WORK_WORDS * 600]);
    let (mut stages, mut peaks, mut out) = ([0; STAGES], [0; PEAK_WORDS], [0; 8]);
    let number = planner::solve(&model, horizon, &mut nodes, &mut stages, &mut work, &mut peaks, &mut out);
    let answer = [ours.place.to_le_bytes(), ours.peak.to_le_bytes()].concat();
    calls.check("plan of an old model", "number", &number, &ours.number, &horizon);
    calls.check("plan of an old model", "place, peak", &out[..], &answer[..], &horizon);
    calls.check("plan of an old model", "peaks", &peaks[..], &ours.peaks[..], &horizon);
    for _ in 0..3 {
        let (state, steps) = (state(rng, &model), rng.between(1, horizon as i32) as u32);
        let (mut read, mut our_read) = ([0; 24], [0; 24]);
        if number == 0 {
            let read_number = planner::value(&model, &nodes, &stages, steps, state, &mut read);
            // The readers know the new form alone; the site is the same.
            let our_number = expected::valued(&model, &ours.nodes, &ours.stages, steps, state, &mut our_read);
            calls.check("value of an old model", "number", &read_number, &our_number, &(state, steps));
            calls.check("value of an old model", "answer", &read, &our_read, &(state, steps));
        }
        if cost(&model, steps) <= 2_000 {
            let worked_number = planner::worth(&model, steps, state, &mut read);
            let our_number = expected::reading(worth_old(old, steps, state), &mut our_read);
            calls.check("worth of an old model", "number", &worked_number, &our_number, &(state, steps));
            calls.check("worth of an old model", "answer", &read, &our_read, &(state, steps));
        }
    }
}

/// The same buffer over and over, with what earlier calls left in it.
pub fn endurance(calls: &mut Calls, rng: &mut Rng, buffer: &mut [u8]) {
    let model = calls.model.clone();
    let length = rng.below(buffer.len() + 1);
    compare_in(calls, rng, Way::ToOld, &model, &mut buffer[..length]);
    let old = any_old(rng, &model);
    let length = rng.below(buffer.len() + 1);
    compare_in(calls, rng, Way::ToNew, &old, &mut buffer[..length]);
}

/// Large models, those that just fit 65,535 bytes once written and those that do not, and long ones at fault.
pub fn large(calls: &mut Calls, rng: &mut Rng) {
    let fits = of_old_length(OLD_BYTES);
    let longer = of_old_length(OLD_BYTES + 1);
    for model in [
        fits.clone(),
        longer.clone(),
        of_length(MODEL_BYTES),
        of_length(MODEL_BYTES + 1),
        pond(),
        pond_kept(),
        rain(),
        steep_end(),
        dry_inlet(),
        staircases(),
        near_limit(),
        rain_tanks_kept(),
        deep(),
        chain(4),
        chain(5),
        mixed(),
        settings(),
    ] {
        compare(calls, rng, Way::ToOld, &model);
        compare(calls, rng, Way::ToNew, &model);
    }
    let fits = old_form(&fits);
    compare(calls, rng, Way::ToNew, &old_form(&longer));
    compare(calls, rng, Way::ToNew, &fits[..OLD_BYTES - 1]);
    for _ in 0..20 {
        let old = damaged_in(&OLD, rng, &fits);
        compare(calls, rng, Way::ToNew, &old);
    }
    same_plan(calls, rng, &old_form(&near_limit()), 3);
    println!("the other form: {} bytes become {} and the same again", fits.len(), of_old_length(OLD_BYTES).len());
}
