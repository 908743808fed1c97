//! The calls of libplanner.a that the desk makes, as include/planner.h has them. The only unsafe code here.

use crate::state::State;
use crate::widths::{
    refusal, MODEL_BYTES_MOST, NAME_BYTES, OLD_MODEL_BYTES_MOST, PAIR_BYTES, PEAK_WORDS, PRUNE_BYTES, STAGE_WORDS,
    TOTAL_BYTES, TO_NEW_MODEL_BYTES, VALUE_BYTES,
};

/// A refusal: its number and its place.
#[derive(Clone, Copy, Debug, PartialEq, Eq)]
pub struct Refusal {
    pub number: u32,
    pub place: u64,
}

/// A value's numerator and the action there.
pub struct Reading {
    pub action: u32,
    pub numerator: i128,
}

#[repr(C)]
struct Judged {
    number: u32,
    place: usize,
}

type Bytes = *const u8;
type Answer = *mut u8;

#[rustfmt::skip]
extern "C" {
    fn planner_validate(model: Bytes, model_len: usize) -> Judged;
    fn planner_solve(
        model: Bytes, model_len: usize, horizon: u32, nodes: *mut i64, node_words: usize,
        stages: *mut u32, stage_words: usize, work: *mut u32, work_words: usize, peaks: *mut u32, peak_words: usize,
        out: Answer, out_len: usize,
    ) -> u32;
    fn planner_value(
        model: Bytes, model_len: usize, nodes: *const i64, node_words: usize, stages: *const u32, stage_words: usize,
        steps: u32, mask: u32, l1: i32, l2: i32, l3: i32, l4: i32, l5: i32, l6: i32, l7: i32, l8: i32, d: i32,
        out: Answer, out_len: usize,
    ) -> u32;
    fn planner_worth(
        model: Bytes, model_len: usize, steps: u32, mask: u32,
        l1: i32, l2: i32, l3: i32, l4: i32, l5: i32, l6: i32, l7: i32, l8: i32, d: i32, out: Answer, out_len: usize,
    ) -> u32;
    fn planner_sure(
        model: Bytes, model_len: usize, steps: u32, mask: u32,
        l1: i32, l2: i32, l3: i32, l4: i32, l5: i32, l6: i32, l7: i32, l8: i32, d: i32, e: i32,
        out: Answer, out_len: usize,
    ) -> u32;
    fn planner_name(model: Bytes, model_len: usize, action: u32, out: Answer, out_len: usize) -> u32;
    fn planner_listing(
        model: Bytes, model_len: usize, horizon: u32, nodes: *const i64, node_words: usize,
        stages: *const u32, stage_words: usize, text: *mut u8, text_len: usize, place: usize,
        out: Answer, out_len: usize,
    ) -> u32;
    fn planner_to_new(
        old: Bytes, old_len: usize, buffer: *mut u8, buffer_len: usize, out: Answer, out_len: usize,
    ) -> u32;
    fn planner_to_old(
        model: Bytes, model_len: usize, buffer: *mut u8, buffer_len: usize, out: Answer, out_len: usize,
    ) -> u32;
    fn planner_import(
        text: Bytes, text_len: usize, buffer: *mut u8, buffer_len: usize, out: Answer, out_len: usize,
    ) -> u32;
    fn planner_prune(
        model: Bytes, model_len: usize, nodes: *mut i64, node_words: usize, stages: *mut u32, stage_words: usize,
        work: *mut u32, work_words: usize, stage: u32, turns: Bytes, turns_len: usize,
        multipliers: *const i32, multipliers_len: usize, out: Answer, out_len: usize,
    ) -> u32;
    fn planner_total(
        model1: Bytes, model1_len: usize, nodes1: *const i64, node_words1: usize, stages1: *const u32, stage_words1: usize,
        mask1: u32, l11: i32, l12: i32, l13: i32, l14: i32, l15: i32, l16: i32, l17: i32, l18: i32, d1: i32,
        model2: Bytes, model2_len: usize, nodes2: *const i64, node_words2: usize, stages2: *const u32, stage_words2: usize,
        mask2: u32, l21: i32, l22: i32, l23: i32, l24: i32, l25: i32, l26: i32, l27: i32, l28: i32, d2: i32,
        steps: u32, out: Answer, out_len: usize,
    ) -> u32;
    #[cfg(planner_find)]
    fn planner_find(model: Bytes, model_len: usize, name: Bytes, name_len: usize, out: Answer, out_len: usize) -> u32;
    #[cfg(planner_page)]
    fn planner_page(
        model: Bytes, model_len: usize, horizon: u32, nodes: *const i64, node_words: usize,
        stages: *const u32, stage_words: usize, mask: u32,
        l1: i32, l2: i32, l3: i32, l4: i32, l5: i32, l6: i32, l7: i32, l8: i32, d: i32,
        text: *mut u8, text_len: usize, place: usize, out: Answer, out_len: usize,
    ) -> u32;
}

// In every call a pointer comes with the length of its slice, and the slices do not overlap.

/// A number of an answer, low byte first.
fn number_at(out: &[u8], place: usize, bytes: usize) -> u64 {
    out[place..place + bytes].iter().rev().fold(0, |number, &byte| number << 8 | u64::from(byte))
}

/// The answer, or the refusal whose place is its first number.
fn judged<const N: usize>(number: u32, out: [u8; N]) -> Result<[u8; N], Refusal> {
    if number == 0 {
        return Ok(out);
    }
    Err(Refusal { number, place: number_at(&out, 0, 4) })
}

pub fn validate(model: &[u8]) -> Result<(), Refusal> {
    // SAFETY: as said above.
    let judged = unsafe { planner_validate(model.as_ptr(), model.len()) };
    match judged.number {
        0 => Ok(()),
        number => Err(Refusal { number, place: judged.place as u64 }),
    }
}

/// Fills the tables and the peaks; gives the largest of these.
#[rustfmt::skip]
pub fn solve(
    m: &[u8], horizon: u32, nodes: &mut [i64], stages: &mut [u32; STAGE_WORDS], work: &mut [u32],
    peaks: &mut [u32; PEAK_WORDS],
) -> Result<u32, Refusal> {
    let mut out = [0; PAIR_BYTES];
    // SAFETY: as said above.
    let number = unsafe {
        planner_solve(
            m.as_ptr(), m.len(), horizon, nodes.as_mut_ptr(), nodes.len(), stages.as_mut_ptr(), stages.len(),
            work.as_mut_ptr(), work.len(), peaks.as_mut_ptr(), peaks.len(), out.as_mut_ptr(), out.len(),
        )
    };
    judged(number, out).map(|out| number_at(&out, 4, 4) as u32)
}

#[rustfmt::skip]
pub fn value(
    m: &[u8], nodes: &[i64], stages: &[u32; STAGE_WORDS], steps: u32, state: &State,
) -> Result<Reading, Refusal> {
    let (mut out, [l1, l2, l3, l4, l5, l6, l7, l8]) = ([0; VALUE_BYTES], state.numerators);
    // SAFETY: as said above.
    let number = unsafe {
        planner_value(
            m.as_ptr(), m.len(), nodes.as_ptr(), nodes.len(), stages.as_ptr(), stages.len(), steps, state.mask,
            l1, l2, l3, l4, l5, l6, l7, l8, state.denominator, out.as_mut_ptr(), out.len(),
        )
    };
    judged(number, out).map(reading)
}

fn reading(out: [u8; VALUE_BYTES]) -> Reading {
    let (low, high) = (number_at(&out, 8, 8), number_at(&out, 16, 8) as i64);
    Reading { action: number_at(&out, 4, 4) as u32, numerator: i128::from(high) << 64 | i128::from(low) }
}

/// The same from the model alone.
#[rustfmt::skip]
pub fn worth(m: &[u8], steps: u32, state: &State) -> Result<Reading, Refusal> {
    let (mut out, [l1, l2, l3, l4, l5, l6, l7, l8]) = ([0; VALUE_BYTES], state.numerators);
    // SAFETY: as said above.
    let number = unsafe {
        planner_worth(
            m.as_ptr(), m.len(), steps, state.mask, l1, l2, l3, l4, l5, l6, l7, l8, state.denominator,
            out.as_mut_ptr(), out.len(),
        )
    };
    judged(number, out).map(reading)
}

/// Whether the best action at the state is sure where rewards move by at most e.
#[rustfmt::skip]
pub fn sure(m: &[u8], steps: u32, state: &State, e: i32) -> Result<bool, Refusal> {
    let (mut out, [l1, l2, l3, l4, l5, l6, l7, l8]) = ([0; PAIR_BYTES], state.numerators);
    // SAFETY: as said above.
    let number = unsafe {
        planner_sure(
            m.as_ptr(), m.len(), steps, state.mask, l1, l2, l3, l4, l5, l6, l7, l8, state.denominator, e,
            out.as_mut_ptr(), out.len(),
        )
    };
    judged(number, out).map(|out| number_at(&out, 4, 4) == 1)
}

/// An action's name, empty where it has none.
pub fn name(model: &[u8], action: u32) -> Result<String, Refusal> {
    let mut out = [0; NAME_BYTES];
    // SAFETY: as said above.
    let number = unsafe { planner_name(model.as_ptr(), model.len(), action, out.as_mut_ptr(), out.len()) };
    let out = judged(number, out)?;
    let letters = &out[PAIR_BYTES..][..number_at(&out, 4, 4) as usize];
    Ok(letters.iter().map(|&letter| char::from(letter)).collect())
}

/// The listing, in a text of at most `room` bytes.
#[rustfmt::skip]
pub fn listing(
    m: &[u8], horizon: u32, nodes: &[i64], stages: &[u32; STAGE_WORDS], room: usize,
) -> Result<Vec<u8>, Refusal> {
    let (mut out, mut text) = ([0; PAIR_BYTES], vec![0; room]);
    // SAFETY: as said above.
    let number = unsafe {
        planner_listing(
            m.as_ptr(), m.len(), horizon, nodes.as_ptr(), nodes.len(), stages.as_ptr(), stages.len(),
            text.as_mut_ptr(), text.len(), 0, out.as_mut_ptr(), out.len(),
        )
    };
    let out = judged(number, out)?;
    text.truncate(number_at(&out, 4, 4) as usize);
    Ok(text)
}

type Convert = unsafe extern "C" fn(Bytes, usize, *mut u8, usize, Answer, usize) -> u32;

/// What a conversion writes, which has at most `room` bytes.
fn converted(convert: Convert, m: &[u8], room: usize) -> Result<Vec<u8>, Refusal> {
    let (mut out, mut buffer) = ([0; PAIR_BYTES], vec![0; room]);
    // SAFETY: as said above.
    let number =
        unsafe { convert(m.as_ptr(), m.len(), buffer.as_mut_ptr(), buffer.len(), out.as_mut_ptr(), out.len()) };
    let out = judged(number, out)?;
    buffer.truncate(number_at(&out, 4, 4) as usize);
    Ok(buffer)
}

/// A model of the old form in the planner's.
pub fn to_new(old: &[u8]) -> Result<Vec<u8>, Refusal> {
    converted(planner_to_new, old, TO_NEW_MODEL_BYTES)
}

/// A model in the old form.
pub fn to_old(model: &[u8]) -> Result<Vec<u8>, Refusal> {
    converted(planner_to_old, model, OLD_MODEL_BYTES_MOST)
}

/// The model that a text becomes.
pub fn import(text: &[u8]) -> Result<Vec<u8>, Refusal> {
    converted(planner_import, text, MODEL_BYTES_MOST)
}

/// Cuts a path off the diagram of a stage.
#[rustfmt::skip]
pub fn prune(
    m: &[u8], nodes: &mut [i64], stages: &mut [u32; STAGE_WORDS], work: &mut [u32], stage: u32, turns: &[u8],
    multipliers: &[i32],
) -> Result<(), Refusal> {
    let mut out = [0; PRUNE_BYTES];
    // SAFETY: as said above.
    let number = unsafe {
        planner_prune(
            m.as_ptr(), m.len(), nodes.as_mut_ptr(), nodes.len(), stages.as_mut_ptr(), stages.len(),
            work.as_mut_ptr(), work.len(), stage, turns.as_ptr(), turns.len(),
            multipliers.as_ptr(), multipliers.len(), out.as_mut_ptr(), out.len(),
        )
    };
    judged(number, out).map(|_| ())
}

/// A model with its tables, and a state of it.
pub struct Side<'a> {
    pub model: &'a [u8],
    pub nodes: &'a [i64],
    pub stages: &'a [u32; STAGE_WORDS],
    pub state: &'a State,
}

/// A total's numerator and both actions.
pub struct Total {
    pub actions: [u32; 2],
    pub numerator: i128,
}

/// Two sites as one.
#[rustfmt::skip]
pub fn total(one: &Side, two: &Side, steps: u32) -> Result<Total, Refusal> {
    let mut out = [0; TOTAL_BYTES];
    let ([l1, l2, l3, l4, l5, l6, l7, l8], [k1, k2, k3, k4, k5, k6, k7, k8]) = (one.state.numerators, two.state.numerators);
    // SAFETY: as said above.
    let number = unsafe {
        planner_total(
            one.model.as_ptr(), one.model.len(), one.nodes.as_ptr(), one.nodes.len(), one.stages.as_ptr(), one.stages.len(),
            one.state.mask, l1, l2, l3, l4, l5, l6, l7, l8, one.state.denominator,
            two.model.as_ptr(), two.model.len(), two.nodes.as_ptr(), two.nodes.len(), two.stages.as_ptr(), two.stages.len(),
            two.state.mask, k1, k2, k3, k4, k5, k6, k7, k8, two.state.denominator, steps, out.as_mut_ptr(), out.len(),
        )
    };
    let out = judged(number, out)?;
    let (low, high) = (number_at(&out, 12, 8), number_at(&out, 20, 8) as i64);
    let actions = [4, 8].map(|place| number_at(&out, place, 4) as u32);
    Ok(Total { actions, numerator: i128::from(high) << 64 | i128::from(low) })
}

/// The action that carries a name.
#[cfg(planner_find)]
pub fn find(m: &[u8], name: &[u8]) -> Result<u32, Refusal> {
    let mut out = [0; PAIR_BYTES];
    // SAFETY: as said above.
    let number = unsafe { planner_find(m.as_ptr(), m.len(), name.as_ptr(), name.len(), out.as_mut_ptr(), out.len()) };
    judged(number, out).map(|out| number_at(&out, 4, 4) as u32)
}

/// The page of a state, in a text of at most `room` bytes.
#[cfg(planner_page)]
#[rustfmt::skip]
pub fn page(
    m: &[u8], horizon: u32, nodes: &[i64], stages: &[u32; STAGE_WORDS], state: &State, room: usize,
) -> Result<Vec<u8>, Refusal> {
    let (mut out, mut text, [l1, l2, l3, l4, l5, l6, l7, l8]) = ([0; PAIR_BYTES], vec![0; room], state.numerators);
    // SAFETY: as said above.
    let number = unsafe {
        planner_page(
            m.as_ptr(), m.len(), horizon, nodes.as_ptr(), nodes.len(), stages.as_ptr(), stages.len(), state.mask,
            l1, l2, l3, l4, l5, l6, l7, l8, state.denominator, text.as_mut_ptr(), text.len(), 0, out.as_mut_ptr(), out.len(),
        )
    };
    let out = judged(number, out)?;
    text.truncate(number_at(&out, 4, 4) as usize);
    Ok(text)
}

/// Whether a refusal says that larger tables may do.
pub fn wants_room(refused: Refusal) -> bool {
    refused.number == refusal::ROOM
}
