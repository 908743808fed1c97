//! The C interface of the library (decision 97), and safe calls to it.

use reference::{Side, State};

#[repr(C)]
struct Judged {
    number: u32,
    place: usize,
}

extern "C" {
    fn planner_validate(model: *const u8, model_len: usize) -> Judged;
    #[rustfmt::skip]
    fn planner_solve(
        model: *const u8,
        model_len: usize,
        horizon: u32,
        nodes: *mut i64,
        node_words: usize,
        stages: *mut u32,
        stage_words: usize,
        work: *mut u32,
        work_words: usize,
        peaks: *mut u32,
        peak_words: usize,
        out: *mut u8,
        out_len: usize,
    ) -> u32;
    #[rustfmt::skip]
    fn planner_value(
        model: *const u8,
        model_len: usize,
        nodes: *const i64,
        node_words: usize,
        stages: *const u32,
        stage_words: usize,
        steps: u32,
        mask: u32,
        l1: i32,
        l2: i32,
        l3: i32,
        l4: i32,
        l5: i32,
        l6: i32,
        l7: i32,
        l8: i32,
        d: i32,
        out: *mut u8,
        out_len: usize,
    ) -> u32;
    fn planner_name(model: *const u8, model_len: usize, action: u32, out: *mut u8, out_len: usize) -> u32;
    fn planner_find(
        model: *const u8,
        model_len: usize,
        name: *const u8,
        name_len: usize,
        out: *mut u8,
        out_len: usize,
    ) -> u32;
    #[rustfmt::skip]
    fn planner_worth(
        model: *const u8,
        model_len: usize,
        steps: u32,
        mask: u32,
        l1: i32,
        l2: i32,
        l3: i32,
        l4: i32,
        l5: i32,
        l6: i32,
        l7: i32,
        l8: i32,
        d: i32,
        out: *mut u8,
        out_len: usize,
    ) -> u32;
    #[rustfmt::skip]
    fn planner_listing(
        model: *const u8,
        model_len: usize,
        horizon: u32,
        nodes: *const i64,
        node_words: usize,
        stages: *const u32,
        stage_words: usize,
        text: *mut u8,
        text_len: usize,
        place: usize,
        out: *mut u8,
        out_len: usize,
    ) -> u32;
}

#[rustfmt::skip]
extern "C" {
    fn planner_to_new(
        old: *const u8, old_len: usize, buffer: *mut u8, buffer_len: usize, out: *mut u8, out_len: usize,
    ) -> u32;
    fn planner_to_old(
        model: *const u8, model_len: usize, buffer: *mut u8, buffer_len: usize, out: *mut u8, out_len: usize,
    ) -> u32;
    fn planner_import(
        text: *const u8, text_len: usize, buffer: *mut u8, buffer_len: usize, out: *mut u8, out_len: usize,
    ) -> u32;
    fn planner_sure(
        model: *const u8, model_len: usize, steps: u32, mask: u32, l1: i32, l2: i32, l3: i32, l4: i32, l5: i32, l6: i32,
        l7: i32, l8: i32, d: i32, e: i32, out: *mut u8, out_len: usize,
    ) -> u32;
    fn planner_prune(
        model: *const u8, model_len: usize, nodes: *mut i64, node_words: usize, stages: *mut u32, stage_words: usize,
        work: *mut u32, work_words: usize, stage: u32, turns: *const u8, turns_len: usize,
        multipliers: *const i32, multipliers_len: usize, out: *mut u8, out_len: usize,
    ) -> u32;
}

extern "C" {
    #[rustfmt::skip]
    fn planner_page(
        model: *const u8,
        model_len: usize,
        horizon: u32,
        nodes: *const i64,
        node_words: usize,
        stages: *const u32,
        stage_words: usize,
        mask: u32,
        l1: i32,
        l2: i32,
        l3: i32,
        l4: i32,
        l5: i32,
        l6: i32,
        l7: i32,
        l8: i32,
        d: i32,
        text: *mut u8,
        text_len: usize,
        place: usize,
        out: *mut u8,
        out_len: usize,
    ) -> u32;
}

// In every call a pointer comes with the length of its slice, and the slices do not overlap.

pub fn validate(model: &[u8]) -> (u32, usize) {
    // SAFETY: as said above.
    let judged = unsafe { planner_validate(model.as_ptr(), model.len()) };
    (judged.number, judged.place)
}

#[rustfmt::skip]
pub fn solve(
    m: &[u8], horizon: u32, nodes: &mut [i64], stages: &mut [u32], work: &mut [u32], peaks: &mut [u32], out: &mut [u8],
) -> u32 {
    // SAFETY: as said above.
    unsafe {
        planner_solve(
            m.as_ptr(), m.len(), horizon, nodes.as_mut_ptr(), nodes.len(), stages.as_mut_ptr(), stages.len(),
            work.as_mut_ptr(), work.len(), peaks.as_mut_ptr(), peaks.len(), out.as_mut_ptr(), out.len(),
        )
    }
}

#[rustfmt::skip]
pub fn value(model: &[u8], nodes: &[i64], stages: &[u32], steps: u32, state: State, out: &mut [u8]) -> u32 {
    let State { mask, nums: [l1, l2, l3, l4, l5, l6, l7, l8], d } = state;
    // SAFETY: as said above.
    unsafe {
        planner_value(
            model.as_ptr(), model.len(), nodes.as_ptr(), nodes.len(), stages.as_ptr(), stages.len(), steps, mask,
            l1, l2, l3, l4, l5, l6, l7, l8, d, out.as_mut_ptr(), out.len(),
        )
    }
}

pub fn name(model: &[u8], action: u32, out: &mut [u8]) -> u32 {
    // SAFETY: as said above.
    unsafe { planner_name(model.as_ptr(), model.len(), action, out.as_mut_ptr(), out.len()) }
}

pub fn worth(model: &[u8], steps: u32, state: State, out: &mut [u8]) -> u32 {
    let State { mask, nums: [l1, l2, l3, l4, l5, l6, l7, l8], d } = state;
    // SAFETY: as said above.
    unsafe {
        planner_worth(
            model.as_ptr(),
            model.len(),
            steps,
            mask,
            l1,
            l2,
            l3,
            l4,
            l5,
            l6,
            l7,
            l8,
            d,
            out.as_mut_ptr(),
            out.len(),
        )
    }
}

#[rustfmt::skip]
pub fn sure(model: &[u8], steps: u32, state: State, e: i32, out: &mut [u8]) -> u32 {
    let State { mask, nums: [l1, l2, l3, l4, l5, l6, l7, l8], d } = state;
    // SAFETY: as said above.
    unsafe {
        planner_sure(
            model.as_ptr(), model.len(), steps, mask, l1, l2, l3, l4, l5, l6, l7, l8, d, e, out.as_mut_ptr(), out.len(),
        )
    }
}

#[rustfmt::skip]
pub fn listing(
    model: &[u8], horizon: u32, nodes: &[i64], stages: &[u32], text: &mut [u8], place: usize, out: &mut [u8],
) -> u32 {
    // SAFETY: as said above.
    unsafe {
        planner_listing(
            model.as_ptr(), model.len(), horizon, nodes.as_ptr(), nodes.len(), stages.as_ptr(), stages.len(),
            text.as_mut_ptr(), text.len(), place, out.as_mut_ptr(), out.len(),
        )
    }
}

pub fn find(model: &[u8], name: &[u8], out: &mut [u8]) -> u32 {
    // SAFETY: as said above.
    unsafe { planner_find(model.as_ptr(), model.len(), name.as_ptr(), name.len(), out.as_mut_ptr(), out.len()) }
}

#[rustfmt::skip]
#[allow(clippy::too_many_arguments)]
pub fn page(
    model: &[u8], horizon: u32, nodes: &[i64], stages: &[u32], state: State, text: &mut [u8], place: usize, out: &mut [u8],
) -> u32 {
    let State { mask, nums: [l1, l2, l3, l4, l5, l6, l7, l8], d } = state;
    // SAFETY: as said above.
    unsafe {
        planner_page(
            model.as_ptr(), model.len(), horizon, nodes.as_ptr(), nodes.len(), stages.as_ptr(), stages.len(),
            mask, l1, l2, l3, l4, l5, l6, l7, l8, d, text.as_mut_ptr(), text.len(), place, out.as_mut_ptr(), out.len(),
        )
    }
}

pub fn to_new(old: &[u8], buffer: &mut [u8], out: &mut [u8]) -> u32 {
    let (buffer_len, out_len) = (buffer.len(), out.len());
    // SAFETY: as said above.
    unsafe { planner_to_new(old.as_ptr(), old.len(), buffer.as_mut_ptr(), buffer_len, out.as_mut_ptr(), out_len) }
}

pub fn to_old(model: &[u8], buffer: &mut [u8], out: &mut [u8]) -> u32 {
    let (buffer_len, out_len) = (buffer.len(), out.len());
    // SAFETY: as said above.
    unsafe { planner_to_old(model.as_ptr(), model.len(), buffer.as_mut_ptr(), buffer_len, out.as_mut_ptr(), out_len) }
}

pub fn import(text: &[u8], buffer: &mut [u8], out: &mut [u8]) -> u32 {
    let (buffer_len, out_len) = (buffer.len(), out.len());
    // SAFETY: as said above.
    unsafe { planner_import(text.as_ptr(), text.len(), buffer.as_mut_ptr(), buffer_len, out.as_mut_ptr(), out_len) }
}

#[rustfmt::skip]
#[allow(clippy::too_many_arguments)]
pub fn prune(
    m: &[u8], nodes: &mut [i64], stages: &mut [u32], work: &mut [u32], stage: u32, turns: &[u8], multipliers: &[i32],
    out: &mut [u8],
) -> u32 {
    // SAFETY: as said above.
    unsafe {
        planner_prune(
            m.as_ptr(), m.len(), nodes.as_mut_ptr(), nodes.len(), stages.as_mut_ptr(), stages.len(),
            work.as_mut_ptr(), work.len(), stage, turns.as_ptr(), turns.len(), multipliers.as_ptr(), multipliers.len(),
            out.as_mut_ptr(), out.len(),
        )
    }
}

#[rustfmt::skip]
extern "C" {
    fn planner_total(
        model1: *const u8, model1_len: usize, nodes1: *const i64, node_words1: usize, stages1: *const u32, stage_words1: usize,
        mask1: u32, l11: i32, l12: i32, l13: i32, l14: i32, l15: i32, l16: i32, l17: i32, l18: i32, d1: i32,
        model2: *const u8, model2_len: usize, nodes2: *const i64, node_words2: usize, stages2: *const u32, stage_words2: usize,
        mask2: u32, l21: i32, l22: i32, l23: i32, l24: i32, l25: i32, l26: i32, l27: i32, l28: i32, d2: i32,
        steps: u32, out: *mut u8, out_len: usize,
    ) -> u32;
}

#[rustfmt::skip]
pub fn total(first: Side, second: Side, steps: u32, out: &mut [u8]) -> u32 {
    let State { mask, nums: [l1, l2, l3, l4, l5, l6, l7, l8], d } = first.state;
    let State { mask: mask2, nums: [k1, k2, k3, k4, k5, k6, k7, k8], d: e } = second.state;
    // SAFETY: as said above.
    unsafe {
        planner_total(
            first.model.as_ptr(), first.model.len(), first.nodes.as_ptr(), first.nodes.len(),
            first.stages.as_ptr(), first.stages.len(), mask, l1, l2, l3, l4, l5, l6, l7, l8, d,
            second.model.as_ptr(), second.model.len(), second.nodes.as_ptr(), second.nodes.len(),
            second.stages.as_ptr(), second.stages.len(), mask2, k1, k2, k3, k4, k5, k6, k7, k8, e,
            steps, out.as_mut_ptr(), out.len(),
        )
    }
}
