//! Models written as text: number, place, length, and every byte of the buffer, which stays as it was behind the model and
//! after a refusal.

use crate::{bytes, expected, out, planner, Calls};
use models::{damaged_text, limits, slowest_text, text, usual_text, Rng};
use std::time::Instant;

/// One call with this buffer, which has marks all over.
fn compare_in(calls: &mut Calls, rng: &mut Rng, text: &[u8], buffer: &mut [u8]) -> u32 {
    let mut ours = buffer.to_vec();
    let mut out = out(rng, 8);
    let mut our_out = out.clone();
    calls.model = text.to_vec();
    let number = planner::import(text, buffer, &mut out);
    let our_number = expected::imported(text, &mut ours, &mut our_out);
    let arguments = (ours.len(), out.len());
    calls.check("import", "number", &number, &our_number, &arguments);
    calls.check("import", "place, length", &out, &our_out, &arguments);
    calls.check("import", "buffer", buffer, &ours[..], &arguments);
    calls.count(number);
    number
}

/// Buffers just long enough, one byte short, longer, shorter and empty. What was written is accepted.
fn compare(calls: &mut Calls, rng: &mut Rng, text: &[u8]) {
    let needed = reference::import(text, usize::MAX).map_or(300, |model| model.len());
    let longer = needed + rng.pick(&[1, 20, 300]);
    for length in [needed, needed.saturating_sub(1), longer, rng.below(needed + 1), 0] {
        let mut buffer = bytes(rng, length);
        if compare_in(calls, rng, text, &mut buffer) == 0 {
            let judged = planner::validate(&buffer[..needed]);
            calls.check("import and validate", "number and place", &judged, &(0, 0), &length);
        }
    }
}

/// A random text, and the same with a byte put in, taken out or changed, once and several times.
pub fn round(calls: &mut Calls, rng: &mut Rng) {
    let text = text(rng);
    compare(calls, rng, &text);
    let mut damaged = text.clone();
    for _ in 0..3 {
        let once = damaged_text(rng, &text);
        compare(calls, rng, &once);
        damaged = damaged_text(rng, &damaged);
    }
    compare(calls, rng, &damaged);
    let cut = rng.below(text.len());
    compare(calls, rng, &text[..cut]);
}

/// The same buffer over and over, with what earlier calls left in it.
pub fn endurance(calls: &mut Calls, rng: &mut Rng, buffer: &mut [u8]) {
    let mut text = text(rng);
    if rng.once_in(3) {
        text = damaged_text(rng, &text);
    }
    let length = rng.below(buffer.len() + 1);
    compare_in(calls, rng, &text, &mut buffer[..length]);
}

/// One call with room for any model, and the time of both programs.
fn timed(calls: &mut Calls, what: &str, text: &[u8], refusal: (u32, u32)) {
    let (mut buffer, mut out) = (vec![0; 262_144], [0; 8]);
    calls.model = text.to_vec();
    let start = Instant::now();
    let number = planner::import(text, &mut buffer, &mut out);
    let time = start.elapsed().as_secs_f64();
    let start = Instant::now();
    let ours = reference::import(text, buffer.len());
    let our_time = start.elapsed().as_secs_f64();
    let place = u32::from_le_bytes(out[..4].try_into().expect("four bytes"));
    calls.check("import", what, &(number, place), &refusal, &text.len());
    let length = ours.as_ref().map_or(0, |model| model.len());
    calls.check("import", "model", &buffer[..length], ours.as_deref().unwrap_or_default(), &what);
    calls.count(number);
    println!("{what}: {} bytes of text, number {number}, place {place}, {length} bytes", text.len());
    println!("  library {time:.4} s, reference {our_time:.4} s");
}

/// Texts at the limits; one of usual items, and the one that takes longest, a 32nd as long as it may be.
pub fn large(calls: &mut Calls, rng: &mut Rng) {
    for (what, text, refusal) in limits() {
        compare(calls, rng, &text);
        timed(calls, what, &text, refusal);
    }
    timed(calls, "400 settings as text", &usual_text(), (0, 0));
    timed(calls, "the slowest text known, of 8,192 bytes", &slowest_text(8_192), (0, 0));
}
