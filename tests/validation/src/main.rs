//! `validation COUNT SEED`: the proved validation and the second program's judge COUNT random models and as many
//! damaged ones alike, large ones, and models about as long as one may be.

use models::{damaged, of_length, old_form, pond, random, settings, staircases, Rng, MODEL_BYTES};

#[repr(C)]
struct Judged {
    number: u32,
    place: usize,
}

extern "C" {
    fn planner_validate(bytes: *const u8, count: usize) -> Judged;
}

fn library(model: &[u8]) -> (u32, usize) {
    // SAFETY: the slice lives over the call, and the library only reads it.
    let judged = unsafe { planner_validate(model.as_ptr(), model.len()) };
    (judged.number, judged.place)
}

fn second(model: &[u8]) -> (u32, usize) {
    let (number, place) = reference::validate(model);
    (number, place as usize)
}

/// What both come to; they come to the same.
fn judged_alike(model: &[u8]) -> (u32, usize) {
    let (ours, theirs) = (library(model), second(model));
    if ours != theirs {
        println!("validation: library {ours:?}, second program {theirs:?}, model {model:?}");
        std::process::exit(1);
    }
    ours
}

fn main() {
    let number = |place: usize| std::env::args().nth(place).and_then(|arg| arg.parse::<u64>().ok());
    let count = number(1).unwrap_or(2000);
    let mut rng = Rng(number(2).unwrap_or(1));
    let mut seen = [0u32; 11];
    for _ in 0..count {
        let whole = random(&mut rng);
        for model in [damaged(&mut rng, &whole), whole] {
            seen[judged_alike(&model).0 as usize] += 1;
        }
    }
    println!("validation: {} models judged alike, by number {seen:?}", 2 * count);
    assert_eq!(judged_alike(&old_form(&pond())), (3, 0), "an old model");
    let large = staircases();
    for (size, expected) in [(MODEL_BYTES, (8, large.len())), (MODEL_BYTES + 1, (10, 0)), (300_000, (10, 0))] {
        let mut longer = large.clone();
        longer.resize(size, 0);
        assert_eq!(judged_alike(&longer), expected, "{size} bytes");
    }
    assert_eq!(judged_alike(&of_length(MODEL_BYTES)), (0, 0), "the longest model");
    assert_eq!(judged_alike(&of_length(MODEL_BYTES + 1)), (10, 0), "a model that is too long");
    // Faults anywhere in 250 kB, most of them at places beyond 16 bits.
    let whole = settings();
    let mut far = 0;
    for _ in 0..(count / 20).max(100) {
        far += u32::from(judged_alike(&damaged(&mut rng, &whole)).1 > 65_535);
    }
    println!("validation: {far} places beyond 16 bits");
    assert!(far > 20);
}
