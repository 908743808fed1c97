//! What `crates/check_worth` has to print for its input, worked out by the second program. A row has steps, mask, numerators and
//! denominator, in four bytes each, and then the model.

use reference::check_hex::rows;
use reference::widths::LEVELS;
use reference::{worth, Reading, State};

const WORD: usize = 4;
const STATE: usize = WORD * (2 + LEVELS + 1);

fn main() -> std::io::Result<()> {
    rows(|input| {
        let word = |place: usize| u32::from_le_bytes(input[WORD * place..][..WORD].try_into().expect("four bytes"));
        let nums = std::array::from_fn(|i| word(2 + i) as i32);
        let state = State { mask: word(1), nums, d: word(2 + LEVELS) as i32 };
        let Reading { number, place, action, low, high } = worth(&input[STATE..], word(0), state);
        format!("{number} {place} {action} {low} {high}")
    })
}
