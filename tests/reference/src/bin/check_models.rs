//! What `crates/check_models` has to print for its input, worked out by the second program.

use reference::check_hex::rows;
use reference::validate;

fn main() -> std::io::Result<()> {
    rows(|model| {
        let (number, place) = validate(model);
        format!("R {number} {place}")
    })
}
