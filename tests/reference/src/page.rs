//! The page for the pump house wall (document 02, K3): for one state a line per stage.

use crate::model::{open, NoTrees, Refusal, Site};
use crate::read::{name_in, value_of_site, Reading};
use crate::State;

/// The value's whole part, rounded downward. A divisor beyond 128 bits is larger than any numerator.
fn whole_part(reading: &Reading, site: &Site, d: i32, steps: u32) -> i128 {
    let numerator = i128::from(reading.high) << 64 | i128::from(reading.low);
    let power = i128::from(site.w).checked_pow(site.n as u32 * steps);
    match power.and_then(|power| power.checked_mul(d.into())) {
        Some(divisor) => numerator.div_euclid(divisor),
        None => i128::from(numerator < 0) * -1,
    }
}

/// The page for a buffer of so many bytes, to stand at a place of it.
pub fn page(
    bytes: &[u8],
    horizon: u32,
    nodes: &[i64],
    stages: &[u32],
    state: State,
    text_length: usize,
    place: usize,
) -> Result<Vec<u8>, Refusal> {
    let model = open::<NoTrees>(bytes, Some(stages.len()), Some(horizon))?;
    state.judge(&model.site)?;
    if stages[..horizon as usize].contains(&0) {
        return Refusal::of(15);
    }
    let mut text = Vec::new();
    for steps in 1..=horizon {
        let reading = value_of_site(&model.site, nodes, stages, steps, &state)?;
        let (value, name) = match reading.action {
            0 => ("none".to_string(), &[][..]),
            action => (
                whole_part(&reading, &model.site, state.d, steps).to_string(),
                name_in(&model, bytes, action as usize - 1),
            ),
        };
        let name = String::from_utf8_lossy(name);
        text.extend(format!("{steps:>2} {value:>30} {name:<16}\n").bytes());
    }
    if text_length < place || text_length - place < text.len() {
        return Refusal::of(17);
    }
    Ok(text)
}
