//! Models of the old form into the planner's, and back (K6 of document 02), command by command in the same order.

use crate::model::{command, open_as, takes_action, Model, NoTrees, Refusal, LEAF, TEST};
use crate::widths::{Form, New, Old};

/// The bytes of a field in another width, low byte first: cut, or filled up with zeros.
fn put(written: &mut Vec<u8>, field: &[u8], width: usize) {
    written.extend(field.iter().copied().chain(std::iter::repeat(0)).take(width));
}

/// A model without fault, as the other form has it.
fn written<F: Form, T: Form>(bytes: &[u8]) -> Vec<u8> {
    let (mut written, mut offset) = (Vec::new(), 0);
    while let Ok((code, operands)) = command::<F>(bytes, offset) {
        written.push(if code == F::SITE { T::SITE } else { code });
        let (before, field, width) = match code {
            LEAF | TEST => (0, 4 * F::LEVELS, 4 * T::LEVELS),
            code if code == F::SITE => (2, F::ACTION_BYTES, T::ACTION_BYTES),
            code if takes_action(code) => (0, F::ACTION_BYTES, T::ACTION_BYTES),
            _ => (0, 0, 0),
        };
        written.extend(&operands[..before]);
        put(&mut written, &operands[before..before + field], width);
        written.extend(&operands[before + field..]);
        offset += 1 + operands.len();
    }
    written
}

/// 10 and the model's own, then 20 for what the other form has no place for, then 17.
fn converted<F: Form, T: Form>(bytes: &[u8], room: usize) -> Result<Vec<u8>, Refusal> {
    let model: Model<NoTrees> = open_as::<F, NoTrees>(bytes)?;
    let written = written::<F, T>(bytes);
    let fits = model.site.m <= T::LEVELS && model.site.a <= T::ACTIONS && (T::FORBIDS || !model.forbids);
    if !fits || written.len() > T::MODEL_BYTES {
        return Refusal::of(20);
    }
    if written.len() > room {
        return Refusal::of(17);
    }
    Ok(written)
}

/// An old model in the planner's form, for a buffer of so many bytes.
pub fn to_new(old: &[u8], room: usize) -> Result<Vec<u8>, Refusal> {
    converted::<Old, New>(old, room)
}

/// A model in the old form, for a buffer of so many bytes.
pub fn to_old(model: &[u8], room: usize) -> Result<Vec<u8>, Refusal> {
    converted::<New, Old>(model, room)
}
