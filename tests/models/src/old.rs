//! The form of models before document 02's K5: site 01, one byte for an action, four coefficients.

use crate::random::commands;
use crate::{ACTIONS, LEVELS, SITE_BYTES};

/// What the two forms differ in.
#[derive(Clone, Copy, Debug)]
pub struct Form {
    pub site: u8,
    pub site_bytes: usize,
    /// Bytes of the coefficients of a leaf or a test, and of an action.
    pub coefficients: usize,
    pub action: usize,
    pub actions: u16,
}

pub const NEW: Form =
    Form { site: 0x02, site_bytes: SITE_BYTES, coefficients: 4 * LEVELS, action: 2, actions: ACTIONS };
pub const OLD: Form = Form { site: 0x01, site_bytes: SITE_BYTES - 1, coefficients: 16, action: 1, actions: 8 };

/// Bytes that an old model may have.
pub const OLD_BYTES: usize = 65_535;

/// The old form of a model without fault that has one: command by command, in the same order.
pub fn old_form(model: &[u8]) -> Vec<u8> {
    let offsets = commands(model);
    let mut old = Vec::new();
    for command in offsets.windows(2).map(|ends| &model[ends[0]..ends[1]]) {
        match command[0] {
            0x02 => old.extend([0x01, command[1], command[2], command[3], command[5]]),
            0x10 | 0x12 => old.extend([&command[..17], &command[33..]].concat()),
            0x20 | 0x21 | 0x22 | 0x30 => old.extend([&command[..2], &command[3..]].concat()),
            _ => old.extend(command),
        }
    }
    old
}
