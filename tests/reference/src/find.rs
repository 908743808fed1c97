//! An action by its name (K2 of document 02).

use crate::model::{open, NoTrees, Refusal};
use crate::read::{name_in, without_trailing_spaces};

/// The one action that carries the name sent; nobody carries the empty one.
pub fn find(bytes: &[u8], sent: &[u8]) -> Result<u32, Refusal> {
    let model = open::<NoTrees>(bytes, None, None)?;
    let sent = without_trailing_spaces(sent);
    let carries = |action: usize| !sent.is_empty() && name_in(&model, bytes, action) == sent;
    let mut bearers = (0..model.site.a).filter(|&action| carries(action));
    match (bearers.next(), bearers.next()) {
        (None, _) => Refusal::of(18),
        (Some(action), None) => Ok(action as u32 + 1),
        (Some(_), Some(_)) => Refusal::of(19),
    }
}
