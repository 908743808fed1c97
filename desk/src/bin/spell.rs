//! Spells a model for the tests: words from standard input, bytes to standard output.

#[path = "../spell.rs"]
mod spell;
#[allow(dead_code)]
#[path = "../widths.rs"]
mod widths;

use std::io::{Read, Write};

fn main() -> std::io::Result<()> {
    let mut text = String::new();
    std::io::stdin().read_to_string(&mut text)?;
    match spell::spell(&text) {
        Ok(model) => std::io::stdout().write_all(&model),
        Err(fault) => Err(std::io::Error::other(fault)),
    }
}
