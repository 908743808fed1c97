//! Models written as text, with the letters of `crates/check_hex`: pairs of hexadecimal digits, O for a number 0, and letters
//! for what depends on the widths of operands: S for the byte of a site; A, behind the low byte of an action, for its other
//! bytes; K, behind the coefficients of L1 to L4, for those of further levels; P for a leaf 0.

use crate::widths::{Form, New, NUMBERS};

const NUMBER: &str = "00000000";

pub fn bytes(text: &str) -> Vec<u8> {
    let text = text
        .replace('S', &format!("{:02x}", New::SITE))
        .replace('A', &"00".repeat(New::ACTION_BYTES - 1))
        .replace('K', &"O".repeat(New::LEVELS - 4))
        .replace('P', &format!("10{}", "O".repeat(NUMBERS)))
        .replace('O', NUMBER);
    let digits: Vec<u8> = text.chars().filter_map(|c| c.to_digit(16)).map(|d| d as u8).collect();
    digits.chunks(2).map(|pair| pair[0] * 16 + pair[1]).collect()
}

/// A line for each line of standard input: its label and what its bytes come to; one without a colon is copied.
pub fn rows(work: impl Fn(&[u8]) -> String) -> std::io::Result<()> {
    for line in std::io::stdin().lines() {
        let line = line?;
        match line.split_once(':') {
            Some((label, text)) => println!("{label}: {}", work(&bytes(text))),
            None => println!("{line}"),
        }
    }
    Ok(())
}
