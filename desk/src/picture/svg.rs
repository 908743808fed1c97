//! Parts of a drawing that every picture has: colours, escapes, ticks, legend.

use crate::fraction::Fraction;
use crate::whole::Whole;
use crate::widths::NO_ACTION;

/// Colours that stay apart for every common kind of colour blindness (Okabe and Ito's, black last as grey), and whether
/// white can be read on them.
const COLOURS: [(&str, bool); 8] = [
    ("#0072B2", true),
    ("#E69F00", false),
    ("#009E73", true),
    ("#CC79A7", false),
    ("#56B4E9", false),
    ("#D55E00", true),
    ("#F0E442", false),
    ("#5A5A5A", true),
];

pub const INK: &str = "#222222";
pub const FAINT: &str = "#DDDDDD";

fn of(action: u32) -> (String, bool) {
    if action == NO_ACTION {
        return (FAINT.to_string(), false);
    }
    let place = (action as usize).saturating_sub(1);
    COLOURS.get(place).map_or_else(|| further(place), |&(colour, dark)| (colour.to_string(), dark))
}

/// Behind the first ones: hues far from those just before, in turn dark, middle and light. No two of 400 are the same.
fn further(place: usize) -> (String, bool) {
    let (hue, lightness) = (place * 137 % 360, [70, 110, 160][(place + place / 360) % 3]);
    let part = |turn: usize| {
        let away = (hue + turn) % 360;
        let share = away.min(360 - away).clamp(60, 120) - 60; // 0 at the part's own hue, 60 far from it
        lightness + 40 - share * 80 / 60
    };
    (format!("#{:02X}{:02X}{:02X}", part(0), part(240), part(120)), lightness < 160)
}

pub fn colour(action: u32) -> String {
    of(action).0
}

/// The colour of letters on an action's colour.
pub fn on_colour(action: u32) -> &'static str {
    if of(action).1 {
        "#FFFFFF"
    } else {
        "#000000"
    }
}

pub fn escaped(text: &str) -> String {
    text.replace('&', "&amp;").replace('<', "&lt;").replace('>', "&gt;").replace('"', "&quot;")
}

/// A coordinate, to a hundredth.
pub fn px(number: f64) -> String {
    let text = format!("{number:.2}");
    let text = text.trim_end_matches('0').trim_end_matches('.');
    if text == "-0" { "0" } else { text }.to_string()
}

/// Text with its anchor (start, middle or end), size and weight.
pub fn text(x: f64, y: f64, anchor: &str, style: &str, words: &str) -> String {
    let (x, y, words) = (px(x), px(y), escaped(words));
    format!("<text x=\"{x}\" y=\"{y}\" text-anchor=\"{anchor}\" {style}>{words}</text>\n")
}

pub fn segment(from: (f64, f64), to: (f64, f64), colour: &str, width: f64) -> String {
    let ((x1, y1), (x2, y2)) = ((px(from.0), px(from.1)), (px(to.0), px(to.1)));
    format!("<line x1=\"{x1}\" y1=\"{y1}\" x2=\"{x2}\" y2=\"{y2}\" stroke=\"{colour}\" stroke-width=\"{width}\"/>\n")
}

/// The width that words take, nearly.
pub fn width(words: &str, size: f64) -> f64 {
    words.chars().count() as f64 * size * 0.58
}

pub fn document(wide: f64, high: f64, label: &str, body: &str) -> String {
    let (wide, high, label) = (px(wide), px(high), escaped(label));
    format!(
        "<svg xmlns=\"http://www.w3.org/2000/svg\" width=\"{wide}\" height=\"{high}\" viewBox=\"0 0 {wide} {high}\" \
         font-family=\"'DejaVu Sans', Verdana, Helvetica, sans-serif\" fill=\"{INK}\" role=\"img\">\n\
         <title>{label}</title>\n<rect width=\"{wide}\" height=\"{high}\" fill=\"#FFFFFF\"/>\n{body}</svg>\n"
    )
}

/// Whole steps of 1, 2 or 5 times a power of ten, about four of them from one number to the other.
pub fn ticks(from: &Fraction, to: &Fraction) -> Vec<Fraction> {
    let step = tick_step(from, to);
    let whole = |number: Whole| Fraction::new(number, Whole::from(1u128));
    let mut at = &whole((from / &step).floor()) * &step;
    let mut ticks = Vec::new();
    while at <= *to {
        if at >= *from {
            ticks.push(at.clone());
        }
        at = &at + &step;
    }
    ticks
}

pub fn tick_step(from: &Fraction, to: &Fraction) -> Fraction {
    let wanted = (to - from).to_f64() / 3.5;
    let power = wanted.log10().floor();
    let digit = match wanted / 10f64.powf(power) {
        ..1.5 => 1,
        1.5..3.5 => 2,
        3.5..7.5 => 5,
        _ => 10,
    };
    let mut step = Fraction::from(digit);
    for _ in 0..power.abs() as u32 {
        step = if power < 0.0 { &step / &Fraction::from(10) } else { &step * &Fraction::from(10) };
    }
    step
}

/// The actions with their colours, in lines that fit the width; the height that they take.
pub fn legend(actions: &[(u32, String)], left: f64, top: f64, right: f64) -> (String, f64) {
    let (mut body, mut x, mut y) = (String::new(), left, top);
    for (action, name) in actions {
        let words = &if name.contains(' ') { name.clone() } else { format!("action {name}") };
        let wide = 18.0 + width(words, 12.0) + 18.0;
        if x + wide > right && x > left {
            (x, y) = (left, y + 20.0);
        }
        let (at_x, at_y, fill) = (px(x), px(y), colour(*action));
        body += &format!("<rect x=\"{at_x}\" y=\"{at_y}\" width=\"12\" height=\"12\" fill=\"{fill}\"/>\n");
        body += &text(x + 18.0, y + 10.5, "start", "font-size=\"12\"", words);
        x += wide;
    }
    (body, y + 20.0 - top)
}

#[cfg(test)]
mod tests {
    use super::*;
    use crate::widths::ACTIONS;
    use std::collections::BTreeSet;

    #[test]
    fn every_action_has_a_colour_of_its_own() {
        let colours: BTreeSet<String> = (1..=ACTIONS as u32).map(colour).collect();
        assert_eq!(colours.len(), ACTIONS);
        assert!(colours.iter().all(|colour| colour.len() == 7));
        assert!(!colours.contains(&colour(NO_ACTION)));
    }
}
