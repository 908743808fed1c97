//! Commands, linears and counts in words.

use crate::model::{command_bytes, Command, Linear, Model, Site, Written};
use crate::widths::CONDITIONS;

/// `1 level`, `2 levels`.
pub fn count(number: usize, what: &str) -> String {
    format!("{number} {what}{}", if number == 1 { "" } else { "s" })
}

/// A number that is not zero, with the level that it stands before, if any.
pub struct Term {
    pub negative: bool,
    pub size: String,
    pub level: Option<usize>,
}

/// Terms as one writes them: `2*L1 - 3*L2 + 40`, or 0 where there are none.
pub fn sum(terms: &[Term]) -> String {
    let mut text = String::new();
    for term in terms {
        text += match (text.is_empty(), term.negative) {
            (true, true) => "-",
            (true, false) => "",
            (false, true) => " - ",
            (false, false) => " + ",
        };
        text += &match (term.level, term.size.as_str()) {
            (None, size) => size.to_string(),
            (Some(level), "1") => format!("L{}", level + 1),
            (Some(level), size) => format!("{size}*L{}", level + 1),
        };
    }
    if text.is_empty() {
        return "0".to_string();
    }
    text
}

/// A number before a level, or the constant, if it is not zero.
pub fn term((number, level): (i64, Option<usize>)) -> Option<Term> {
    (number != 0).then(|| Term { negative: number < 0, size: number.unsigned_abs().to_string(), level })
}

fn terms(linear: &Linear) -> Vec<Term> {
    let levels = linear.coefficients.iter().enumerate().map(|(level, &number)| (number, Some(level)));
    levels.chain([(linear.constant, None)]).filter_map(term).collect()
}

pub fn linear(linear: &Linear) -> String {
    sum(&terms(linear))
}

/// The two sides of a test p <= 0, p's negative terms on the other one, and whether it reads >=: where only that side has
/// levels, it stands first.
pub fn sides(terms: Vec<Term>) -> (String, bool, String) {
    let (mut right, left): (Vec<Term>, Vec<Term>) = terms.into_iter().partition(|term| term.negative);
    right.iter_mut().for_each(|term| term.negative = false);
    let has_levels = |side: &[Term]| side.iter().any(|term| term.level.is_some());
    if !has_levels(&left) && has_levels(&right) {
        return (sum(&right), true, sum(&left));
    }
    (sum(&left), false, sum(&right))
}

pub fn test(linear: &Linear) -> String {
    let (left, is_least, right) = sides(terms(linear));
    format!("{left} {} {right}", if is_least { ">=" } else { "<=" })
}

/// C1 for a condition now, N1 for the next step's.
pub fn condition(number: usize) -> String {
    match number {
        1..=CONDITIONS => format!("C{number}"),
        _ if number > CONDITIONS && number <= 2 * CONDITIONS => format!("N{}", number - CONDITIONS),
        _ => format!("condition {number}"),
    }
}

/// `action 2 (Release)`.
pub fn action(number: usize, name: Option<String>) -> String {
    match name {
        Some(name) => format!("action {number} ({name})"),
        None => format!("action {number}"),
    }
}

pub fn site(site: Site) -> String {
    let Site { levels, conditions, actions, weight } = site;
    let (levels, conditions) = (count(levels, "level"), count(conditions, "condition"));
    format!("{levels}, {conditions}, {}, weights out of {weight}", count(actions, "action"))
}

/// A command in words; names of actions are those of the model.
pub fn command(command: &Command, written: &Written) -> String {
    let action = |number: usize| action(number, written.name(number));
    match command {
        Command::Site(given) => format!("site: {}", site(*given)),
        Command::Leaf(given) => format!("leaf {}", linear(given)),
        Command::Condition(number) => format!("condition {}", condition(*number).replace("condition ", "")),
        Command::Test(given) => format!("test {}", test(given)),
        Command::Forbidden => "forbidden leaf".to_string(),
        Command::Reward(number) => format!("reward of {}", action(*number)),
        Command::Chance(number, chosen) => format!("chance of {} after {}", condition(*chosen), action(*number)),
        Command::Next(number, level) => format!("next L{level} after {}", action(*number)),
        Command::EndWorth => "end worth".to_string(),
        Command::Name(number, letters) => {
            let letters = letters.iter().flat_map(|&letter| std::ascii::escape_default(letter));
            let letters: String = letters.map(char::from).collect();
            format!("name of action {number}: {}", letters.trim_end_matches(' '))
        }
        Command::End => "end".to_string(),
    }
}

/// The bytes of the command at an offset in hexadecimal, as far as they are there.
pub fn bytes_at(model: Model, offset: usize) -> String {
    const SHOWN: usize = 24;
    let rest = &model.bytes[offset.min(model.len())..];
    let bytes = rest.first().and_then(|&first| command_bytes(model.form, first)).unwrap_or(1).min(rest.len());
    let shown: Vec<String> = rest[..bytes.min(SHOWN)].iter().map(|byte| format!("{byte:02X}")).collect();
    shown.join(" ") + if bytes > SHOWN { " .." } else { "" }
}

#[cfg(test)]
mod tests {
    use super::*;

    #[test]
    fn sums_and_tests() {
        let of = |levels: &[i64], constant| {
            let coefficients = std::array::from_fn(|i| levels.get(i).copied().unwrap_or(0));
            Linear { coefficients, constant }
        };
        assert_eq!(linear(&of(&[2, -3, 0, 1], -40)), "2*L1 - 3*L2 + L4 - 40");
        assert_eq!(linear(&of(&[], 0)), "0");
        assert_eq!(linear(&of(&[-1], 7)), "-L1 + 7");
        assert_eq!(test(&of(&[-1], 10)), "L1 >= 10");
        assert_eq!(test(&of(&[1], 10)), "L1 + 10 <= 0");
        assert_eq!(test(&of(&[2, -3], -40)), "2*L1 <= 3*L2 + 40");
        assert_eq!(test(&of(&[-1, -1], 0)), "L1 + L2 >= 0");
        assert_eq!(test(&of(&[], 5)), "5 <= 0");
        assert_eq!(test(&of(&[], i64::from(i32::MIN))), "0 <= 2147483648");
    }
}
