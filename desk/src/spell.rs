//! Models written as words, one command to a line, for tests: rules are not judged, so that broken models can be spelled too.
//!
//!     site LEVELS CONDITIONS ACTIONS WEIGHT     leaf 2*L1 -L2 40      condition C1 (or N1, or a number)
//!     test -L1 10     forbidden     reward ACTION     chance ACTION CONDITION     next ACTION LEVEL
//!     end_worth     name ACTION LETTERS     end     bytes FF 00     cut COUNT     repeat COUNT LINE
//!
//! `cut` takes bytes off the end of what is written so far.

use crate::widths::*;

fn number(word: &str) -> Result<i64, String> {
    word.parse().map_err(|_| format!("'{word}' is no number"))
}

/// A term of a linear: `-3*L2`, `L1` or `40`, added at its place.
fn term(numbers: &mut [i64; LEVELS + 1], word: &str) -> Result<(), String> {
    let Some((coefficient, level)) = word.split_once('L') else {
        numbers[LEVELS] = number(word)?;
        return Ok(());
    };
    let place = number(level)? as usize - 1;
    let coefficient = match coefficient {
        "" => 1,
        "-" => -1,
        product => number(product.trim_end_matches('*'))?,
    };
    *numbers.get_mut(place).ok_or(format!("no level in '{word}'"))? = coefficient;
    Ok(())
}

fn linear(words: &[&str]) -> Result<Vec<u8>, String> {
    let mut numbers = [0; LEVELS + 1];
    for word in words {
        term(&mut numbers, word)?;
    }
    Ok(numbers.iter().flat_map(|number| number.to_le_bytes()[..NUMBER_BYTES].to_vec()).collect())
}

fn action(word: &str) -> Result<Vec<u8>, String> {
    let bytes = number(word)?.to_le_bytes();
    let (kept, rest) = bytes.split_at(NEW.action_bytes);
    match rest.iter().all(|&byte| byte == 0) {
        true => Ok(kept.to_vec()),
        false => Err(format!("'{word}' is no action")),
    }
}

fn byte(word: &str) -> Result<Vec<u8>, String> {
    let (word, added) = match (word.strip_prefix('C'), word.strip_prefix('N')) {
        (Some(now), _) => (now, 0),
        (_, Some(next)) => (next, CONDITIONS as i64),
        _ => (word, 0),
    };
    u8::try_from(number(word)? + added).map(|byte| vec![byte]).map_err(|_| format!("'{word}' is no byte"))
}

fn letters(words: &[&str]) -> Vec<u8> {
    format!("{:LETTERS$}", words.join(" ")).into_bytes()
}

fn line(model: &mut Vec<u8>, words: &[&str]) -> Result<(), String> {
    let spelled: Vec<Vec<u8>> = match words {
        [] => vec![],
        ["site", m, n, a, w] => vec![vec![code::SITE], byte(m)?, byte(n)?, action(a)?, byte(w)?],
        ["leaf", rest @ ..] => vec![vec![code::LEAF], linear(rest)?],
        ["test", rest @ ..] => vec![vec![code::TEST], linear(rest)?],
        ["forbidden"] => vec![vec![code::FORBIDDEN]],
        ["condition", c] => vec![vec![code::CONDITION], byte(c)?],
        ["reward", a] => vec![vec![code::REWARD], action(a)?],
        ["chance", a, c] => vec![vec![code::CHANCE], action(a)?, byte(c)?],
        ["next", a, l] => vec![vec![code::NEXT], action(a)?, byte(l)?],
        ["end_worth"] => vec![vec![code::END_WORTH]],
        ["name", a, rest @ ..] => vec![vec![code::NAME], action(a)?, letters(rest)],
        ["end"] => vec![vec![code::END]],
        ["bytes", rest @ ..] => {
            let byte = |word: &&str| u8::from_str_radix(word, 16).map_err(|_| format!("'{word}' is no byte"));
            vec![rest.iter().map(byte).collect::<Result<_, _>>()?]
        }
        ["cut", count] => {
            model.truncate(model.len().saturating_sub(number(count)? as usize));
            vec![]
        }
        ["repeat", count, rest @ ..] => return (0..number(count)?).try_for_each(|_| line(model, rest)),
        [other, ..] => return Err(format!("'{other}' is no command")),
    };
    model.extend(spelled.concat());
    Ok(())
}

/// The bytes; `#` begins a comment.
pub fn spell(text: &str) -> Result<Vec<u8>, String> {
    let mut model = Vec::new();
    for (place, written) in text.lines().enumerate() {
        let words: Vec<&str> = written.split('#').next().unwrap_or("").split_whitespace().collect();
        line(&mut model, &words).map_err(|fault| format!("line {}: {fault}", place + 1))?;
    }
    Ok(model)
}
