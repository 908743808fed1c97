//! Models written as text: what is one, and an import's refusals in words, with the line that they are about.

use crate::library::{self, Refusal};
use crate::widths::{refusal, MODEL_BYTES_MOST, STACK_MOST};

/// Bytes that may stand between tokens.
const BLANKS: [u8; 4] = *b" \t\n\r";

/// A file is a text if its first bytes that are not blank spell `site`; no model in bytes begins so.
pub fn is_text(file: &[u8]) -> bool {
    let start = file.iter().position(|byte| !BLANKS.contains(byte)).unwrap_or(file.len());
    file[start..].starts_with(b"site")
}

/// The lines that are printed for a refused import.
pub fn explain(refused: Refusal, path: &str, text: &[u8]) -> String {
    let Refusal { number, place } = refused;
    let at = match number {
        refusal::GRAMMAR => Some(place as usize),
        refusal::MISSING => None,
        _ if text.len() > MODEL_BYTES_MOST => None,
        _ => item_at_fault(refused, text),
    };
    let there = at.map_or(String::new(), |at| pointed(text, at));
    let (rule, advice) = told(number, place as usize == text.len(), text.len() > MODEL_BYTES_MOST);
    format!("plan: {path}: refusal {number}, place {place}\n{there}  rule:   {rule}\n  advice: {advice}\n")
}

fn told(number: u32, is_end: bool, is_long: bool) -> (String, &'static str) {
    const GRAMMAR: &str = "docs/TEXT-MODELS.md has the grammar, with examples";
    let of_model = "the model that the text becomes";
    match number {
        refusal::SIZE if is_long => {
            (format!("a text has at most {MODEL_BYTES_MOST} bytes"), "write cases shorter, or leave white space out")
        }
        refusal::SIZE => (
            format!("{of_model} has at most {MODEL_BYTES_MOST} bytes"),
            "& copies the cases after it, | copies its result: ask the simple cases first",
        ),
        refusal::GRAMMAR if is_end => ("a text does not end here: something is missing".to_string(), GRAMMAR),
        refusal::GRAMMAR => ("no text can have this byte here".to_string(), GRAMMAR),
        refusal::BEYOND => (
            "every number, as written and as worked out, fits signed 32 bits".to_string(),
            "take smaller numbers; -2147483648 is written -2147483647 - 1",
        ),
        refusal::RULE => (
            format!("{of_model} keeps to the site's levels, conditions and actions, and to what an item may have"),
            "N stands in next levels only, forbidden in rewards, 0 to W in chances; a comparison keeps some level",
        ),
        refusal::STACK => (
            format!("cases leave at most {STACK_MOST} diagrams on the stack of {of_model}"),
            "turn plain cases round: after '!C1 : r ;' or '<' in place of '>=' nothing waits",
        ),
        refusal::TWICE => {
            ("a reward, chance, next level, end worth or name is given once".to_string(), "leave one of the two out")
        }
        refusal::MISSING => (
            "every action has a reward, a chance for each condition and a next level for each level".to_string(),
            "add what is missing",
        ),
        _ => (format!("{of_model} keeps to the rules"), "see docs/SITE-MODEL.md"),
    }
}

/// Where the item begins that a refusal is about: the first with which, as the last of the text, the refusal is the same.
/// Without it the model has no fault but something missing.
fn item_at_fault(refused: Refusal, text: &[u8]) -> Option<usize> {
    let starts = items(text);
    let is_before = |end: &usize| !library::import(&text[..*end]).is_err_and(|other| other == refused);
    if !is_before(starts.first().unwrap_or(&text.len())) {
        return text.iter().position(|byte| !BLANKS.contains(byte));
    }
    // The refusal stays the same from the item at fault on.
    let ends: Vec<usize> = starts.iter().skip(1).copied().chain([text.len()]).collect();
    let place = ends.partition_point(is_before);
    starts.get(place).copied()
}

/// The offsets at which the items of a text of the grammar begin: small letters begin `else`, `forbidden` and items.
fn items(text: &[u8]) -> Vec<usize> {
    let (mut starts, mut at) = (Vec::new(), 0);
    while at < text.len() {
        match text[at] {
            b'"' => at += text[at + 1..].iter().position(|&byte| byte == b'"').map_or(text.len(), |end| end + 1),
            b'a'..=b'z' => {
                let letters = text[at..].iter().take_while(|byte| byte.is_ascii_lowercase()).count();
                match &text[at..at + letters] {
                    b"site" | b"else" | b"forbidden" | b"m" | b"n" => {}
                    // Words may stand side by side: `forbiddenreward`.
                    word if word.starts_with(b"forbidden") => starts.push(at + b"forbidden".len()),
                    word if word.starts_with(b"site") => {}
                    _ => starts.push(at),
                }
                at += letters - 1;
            }
            _ => {}
        }
        at += 1;
    }
    starts
}

/// Of a long line so much is shown on either side.
const SHOWN: usize = 60;

/// The line of an offset, and a caret below the byte.
fn pointed(text: &[u8], at: usize) -> String {
    let before = &text[..at.min(text.len())];
    let start = before.iter().rposition(|&byte| byte == b'\n').map_or(0, |end| end + 1);
    let end = text[start..].iter().position(|&byte| byte == b'\n').map_or(text.len(), |length| start + length);
    let (line, column) = (1 + before.iter().filter(|&&byte| byte == b'\n').count(), 1 + before.len() - start);
    let (from, to) = (start.max(before.len().saturating_sub(SHOWN)), end.min(before.len() + SHOWN));
    let shown =
        |from: usize, to: usize| -> String { text[from..to.max(from)].iter().map(|&byte| printed(byte)).collect() };
    let caret: String = shown(from, before.len()).chars().map(|c| if c == '\t' { c } else { ' ' }).collect();
    format!("  there:  line {line}, column {column}\n          {}\n          {caret}^\n", shown(from, to).trim_end())
}

/// Tabs as they are, so that the caret stays below its byte.
fn printed(byte: u8) -> char {
    match byte {
        b'\t' | 0x20..=0x7E => char::from(byte),
        b'\r' => ' ',
        _ => '?',
    }
}

#[cfg(test)]
mod tests {
    use super::*;

    #[test]
    fn texts_and_others() {
        for text in ["site m=1", " \r\n\tsite", "sitem=1"] {
            assert!(is_text(text.as_bytes()), "{text}");
        }
        for other in [&b"\x02\x01"[..], b"", b"  ", b"sit", b"# site", b"Site"] {
            assert!(!is_text(other));
        }
    }

    #[test]
    fn lines_and_carets() {
        let text = b"site m=1 n=0\n\tA=1 w=1\r\nend";
        assert_eq!(pointed(text, 18), "  there:  line 2, column 6\n          \tA=1 w=1\n          \t    ^\n");
        assert_eq!(pointed(text, text.len()), "  there:  line 3, column 4\n          end\n             ^\n");
        assert_eq!(pointed(b"", 0), "  there:  line 1, column 1\n          \n          ^\n");
        let long = [vec![b' '; 200], b"x\x80y".to_vec(), vec![b'z'; 100]].concat();
        let lines: Vec<String> = pointed(&long, 201).lines().map(str::to_string).collect();
        assert_eq!(lines[0], "  there:  line 1, column 202");
        assert_eq!(lines[1].find('?'), lines[2].find('^'));
    }

    #[test]
    fn starts_of_items() {
        let text =
            "site m=1 n=0A=1W=1reward1=C1:forbidden;else:forbiddennext 1 L1=else:L1 name 1\"end\"\"x\"end=else:0";
        let words: Vec<&str> = items(text.as_bytes()).into_iter().map(|at| &text[at..at + 3]).collect();
        assert_eq!(words, ["rew", "nex", "nam", "end"]);
    }
}
