//! K13: where a text stops (24), against a second recogniser that shares nothing with the second program's: Earley's, byte by
//! byte over the productions, which derives both kinds of sums apart. It is slow, and only for small texts.

use models::{damaged_text, limits, text, Rng};
use reference::text::read;
use std::collections::{HashMap, HashSet};

#[derive(Clone, Copy, PartialEq, Eq, Hash)]
enum Symbol {
    Byte(u8),
    Blank,
    /// The digits from one to another.
    Digit(u8, u8),
    /// A character of a name that is no quotation mark.
    Plain,
    Of(Rule),
}

/// The numbers are brackets that may still be opened, or characters that may still come.
#[derive(Clone, Copy, PartialEq, Eq, Hash)]
enum Rule {
    Text,
    Gap,
    Word(&'static str),
    Number,
    Digits,
    Lettered(&'static str, u8),
    Chars(usize),
    Items,
    Item,
    Cases,
    Outcome,
    Or(usize),
    And(usize),
    Not(usize),
    Atom(usize),
    Sum(usize),
    ConstSum(usize),
    VarySum(usize),
    ConstTerm(usize),
    VaryTerm(usize),
    Const(usize),
    Vary(usize),
}

use Rule::*;
use Symbol::{Blank, Byte, Digit, Of, Plain};

const BRACKETS: usize = 32;

fn word(letters: &'static str) -> Symbol {
    Of(Word(letters))
}

/// The right sides of a rule, as the grammar of docs/TEXT-MODELS.md has them; lists grow at their right end.
fn productions(rule: Rule) -> Vec<Vec<Symbol>> {
    let now = Of(Lettered("C", b'4'));
    let later = Of(Lettered("N", b'4'));
    let level = Of(Lettered("L", b'8'));
    match rule {
        Text => vec![[
            vec![word("site")],
            ["m", "n", "A", "W"].into_iter().flat_map(|letter| [word(letter), word("="), Of(Number)]).collect(),
            vec![Of(Items), Of(Gap)],
        ]
        .concat()],
        Gap => vec![vec![], vec![Of(Gap), Blank]],
        Word(letters) => vec![[Of(Gap)].into_iter().chain(letters.bytes().map(Byte)).collect()],
        Number => vec![vec![Of(Gap), Of(Digits)]],
        Digits => vec![vec![Digit(b'0', b'9')], vec![Of(Digits), Digit(b'0', b'9')]],
        Lettered(letter, most) => vec![vec![word(letter), Digit(b'1', most)]],
        Chars(0) => vec![vec![]],
        Chars(more) => {
            vec![vec![], vec![Plain, Of(Chars(more - 1))], vec![Byte(b'"'), Byte(b'"'), Of(Chars(more - 1))]]
        }
        Items => vec![vec![], vec![Of(Items), Of(Item)]],
        Item => vec![
            vec![word("reward"), Of(Number), word("="), Of(Cases)],
            vec![word("chance"), Of(Number), later, word("="), Of(Cases)],
            vec![word("next"), Of(Number), level, word("="), Of(Cases)],
            vec![word("end"), word("="), Of(Cases)],
            vec![word("name"), Of(Number), word("\""), Of(Chars(16)), Byte(b'"')],
        ],
        Cases => vec![
            vec![word("else"), word(":"), Of(Outcome)],
            vec![Of(Or(BRACKETS)), word(":"), Of(Outcome), word(";"), Of(Cases)],
        ],
        Outcome => vec![vec![word("forbidden")], vec![Of(Sum(BRACKETS))]],
        Or(n) => vec![vec![Of(And(n))], vec![Of(Or(n)), word("|"), Of(And(n))]],
        And(n) => vec![vec![Of(Not(n))], vec![Of(And(n)), word("&"), Of(Not(n))]],
        Not(n) => vec![vec![Of(Atom(n))], vec![word("!"), Of(Not(n))]],
        Atom(n) => {
            let signs = ["<", "<=", ">", ">="];
            let mut all = vec![vec![now], vec![later]];
            all.extend(signs.map(|sign| vec![Of(Sum(n)), word(sign), Of(Sum(n))]));
            all.extend(n.checked_sub(1).map(|n| vec![word("("), Of(Or(n)), word(")")]));
            all
        }
        Sum(n) => vec![vec![Of(ConstSum(n))], vec![Of(VarySum(n))]],
        ConstSum(n) => vec![
            vec![Of(ConstTerm(n))],
            vec![word("-"), Of(ConstTerm(n))],
            vec![Of(ConstSum(n)), word("+"), Of(ConstTerm(n))],
            vec![Of(ConstSum(n)), word("-"), Of(ConstTerm(n))],
        ],
        VarySum(n) => {
            let mut all = vec![vec![Of(VaryTerm(n))], vec![word("-"), Of(VaryTerm(n))]];
            for sign in ["+", "-"] {
                all.push(vec![Of(ConstSum(n)), word(sign), Of(VaryTerm(n))]);
                all.push(vec![Of(VarySum(n)), word(sign), Of(ConstTerm(n))]);
                all.push(vec![Of(VarySum(n)), word(sign), Of(VaryTerm(n))]);
            }
            all
        }
        ConstTerm(n) => vec![vec![Of(Const(n))], vec![Of(ConstTerm(n)), word("*"), Of(Const(n))]],
        VaryTerm(n) => vec![
            vec![Of(Vary(n))],
            vec![Of(ConstTerm(n)), word("*"), Of(Vary(n))],
            vec![Of(VaryTerm(n)), word("*"), Of(Const(n))],
        ],
        Const(n) => {
            let mut all = vec![vec![Of(Number)]];
            all.extend(n.checked_sub(1).map(|n| vec![word("("), Of(ConstSum(n)), word(")")]));
            all
        }
        Vary(n) => {
            let mut all = vec![vec![level]];
            all.extend(n.checked_sub(1).map(|n| vec![word("("), Of(VarySum(n)), word(")")]));
            all
        }
    }
}

fn may_be_empty(rule: Rule) -> bool {
    matches!(rule, Gap | Items | Chars(_))
}

fn takes(symbol: Symbol, byte: u8) -> bool {
    match symbol {
        Byte(expected) => byte == expected,
        Blank => b" \t\n\r".contains(&byte),
        Digit(from, to) => (from..=to).contains(&byte),
        Plain => (0x20..=0x7E).contains(&byte) && byte != b'"',
        Of(_) => false,
    }
}

/// A right side, how much of it has been found, and since where.
#[derive(Clone, Copy, PartialEq, Eq, Hash)]
struct State {
    rule: Rule,
    side: usize,
    dot: usize,
    since: usize,
}

#[derive(Default)]
struct Set {
    states: Vec<State>,
    seen: HashSet<State>,
}

impl Set {
    fn add(&mut self, state: State) {
        if self.seen.insert(state) {
            self.states.push(state);
        }
    }
}

#[derive(Default)]
struct Earley {
    rules: HashMap<Rule, Vec<Vec<Symbol>>>,
    sets: Vec<Set>,
}

impl Earley {
    fn sides(&mut self, rule: Rule) -> &[Vec<Symbol>] {
        self.rules.entry(rule).or_insert_with(|| productions(rule))
    }

    fn next(&mut self, state: State) -> Option<Symbol> {
        self.sides(state.rule)[state.side].get(state.dot).copied()
    }

    fn predict(&mut self, rule: Rule, at: usize) {
        for side in 0..self.sides(rule).len() {
            self.sets[at].add(State { rule, side, dot: 0, since: at });
        }
    }

    /// All that follows without a byte more.
    fn close(&mut self, at: usize) {
        let mut place = 0;
        while let Some(&state) = self.sets[at].states.get(place) {
            place += 1;
            match self.next(state) {
                Some(Of(rule)) => {
                    self.predict(rule, at);
                    if may_be_empty(rule) {
                        self.sets[at].add(State { dot: state.dot + 1, ..state });
                    }
                }
                Some(_) => {}
                None => {
                    for waiting in self.sets[state.since].states.clone() {
                        if self.next(waiting) == Some(Of(state.rule)) {
                            self.sets[at].add(State { dot: waiting.dot + 1, ..waiting });
                        }
                    }
                }
            }
        }
    }

    /// Where a text stops. A set that is not empty has a way on, since each rule can be completed: the bytes before it begin
    /// some text.
    fn stop(text: &[u8]) -> Option<usize> {
        let mut earley = Earley::default();
        earley.sets.push(Set::default());
        earley.predict(Text, 0);
        earley.close(0);
        for (at, &byte) in text.iter().enumerate() {
            let mut after = Set::default();
            for state in earley.sets[at].states.clone() {
                if earley.next(state).is_some_and(|symbol| takes(symbol, byte)) {
                    after.add(State { dot: state.dot + 1, ..state });
                }
            }
            if after.states.is_empty() {
                return Some(at);
            }
            earley.sets.push(after);
            earley.close(at + 1);
        }
        let last = earley.sets.pop().expect("the last set");
        let is_whole = |&state: &State| state.rule == Text && earley.next(state).is_none();
        let whole = last.states.iter().any(is_whole);
        (!whole).then_some(text.len())
    }
}

fn same_stop(text: &[u8]) -> Option<usize> {
    let stop = Earley::stop(text);
    assert_eq!(read(text).err(), stop, "{}", String::from_utf8_lossy(text));
    stop
}

/// Random texts of the grammar, each with a byte put in, taken out or changed, several times over.
#[test]
fn both_recognisers_stop_alike() {
    let mut rng = Rng(13);
    let (mut texts, mut whole, mut stopped, mut early) = (0, 0, 0, 0);
    while texts < 120 {
        let text = text(&mut rng);
        if text.len() > 300 {
            continue;
        }
        assert_eq!(same_stop(&text), None, "{}", String::from_utf8_lossy(&text));
        texts += 1;
        for _ in 0..10 {
            let damaged = damaged_text(&mut rng, &text);
            match same_stop(&damaged) {
                None => whole += 1,
                Some(place) if place == damaged.len() => early += 1,
                Some(_) => stopped += 1,
            }
        }
        let cut = rng.below(text.len());
        same_stop(&text[..cut]);
    }
    println!("{texts} texts; damaged {whole} whole, {stopped} stopped, {early} too short");
    assert!(whole > 100 && stopped > 500 && early > 0, "{whole} {stopped} {early}");
}

/// Short texts of a few letters around the places that are hard to tell: all of them.
#[test]
fn all_short_texts_stop_alike() {
    let (site, mut texts) = ("site m=1n=0A=1W=1", 0);
    for (start, letters, length) in [
        ("end=", "(L1<|", 7),
        ("end=", "(2*L)<", 6),
        ("end=else:", "(1L)*-", 6),
        ("end=(", "!C1()<", 6),
        ("end=L1", "<=> !-1", 5),
        ("name1\"", "\" a", 6),
    ] {
        let letters = letters.as_bytes();
        let mut digits = vec![0; length];
        'all: loop {
            let tail: Vec<u8> = digits.iter().map(|&digit| letters[digit]).collect();
            // Those that stop sooner have been met in another's beginning.
            let text = [site.as_bytes(), start.as_bytes(), &tail].concat();
            let stop = same_stop(&text).map_or(length, |stop| (stop + length).saturating_sub(text.len()));
            texts += 1;
            let kept = stop.min(length - 1);
            digits[kept + 1..].fill(0);
            let mut place = kept;
            while digits[place] + 1 == letters.len() {
                digits[place] = 0;
                if place == 0 {
                    break 'all;
                }
                place -= 1;
            }
            digits[place] += 1;
        }
    }
    println!("{texts} short texts");
    assert!(texts > 3_000, "{texts}");
}

/// Brackets 31 to 34 deep and names about as long as one may be, and each with a byte put in, taken out or changed.
#[test]
fn limits_stop_alike() {
    let (mut rng, mut texts) = (Rng(5), 0);
    for (what, text, (number, place)) in limits().into_iter().filter(|(_, text, _)| text.len() <= 200) {
        let stop = same_stop(&text);
        assert_eq!(stop, (number == 24).then_some(place as usize), "{what}");
        for _ in 0..10 {
            same_stop(&damaged_text(&mut rng, &text));
            texts += 1;
        }
    }
    assert!(texts >= 100, "{texts}");
}

/// What a quoted text holds, up to its closing quote, and what follows.
fn unquoted(quoted: &str) -> (Vec<u8>, &str) {
    let (mut text, mut rest) = (Vec::new(), quoted.chars());
    loop {
        let letter = match rest.next().expect("a closing quote") {
            '"' => return (text, rest.as_str()),
            '\\' => match rest.next().expect("an escape") {
                'n' => '\n',
                'r' => '\r',
                't' => '\t',
                'u' => {
                    let (code, behind) = rest.as_str()[1..].split_once('}').expect("a code");
                    rest = behind.chars();
                    char::from(u8::from_str_radix(code, 16).expect("a byte"))
                }
                other => other,
            },
            other => other,
        };
        text.push(u8::try_from(letter).expect("a byte"));
    }
}

/// The rows that the prover computes (`crates/import_grammar`), read from its file.
#[test]
fn the_proved_examples() {
    let path = format!("{}/../../crates/import_grammar/specs/Examples.antt", env!("CARGO_MANIFEST_DIR"));
    let examples = std::fs::read_to_string(path).expect("the examples");
    let mut rows = 0;
    for line in examples.lines() {
        let Some((_, row)) =
            line.split_once("row \"").filter(|(before, _)| before.trim_start_matches([' ', '∷']).is_empty())
        else {
            continue;
        };
        let (text, place) = unquoted(row);
        let place: usize = place.trim().parse().expect("a place");
        assert_eq!(read(&text).err().unwrap_or(1_000_000), place, "{}", String::from_utf8_lossy(&text));
        rows += 1;
    }
    assert!(rows >= 260, "{rows} rows");
}
