//! Models written as text (K13): the grammar of docs/TEXT-MODELS.md by recursive descent.
//!
//! Where a text stops (24) is the furthest that any way of reading it comes. Each rule can be completed, so whatever a way
//! has taken so far begins some text; and no way is left out: only a bracket where an atom may stand can be read in two
//! ways, as part of a sum or around a condition, and both are tried.

use crate::widths::{BRACKETS_MOST, CONDITIONS, LETTERS, LEVELS};

/// A number as written, with any count of digits; those beyond 32 bits are all alike and need not be told apart.
pub type Number = u64;
const LARGEST: Number = 1 << 40;

#[derive(Debug, PartialEq, Eq)]
pub struct Text {
    /// m, n, A, W.
    pub site: [Number; 4],
    pub items: Vec<Item>,
}

#[derive(Debug, PartialEq, Eq)]
pub enum Item {
    Reward(Number, Cases),
    Chance(Number, u8, Cases),
    Next(Number, u8, Cases),
    End(Cases),
    Name(Number, Vec<u8>),
}

/// The first case that holds counts.
#[derive(Debug, PartialEq, Eq)]
pub struct Cases {
    pub cases: Vec<(Or, Outcome)>,
    pub otherwise: Outcome,
}

#[derive(Debug, PartialEq, Eq)]
pub enum Outcome {
    Forbidden,
    Sum(Sum),
}

#[derive(Debug, PartialEq, Eq)]
pub struct Or(pub Vec<And>);

#[derive(Debug, PartialEq, Eq)]
pub struct And(pub Vec<Not>);

#[derive(Debug, PartialEq, Eq)]
pub struct Not {
    pub negated: bool,
    pub atom: Atom,
}

#[derive(Debug, PartialEq, Eq)]
pub enum Atom {
    Now(u8),
    Later(u8),
    Compared(Sum, Comparison, Sum),
    Bracket(Or),
}

#[derive(Clone, Copy, Debug, PartialEq, Eq)]
pub enum Comparison {
    Less,
    AtMost,
    Greater,
    AtLeast,
}

/// Terms, each taken away where it is marked so; in front that is a leading minus.
#[derive(Debug, PartialEq, Eq)]
pub struct Sum(pub Vec<(bool, Term)>);

#[derive(Debug, PartialEq, Eq)]
pub struct Term(pub Vec<Factor>);

#[derive(Debug, PartialEq, Eq)]
pub enum Factor {
    Number(Number),
    Level(u8),
    Bracket(Sum),
}

/// No way of reading goes on from here. How far the furthest came is kept by the reader.
struct Stop;

type Read<T> = Result<T, Stop>;

struct Reader<'a> {
    text: &'a [u8],
    at: usize,
    furthest: usize,
}

/// The reading of a text, or the offset of the first byte that no text can have there (the length, if it ends early).
pub fn read(text: &[u8]) -> Result<Text, usize> {
    let mut reader = Reader { text, at: 0, furthest: 0 };
    reader.text().map_err(|Stop| reader.furthest)
}

impl Reader<'_> {
    fn stop<T>(&mut self) -> Read<T> {
        self.furthest = self.furthest.max(self.at);
        Err(Stop)
    }

    fn byte(&self) -> Option<u8> {
        self.text.get(self.at).copied()
    }

    /// The next byte, without a gap before it, if it is this one.
    fn directly(&mut self, byte: u8) -> bool {
        let is_there = self.byte() == Some(byte);
        self.at += usize::from(is_there);
        is_there
    }

    /// The first byte of the next token: white space may stand before it.
    fn ahead(&mut self) -> Option<u8> {
        while matches!(self.byte(), Some(b' ' | b'\t' | b'\n' | b'\r')) {
            self.at += 1;
        }
        self.byte()
    }

    fn sign(&mut self, sign: u8) -> bool {
        self.ahead();
        self.directly(sign)
    }

    fn token(&mut self, letters: &str) -> Read<()> {
        self.ahead();
        for letter in letters.bytes() {
            if !self.directly(letter) {
                return self.stop();
            }
        }
        Ok(())
    }

    fn digit(&mut self) -> Option<u8> {
        let digit = self.byte().filter(u8::is_ascii_digit)? - b'0';
        self.at += 1;
        Some(digit)
    }

    fn number(&mut self) -> Read<Number> {
        self.ahead();
        let Some(first) = self.digit() else { return self.stop() };
        let mut number = first.into();
        while let Some(digit) = self.digit() {
            number = LARGEST.min(10 * number + Number::from(digit));
        }
        Ok(number)
    }

    /// A letter with a digit from 1 on behind it: one token.
    fn lettered(&mut self, letter: &str, most: usize) -> Read<u8> {
        self.token(letter)?;
        match self.byte() {
            Some(digit @ b'1'..=b'9') if usize::from(digit - b'0') <= most => {
                self.at += 1;
                Ok(digit - b'0')
            }
            _ => self.stop(),
        }
    }

    fn level(&mut self) -> Read<u8> {
        self.lettered("L", LEVELS)
    }

    fn later(&mut self) -> Read<u8> {
        self.lettered("N", CONDITIONS)
    }

    fn setting(&mut self, letter: &str) -> Read<Number> {
        self.token(letter)?;
        self.token("=")?;
        self.number()
    }

    fn text(&mut self) -> Read<Text> {
        self.token("site")?;
        let site = [self.setting("m")?, self.setting("n")?, self.setting("A")?, self.setting("W")?];
        let mut items = Vec::new();
        while self.ahead().is_some() {
            items.push(self.item()?);
        }
        Ok(Text { site, items })
    }

    fn item(&mut self) -> Read<Item> {
        match (self.ahead(), self.text.get(self.at + 1)) {
            (Some(b'r'), _) => {
                self.token("reward")?;
                Ok(Item::Reward(self.number()?, self.given()?))
            }
            (Some(b'c'), _) => {
                self.token("chance")?;
                Ok(Item::Chance(self.number()?, self.later()?, self.given()?))
            }
            (Some(b'n'), Some(b'a')) => {
                self.token("name")?;
                Ok(Item::Name(self.number()?, self.string()?))
            }
            (Some(b'n'), _) => {
                self.token("next")?;
                Ok(Item::Next(self.number()?, self.level()?, self.given()?))
            }
            _ => {
                self.token("end")?;
                Ok(Item::End(self.given()?))
            }
        }
    }

    /// At most sixteen characters; a quotation mark is written twice.
    fn string(&mut self) -> Read<Vec<u8>> {
        self.token("\"")?;
        let mut letters = Vec::new();
        loop {
            let is_mark = self.directly(b'"');
            let is_letter = if is_mark { self.byte() == Some(b'"') } else { matches!(self.byte(), Some(0x20..=0x7E)) };
            match (is_letter && letters.len() < LETTERS, is_mark) {
                (true, _) => letters.extend(self.byte()),
                (false, true) => return Ok(letters),
                (false, false) => return self.stop(),
            }
            self.at += 1;
        }
    }

    fn given(&mut self) -> Read<Cases> {
        self.token("=")?;
        let mut cases = Vec::new();
        while self.ahead() != Some(b'e') {
            let or = self.or(0)?;
            cases.push((or, self.outcome()?));
            self.token(";")?;
        }
        self.token("else")?;
        Ok(Cases { cases, otherwise: self.outcome()? })
    }

    fn outcome(&mut self) -> Read<Outcome> {
        self.token(":")?;
        if self.ahead() == Some(b'f') {
            self.token("forbidden")?;
            return Ok(Outcome::Forbidden);
        }
        Ok(Outcome::Sum(self.sum(0, true)?.0))
    }

    /// So many brackets are open around it.
    fn or(&mut self, open: usize) -> Read<Or> {
        let mut ands = vec![self.and(open)?];
        while self.sign(b'|') {
            ands.push(self.and(open)?);
        }
        Ok(Or(ands))
    }

    fn and(&mut self, open: usize) -> Read<And> {
        let mut nots = vec![self.not(open)?];
        while self.sign(b'&') {
            nots.push(self.not(open)?);
        }
        Ok(And(nots))
    }

    fn not(&mut self, open: usize) -> Read<Not> {
        let mut negated = false;
        while self.sign(b'!') {
            negated = !negated;
        }
        Ok(Not { negated, atom: self.atom(open)? })
    }

    fn atom(&mut self, open: usize) -> Read<Atom> {
        match self.ahead() {
            Some(b'C') => Ok(Atom::Now(self.lettered("C", CONDITIONS)?)),
            Some(b'N') => Ok(Atom::Later(self.later()?)),
            Some(b'(') => self.bracketed(open),
            _ => {
                let (left, _) = self.sum(open, true)?;
                let comparison = self.comparison()?;
                Ok(Atom::Compared(left, comparison, self.sum(open, true)?.0))
            }
        }
    }

    /// A bracket where an atom may stand. If it belongs to a sum that is compared, it is around no condition: a sum has none,
    /// and a condition's bracket always one.
    fn bracketed(&mut self, open: usize) -> Read<Atom> {
        let start = self.at;
        if let Ok((left, _)) = self.sum(open, true) {
            if let Ok(comparison) = self.comparison() {
                return Ok(Atom::Compared(left, comparison, self.sum(open, true)?.0));
            }
        }
        self.at = start;
        self.bracket(open)?;
        let or = self.or(open + 1)?;
        self.token(")")?;
        Ok(Atom::Bracket(or))
    }

    fn bracket(&mut self, open: usize) -> Read<()> {
        if open == BRACKETS_MOST {
            return self.stop();
        }
        self.token("(")
    }

    fn comparison(&mut self) -> Read<Comparison> {
        if self.sign(b'<') {
            return Ok(if self.directly(b'=') { Comparison::AtMost } else { Comparison::Less });
        }
        if self.sign(b'>') {
            return Ok(if self.directly(b'=') { Comparison::AtLeast } else { Comparison::Greater });
        }
        self.stop()
    }

    /// A sum, and whether a level stands in it, which may be if `free`.
    fn sum(&mut self, open: usize, free: bool) -> Read<(Sum, bool)> {
        let mut minus = self.sign(b'-');
        let (mut terms, mut varies) = (Vec::new(), false);
        loop {
            let (term, has_level) = self.term(open, free)?;
            terms.push((minus, term));
            varies |= has_level;
            minus = match self.ahead() {
                Some(b'+') => false,
                Some(b'-') => true,
                _ => return Ok((Sum(terms), varies)),
            };
            self.at += 1;
        }
    }

    /// One factor at most has a level.
    fn term(&mut self, open: usize, free: bool) -> Read<(Term, bool)> {
        let (first, mut varies) = self.factor(open, free)?;
        let mut factors = vec![first];
        while self.sign(b'*') {
            let (factor, has_level) = self.factor(open, free && !varies)?;
            factors.push(factor);
            varies |= has_level;
        }
        Ok((Term(factors), varies))
    }

    fn factor(&mut self, open: usize, free: bool) -> Read<(Factor, bool)> {
        match self.ahead() {
            Some(b'L') if free => Ok((Factor::Level(self.level()?), true)),
            Some(b'(') => {
                self.bracket(open)?;
                let (sum, varies) = self.sum(open + 1, free)?;
                self.token(")")?;
                Ok((Factor::Bracket(sum), varies))
            }
            _ => Ok((Factor::Number(self.number()?), false)),
        }
    }
}
