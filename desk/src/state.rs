//! A state: which conditions hold, and the levels over a common denominator.

use crate::fraction::Fraction;
use crate::whole::Whole;
use crate::widths::{CONDITIONS, LEVELS};

#[derive(Clone, Debug, PartialEq, Eq)]
pub struct State {
    pub mask: u32,
    pub numerators: [i32; LEVELS],
    pub denominator: i32,
}

/// Words of `--at`, with what they leave open: a level or a condition that is not named.
#[derive(Clone, Debug, Default)]
pub struct Given {
    pub levels: [Option<Fraction>; LEVELS],
    pub conditions: [Option<bool>; CONDITIONS],
}

/// `L1` as 0, if it names a level that a linear has.
pub fn level_named(word: &str) -> Option<usize> {
    numbered(word, 'L', LEVELS)
}

fn numbered(word: &str, letter: char, most: usize) -> Option<usize> {
    let digits = word.strip_prefix(letter)?;
    let number = (0..most).find(|i| digits == (i + 1).to_string())?;
    Some(number)
}

impl Given {
    /// `L1=39/2 C1 !C2`, in any order, with spaces or commas between.
    pub fn read(text: &str) -> Result<Given, String> {
        let mut given = Given::default();
        for word in text.split([' ', ',']).filter(|word| !word.is_empty()) {
            given.take(word)?;
        }
        Ok(given)
    }

    fn take(&mut self, word: &str) -> Result<(), String> {
        if let Some((level, number)) = word.split_once('=') {
            let place = level_named(level).ok_or(format!("'{level}' is no level: L1 to L{LEVELS}"))?;
            let number = Fraction::read(number).ok_or(format!("'{number}' is no number: write 12, -3/4 or 19.5"))?;
            return put(&mut self.levels[place], number, level);
        }
        let (name, holds) = match word.strip_prefix('!') {
            Some(name) => (name, false),
            None => (word, true),
        };
        let place = numbered(name, 'C', CONDITIONS)
            .ok_or(format!("'{word}' is neither a level (L1=39/2) nor a condition (C1, or !C1 for no)"))?;
        put(&mut self.conditions[place], holds, name)
    }

    /// Levels that are not named are 0, conditions that are not named do not hold.
    pub fn state(&self) -> Result<State, String> {
        let mask = (0..CONDITIONS).filter(|&i| self.conditions[i] == Some(true)).map(|i| 1 << i).sum();
        let levels = std::array::from_fn(|i| self.levels[i].clone().unwrap_or(Fraction::from(0)));
        State::at(mask, &levels).ok_or("over a common denominator the levels do not fit 32 bits".to_string())
    }
}

fn put<T>(slot: &mut Option<T>, what: T, name: &str) -> Result<(), String> {
    match slot.replace(what) {
        None => Ok(()),
        Some(_) => Err(format!("{name} is given twice")),
    }
}

impl State {
    /// Over the least common denominator, if all fit.
    pub fn at(mask: u32, levels: &[Fraction; LEVELS]) -> Option<State> {
        let mut common = Whole::from(1u128);
        for level in levels {
            let shared = common.common_divisor(level.denominator());
            common = &common * &level.denominator().divided(&shared).0;
        }
        let scale = Fraction::new(common.clone(), Whole::from(1u128));
        let mut numerators = [0; LEVELS];
        for (numerator, level) in numerators.iter_mut().zip(levels) {
            *numerator = (level * &scale).numerator().to_i32()?;
        }
        Some(State { mask, numerators, denominator: common.to_i32()? })
    }

    /// Both over one denominator, the least that does, if all fit.
    pub fn together(&self, other: &State) -> Option<(State, State)> {
        let (d, e) = (i64::from(self.denominator), i64::from(other.denominator));
        let shared = (1..=d.min(e)).rev().find(|shared| d % shared == 0 && e % shared == 0)?;
        Some((self.times(e / shared)?, other.times(d / shared)?))
    }

    /// The same levels with numerators and denominator so many times as large.
    fn times(&self, factor: i64) -> Option<State> {
        let scaled = |number: i32| i32::try_from(i64::from(number).checked_mul(factor)?).ok();
        let mut state = State { denominator: scaled(self.denominator)?, ..self.clone() };
        for numerator in &mut state.numerators {
            *numerator = scaled(*numerator)?;
        }
        Some(state)
    }

    /// MASK L1 .. D; levels that have no word are 0.
    pub fn read(words: &[String]) -> Result<State, String> {
        let number = |word: &String| word.parse::<i32>().map_err(|_| format!("'{word}' is no whole number of 32 bits"));
        let mask = words[0].parse().map_err(|_| format!("the mask '{}' is no whole number of 32 bits", words[0]))?;
        let (levels, last) = (&words[1..words.len() - 1], &words[words.len() - 1]);
        let mut numerators = [0; LEVELS];
        for (numerator, word) in numerators.iter_mut().zip(levels) {
            *numerator = number(word)?;
        }
        Ok(State { mask, numerators, denominator: number(last)? })
    }

    /// In the words of `--at`, for a site with so many levels and conditions.
    pub fn words(&self, levels: usize, conditions: usize) -> String {
        let level = |i: usize| {
            let (numerator, denominator) = (i64::from(self.numerators[i]), i64::from(self.denominator));
            format!("L{} = {}", i + 1, Fraction::new(Whole::from(numerator), Whole::from(denominator)))
        };
        let condition = |i: usize| format!("C{} {}", i + 1, if self.mask >> i & 1 == 1 { "yes" } else { "no" });
        let words: Vec<String> = (0..levels).map(level).chain((0..conditions).map(condition)).collect();
        words.join(", ")
    }
}

#[cfg(test)]
mod tests {
    use super::*;

    #[test]
    fn words_of_a_state() {
        let state = Given::read("L1=39/2, !C2 C1 L2=-0.25").unwrap().state().unwrap();
        assert_eq!((state.mask, &state.numerators[..2], state.denominator), (1, &[78, -1][..], 4));
        assert_eq!(state.words(2, 2), "L1 = 39/2, L2 = -1/4, C1 yes, C2 no");
        for text in ["L1", "L99=1", "L01=1", "C9", "L1=x", "L1=1 L1=2", "C1 !C1", "L1=1/0", "x"] {
            assert!(Given::read(text).is_err(), "{text}");
        }
        let read = |text: &str| State::read(&text.split(' ').map(str::to_string).collect::<Vec<_>>());
        assert_eq!(read("1 78 -1 4"), Ok(state.clone()));
        assert_eq!(read("1 78 -1 0 0 0 0 0 0 4"), Ok(state));
        assert_eq!(read("0 1 2 3 4 5 6 7 8 9").map(|state| (state.numerators[7], state.denominator)), Ok((8, 9)));
        assert!(Given::read("L8=1 L7=-1/2").is_ok() && Given::read("L9=1").is_err());
        let (half, third) = (read("0 1 2").unwrap(), read("0 1 3").unwrap());
        let (one, two) = half.together(&third).unwrap();
        assert_eq!((one.numerators[0], two.numerators[0], one.denominator, two.denominator), (3, 2, 6, 6));
        assert_eq!(read("0 1 65536").unwrap().together(&read("0 1 65535").unwrap()), None);
        assert!(Given::read("L1=3000000000").unwrap().state().is_err());
        assert!(Given::read("L1=1/65537 L2=1/65539").unwrap().state().is_err());
    }
}
