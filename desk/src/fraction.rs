//! Exact fractions, reduced, with a denominator above zero.

use crate::whole::Whole;
use std::cmp::Ordering;
use std::fmt;
use std::ops::{Add, Div, Mul, Neg, Sub};

#[derive(Clone, Debug, PartialEq, Eq, Hash)]
pub struct Fraction {
    numerator: Whole,
    denominator: Whole,
}

impl Fraction {
    /// The denominator is not zero.
    pub fn new(numerator: Whole, denominator: Whole) -> Fraction {
        let divisor = numerator.common_divisor(&denominator);
        let negative = numerator.is_negative() != denominator.is_negative();
        let size = numerator.divided(&divisor).0;
        Fraction { numerator: if negative { -&size } else { size }, denominator: denominator.divided(&divisor).0 }
    }

    pub fn numerator(&self) -> &Whole {
        &self.numerator
    }

    pub fn denominator(&self) -> &Whole {
        &self.denominator
    }

    pub fn is_zero(&self) -> bool {
        self.numerator.is_zero()
    }

    pub fn is_negative(&self) -> bool {
        self.numerator.is_negative()
    }

    pub fn to_f64(&self) -> f64 {
        // Both parts are brought to a size that a float holds.
        let (whole, rest) = self.numerator.divided(&self.denominator);
        let size = whole.to_f64() + rest.to_f64() / self.denominator.to_f64();
        if self.is_negative() {
            -size
        } else {
            size
        }
    }

    /// The largest whole number that is not above it.
    pub fn floor(&self) -> Whole {
        let (size, rest) = self.numerator.divided(&self.denominator);
        match (self.is_negative(), rest.is_zero()) {
            (false, _) => size,
            (true, true) => -&size,
            (true, false) => &-&size - &Whole::from(1u128),
        }
    }

    /// A number as one writes it: 12, -3/4, 19.5.
    pub fn read(text: &str) -> Option<Fraction> {
        let (sign, size) = match text.strip_prefix('-') {
            Some(size) => (-1, size),
            None => (1, text),
        };
        let digits = |part: &str| {
            let good = (1..=18).contains(&part.len()) && part.bytes().all(|byte| byte.is_ascii_digit());
            good.then(|| part.parse::<i128>().ok()).flatten()
        };
        let (numerator, denominator) = if let Some((above, below)) = size.split_once('/') {
            (digits(above)?, digits(below)?)
        } else if let Some((whole, part)) = size.split_once('.') {
            let scale = 10i128.checked_pow(part.len() as u32)?;
            (digits(whole)? * scale + digits(part)?, scale)
        } else {
            (digits(size)?, 1)
        };
        (denominator != 0).then(|| Fraction::new(Whole::from(sign * numerator), Whole::from(denominator)))
    }

    /// As a decimal with at most so many places, cut toward zero; two dots behind it where it goes on.
    pub fn decimal(&self, places: usize) -> String {
        let (whole, mut rest) = self.numerator.divided(&self.denominator);
        let mut text = format!("{}{whole}", if self.is_negative() { "-" } else { "" });
        if !rest.is_zero() {
            text.push('.');
        }
        for _ in 0..places {
            if rest.is_zero() {
                return text;
            }
            let (digit, after) = (&rest * &Whole::from(10u128)).divided(&self.denominator);
            text.push_str(&digit.to_string());
            rest = after;
        }
        if !rest.is_zero() {
            text.push_str("..");
        }
        text
    }
}

impl From<i64> for Fraction {
    fn from(number: i64) -> Fraction {
        Fraction { numerator: Whole::from(number), denominator: Whole::from(1u128) }
    }
}

impl Neg for &Fraction {
    type Output = Fraction;
    fn neg(self) -> Fraction {
        Fraction { numerator: -&self.numerator, denominator: self.denominator.clone() }
    }
}

impl Add for &Fraction {
    type Output = Fraction;
    fn add(self, other: &Fraction) -> Fraction {
        let sum = &(&self.numerator * &other.denominator) + &(&other.numerator * &self.denominator);
        Fraction::new(sum, &self.denominator * &other.denominator)
    }
}

impl Sub for &Fraction {
    type Output = Fraction;
    fn sub(self, other: &Fraction) -> Fraction {
        self + &-other
    }
}

impl Mul for &Fraction {
    type Output = Fraction;
    fn mul(self, other: &Fraction) -> Fraction {
        Fraction::new(&self.numerator * &other.numerator, &self.denominator * &other.denominator)
    }
}

impl Div for &Fraction {
    type Output = Fraction;
    fn div(self, other: &Fraction) -> Fraction {
        Fraction::new(&self.numerator * &other.denominator, &self.denominator * &other.numerator)
    }
}

impl PartialOrd for Fraction {
    fn partial_cmp(&self, other: &Fraction) -> Option<Ordering> {
        Some(self.cmp(other))
    }
}

impl Ord for Fraction {
    fn cmp(&self, other: &Fraction) -> Ordering {
        (&self.numerator * &other.denominator).cmp(&(&other.numerator * &self.denominator))
    }
}

impl fmt::Display for Fraction {
    fn fmt(&self, f: &mut fmt::Formatter) -> fmt::Result {
        if self.denominator == Whole::from(1u128) {
            return write!(f, "{}", self.numerator);
        }
        write!(f, "{}/{}", self.numerator, self.denominator)
    }
}

#[cfg(test)]
mod tests {
    use super::*;

    fn read(text: &str) -> Fraction {
        Fraction::read(text).unwrap()
    }

    #[test]
    fn written_and_read() {
        for (text, written) in
            [("39/2", "39/2"), ("19.5", "39/2"), ("-6/4", "-3/2"), ("-0.125", "-1/8"), ("20/2", "10")]
        {
            assert_eq!(read(text).to_string(), written);
        }
        for text in ["", "-", "1/", "/2", "1/0", "1.", ".5", "1e3", "+1", "1/-2", "--1", "0x1"] {
            assert_eq!(Fraction::read(text), None, "{text}");
        }
    }

    #[test]
    fn decimals() {
        for (text, decimal) in
            [("39/2", "19.5"), ("1/3", "0.333333.."), ("-7/2", "-3.5"), ("-1/8", "-0.125"), ("4", "4")]
        {
            assert_eq!(read(text).decimal(6), decimal);
        }
    }

    #[test]
    fn worked() {
        assert_eq!(&read("1/6") + &read("1/3"), read("1/2"));
        assert_eq!(&read("1/6") - &read("1/3"), read("-1/6"));
        assert_eq!(&read("2/3") * &read("-3/4"), read("-1/2"));
        assert_eq!(&read("2/3") / &read("-4/9"), read("-3/2"));
        assert!(read("-1/2") < read("-1/3") && read("1/3") < read("1/2"));
        assert_eq!(read("-1/2").floor(), Whole::from(-1i128));
        assert_eq!(read("-2").floor(), Whole::from(-2i128));
        assert_eq!(read("-7/2").to_f64(), -3.5);
    }
}
