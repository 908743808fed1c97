//! Whole numbers of any size: sign and size, the size in 32-bit digits, lowest first.

use std::cmp::Ordering;
use std::fmt;
use std::ops::{Add, Mul, Neg, Sub};

#[derive(Clone, Debug, PartialEq, Eq, Hash)]
pub struct Whole {
    negative: bool,
    /// Without zeros at the high end; zero has none, and is not negative.
    digits: Vec<u32>,
}

impl Whole {
    fn of(negative: bool, mut digits: Vec<u32>) -> Whole {
        while digits.last() == Some(&0) {
            digits.pop();
        }
        Whole { negative: negative && !digits.is_empty(), digits }
    }

    pub fn is_zero(&self) -> bool {
        self.digits.is_empty()
    }

    pub fn is_negative(&self) -> bool {
        self.negative
    }

    pub fn size(&self) -> Whole {
        Whole::of(false, self.digits.clone())
    }

    fn small(&self) -> Option<u128> {
        let low_first = self.digits.iter().rev();
        (self.digits.len() <= 4).then(|| low_first.fold(0, |sum, &digit| sum << 32 | u128::from(digit)))
    }

    pub fn to_i32(&self) -> Option<i32> {
        let size = i128::try_from(self.small()?).ok()?;
        i32::try_from(if self.negative { -size } else { size }).ok()
    }

    pub fn to_f64(&self) -> f64 {
        let size = self.digits.iter().rev().fold(0.0, |sum, &digit| sum * 4294967296.0 + f64::from(digit));
        if self.negative {
            -size
        } else {
            size
        }
    }

    fn doubled_plus(&mut self, bit: u32) {
        let mut carry = bit;
        for digit in &mut self.digits {
            let high = *digit >> 31;
            *digit = *digit << 1 | carry;
            carry = high;
        }
        if carry != 0 {
            self.digits.push(carry);
        }
    }

    /// Quotient and remainder of the sizes, both zero or more. The divisor is not zero.
    pub fn divided(&self, divisor: &Whole) -> (Whole, Whole) {
        if let (Some(a), Some(b)) = (self.small(), divisor.small()) {
            return (Whole::from(a / b), Whole::from(a % b));
        }
        let divisor = divisor.size();
        let mut quotient = vec![0; self.digits.len()];
        let mut rest = Whole::from(0u128);
        for place in (0..32 * self.digits.len()).rev() {
            rest.doubled_plus(self.digits[place / 32] >> (place % 32) & 1);
            if rest >= divisor {
                rest = &rest - &divisor;
                quotient[place / 32] |= 1 << (place % 32);
            }
        }
        (Whole::of(false, quotient), rest)
    }

    /// The greatest common divisor, zero or more.
    pub fn common_divisor(&self, other: &Whole) -> Whole {
        if let (Some(mut a), Some(mut b)) = (self.small(), other.small()) {
            while b != 0 {
                (a, b) = (b, a % b);
            }
            return Whole::from(a);
        }
        let (mut a, mut b) = (self.size(), other.size());
        while !b.is_zero() {
            (a, b) = (b.clone(), a.divided(&b).1);
        }
        a
    }
}

impl From<u128> for Whole {
    fn from(size: u128) -> Whole {
        Whole::of(false, (0..4).map(|i| (size >> (32 * i)) as u32).collect())
    }
}

impl From<i128> for Whole {
    fn from(number: i128) -> Whole {
        Whole { negative: number < 0, ..Whole::from(number.unsigned_abs()) }
    }
}

impl From<i64> for Whole {
    fn from(number: i64) -> Whole {
        Whole::from(i128::from(number))
    }
}

fn sizes(a: &[u32], b: &[u32]) -> Ordering {
    a.len().cmp(&b.len()).then_with(|| a.iter().rev().cmp(b.iter().rev()))
}

fn added(a: &[u32], b: &[u32]) -> Vec<u32> {
    let mut carry = 0;
    let at = |digits: &[u32], i: usize| u64::from(digits.get(i).copied().unwrap_or(0));
    let sum = (0..=a.len().max(b.len())).map(|i| {
        let sum = at(a, i) + at(b, i) + carry;
        carry = sum >> 32;
        sum as u32
    });
    sum.collect()
}

/// `a` less `b`, where `b` is not larger.
fn taken(a: &[u32], b: &[u32]) -> Vec<u32> {
    let mut borrow = 0;
    let less = a.iter().enumerate().map(|(i, &digit)| {
        let less = i64::from(digit) - i64::from(b.get(i).copied().unwrap_or(0)) - borrow;
        borrow = i64::from(less < 0);
        less as u32
    });
    less.collect()
}

impl Neg for &Whole {
    type Output = Whole;
    fn neg(self) -> Whole {
        Whole::of(!self.negative, self.digits.clone())
    }
}

impl Add for &Whole {
    type Output = Whole;
    fn add(self, other: &Whole) -> Whole {
        if self.negative == other.negative {
            return Whole::of(self.negative, added(&self.digits, &other.digits));
        }
        match sizes(&self.digits, &other.digits) {
            Ordering::Less => Whole::of(other.negative, taken(&other.digits, &self.digits)),
            _ => Whole::of(self.negative, taken(&self.digits, &other.digits)),
        }
    }
}

impl Sub for &Whole {
    type Output = Whole;
    fn sub(self, other: &Whole) -> Whole {
        self + &-other
    }
}

impl Mul for &Whole {
    type Output = Whole;
    fn mul(self, other: &Whole) -> Whole {
        let mut digits = vec![0u32; self.digits.len() + other.digits.len()];
        for (i, &a) in self.digits.iter().enumerate() {
            let mut carry = 0;
            for (j, &b) in other.digits.iter().enumerate() {
                let sum = u64::from(a) * u64::from(b) + u64::from(digits[i + j]) + carry;
                digits[i + j] = sum as u32;
                carry = sum >> 32;
            }
            digits[i + other.digits.len()] = carry as u32;
        }
        Whole::of(self.negative != other.negative, digits)
    }
}

impl PartialOrd for Whole {
    fn partial_cmp(&self, other: &Whole) -> Option<Ordering> {
        Some(self.cmp(other))
    }
}

impl Ord for Whole {
    fn cmp(&self, other: &Whole) -> Ordering {
        match (self.negative, other.negative) {
            (false, false) => sizes(&self.digits, &other.digits),
            (true, true) => sizes(&other.digits, &self.digits),
            (true, false) => Ordering::Less,
            (false, true) => Ordering::Greater,
        }
    }
}

impl fmt::Display for Whole {
    fn fmt(&self, f: &mut fmt::Formatter) -> fmt::Result {
        let (billion, mut rest, mut parts) = (Whole::from(1_000_000_000u128), self.size(), Vec::new());
        while !rest.is_zero() {
            let (quotient, part) = rest.divided(&billion);
            parts.push(part.small().unwrap_or(0));
            rest = quotient;
        }
        let first = parts.pop().unwrap_or(0);
        let rest: String = parts.iter().rev().map(|part| format!("{part:09}")).collect();
        f.pad_integral(!self.negative, "", &format!("{first}{rest}"))
    }
}

#[cfg(test)]
mod tests {
    use super::*;

    #[test]
    fn as_native_numbers() {
        let samples = [0i128, 1, -1, 7, -10, 1 << 31, -(1 << 32), (1 << 62) - 1, -(1 << 40) - 12345];
        for a in samples {
            for b in samples {
                let (x, y) = (Whole::from(a), Whole::from(b));
                assert_eq!(&x + &y, Whole::from(a + b));
                assert_eq!(&x - &y, Whole::from(a - b));
                assert_eq!(&x * &y, Whole::from(a * b));
                assert_eq!(x.cmp(&y), a.cmp(&b));
                assert_eq!(x.to_string(), a.to_string());
            }
        }
    }

    #[test]
    fn beyond_native_numbers() {
        let a = Whole::from(i128::MAX);
        let square = &a * &a;
        assert_eq!(square.to_string(), "28948022309329048855892746252171976962977213799489202546401021394546514198529");
        assert_eq!(square.divided(&a), (a.clone(), Whole::from(0u128)));
        assert_eq!((&square + &Whole::from(5u128)).divided(&a), (a.clone(), Whole::from(5u128)));
        assert_eq!(square.common_divisor(&(&a * &Whole::from(6u128))), a);
    }
}
