//! Whole numbers of any size, as far as the judge of the line sheet needs
//! them: nothing here rounds unless its name says so.

use std::cmp::Ordering;

/// Digits to the base 2^64, the lowest first; the last is not zero.
#[derive(Clone, Debug, PartialEq, Eq)]
pub struct Whole(Vec<u64>);

impl From<u64> for Whole {
    fn from(n: u64) -> Self {
        Self(vec![n]).trimmed()
    }
}

impl PartialOrd for Whole {
    fn partial_cmp(&self, other: &Self) -> Option<Ordering> {
        Some(self.cmp(other))
    }
}

impl Ord for Whole {
    fn cmp(&self, other: &Self) -> Ordering {
        let lengths = self.0.len().cmp(&other.0.len());
        lengths.then_with(|| self.0.iter().rev().cmp(other.0.iter().rev()))
    }
}

impl Whole {
    fn trimmed(mut self) -> Self {
        while self.0.last() == Some(&0) {
            self.0.pop();
        }
        self
    }

    pub fn is_zero(&self) -> bool {
        self.0.is_empty()
    }

    pub fn plus(&self, other: &Self) -> Self {
        let count = self.0.len().max(other.0.len()) + 1;
        let mut carry = 0;
        let digits = (0..count).map(|i| {
            let sum = u128::from(self.digit(i)) + u128::from(other.digit(i)) + carry;
            carry = sum >> 64;
            sum as u64
        });
        Self(digits.collect()).trimmed()
    }

    /// The difference, or `None` where it is below zero.
    pub fn less(&self, other: &Self) -> Option<Self> {
        if self < other {
            return None;
        }
        let mut borrowed = false;
        let digits = (0..self.0.len()).map(|i| {
            let (rest, under) = self.digit(i).overflowing_sub(other.digit(i));
            let (rest, again) = rest.overflowing_sub(u64::from(borrowed));
            borrowed = under || again;
            rest
        });
        Some(Self(digits.collect()).trimmed())
    }

    pub fn times(&self, other: &Self) -> Self {
        let mut digits = vec![0; self.0.len() + other.0.len()];
        for (i, &a) in self.0.iter().enumerate() {
            let mut carry = 0;
            for (j, &b) in other.0.iter().enumerate() {
                let sum = u128::from(digits[i + j]) + u128::from(a) * u128::from(b) + carry;
                digits[i + j] = sum as u64;
                carry = sum >> 64;
            }
            digits[i + other.0.len()] = carry as u64;
        }
        Self(digits).trimmed()
    }

    pub fn power(&self, exponent: u32) -> Self {
        (0..exponent).fold(Self::from(1), |product, _| product.times(self))
    }

    /// Times 2^`places`.
    pub fn doubled(&self, places: u32) -> Self {
        let mut digits = vec![0; places as usize / 64];
        digits.extend(&self.0);
        Self(digits).times(&Self::from(1 << (places % 64)))
    }

    /// Over 2^`places`, rounded down.
    pub fn halved(&self, places: u32) -> Self {
        let digits = self.0.iter().skip(places as usize / 64).copied().collect();
        Self(digits).over(1 << (places % 64))
    }

    /// Over a number that is not zero, rounded down.
    pub fn over(&self, divisor: u64) -> Self {
        let mut rest = 0;
        let mut digits = self.0.clone();
        for digit in digits.iter_mut().rev() {
            let part = rest << 64 | u128::from(*digit);
            *digit = (part / u128::from(divisor)) as u64;
            rest = part % u128::from(divisor);
        }
        Self(digits).trimmed()
    }

    fn digit(&self, i: usize) -> u64 {
        self.0.get(i).copied().unwrap_or(0)
    }
}
