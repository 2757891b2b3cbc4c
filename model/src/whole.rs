//! Whole numbers of any size, as far as the curves need them: product, power, comparison.

use std::cmp::Ordering;

/// Digits to the base 2^32, lowest first, the highest not 0. No digit: 0.
#[derive(Clone, Debug, PartialEq, Eq)]
pub struct Whole(Vec<u32>);

impl Whole {
    pub fn new(x: u64) -> Whole {
        let mut digits = vec![x as u32, (x >> 32) as u32];
        while digits.last() == Some(&0) {
            digits.pop();
        }
        Whole(digits)
    }

    pub fn times(&self, other: &Whole) -> Whole {
        let mut digits = vec![0u32; self.0.len() + other.0.len()];
        for (i, a) in self.0.iter().enumerate() {
            let mut carry = 0u64;
            for (digit, b) in digits[i..].iter_mut().zip(other.0.iter().chain([&0])) {
                // At most (2^32 - 1)^2 + 2 (2^32 - 1) = 2^64 - 1.
                let sum = u64::from(*a) * u64::from(*b) + u64::from(*digit) + carry;
                *digit = sum as u32;
                carry = sum >> 32;
            }
        }
        while digits.last() == Some(&0) {
            digits.pop();
        }
        Whole(digits)
    }

    pub fn power(&self, exponent: u32) -> Whole {
        (0..exponent).fold(Whole::new(1), |product, _| product.times(self))
    }
}

impl Ord for Whole {
    fn cmp(&self, other: &Whole) -> Ordering {
        let by_length = self.0.len().cmp(&other.0.len());
        by_length.then_with(|| self.0.iter().rev().cmp(other.0.iter().rev()))
    }
}

impl PartialOrd for Whole {
    fn partial_cmp(&self, other: &Whole) -> Option<Ordering> {
        Some(self.cmp(other))
    }
}
