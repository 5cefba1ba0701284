//! Whole numbers of any length, from 0 up: the squares that decide a floor over a root are
//! longer than 128 bits, and the sums of the authalic sine have some 1,500.

use std::cmp::Ordering;

/// A whole number in base 2^64, least digit first, with no zero at the far end.
#[derive(Clone, Debug, PartialEq, Eq)]
pub struct Whole(Vec<u64>);

impl Whole {
    pub fn new(value: u128) -> Whole {
        Whole::trimmed(vec![value as u64, (value >> 64) as u64])
    }

    /// The value, where it has 128 bits or fewer.
    pub fn value(&self) -> Option<u128> {
        let add = |value: u128, digit: &u64| value << 64 | u128::from(*digit);
        (self.0.len() <= 2).then(|| self.0.iter().rev().fold(0, add))
    }

    fn trimmed(mut digits: Vec<u64>) -> Whole {
        while digits.last() == Some(&0) {
            digits.pop();
        }
        Whole(digits)
    }

    /// The product, as by hand: each digit with each digit.
    pub fn times(&self, other: &Whole) -> Whole {
        let mut digits = vec![0; self.0.len() + other.0.len()];
        for (place, &a) in self.0.iter().enumerate() {
            let mut carry = 0;
            for (step, &b) in other.0.iter().enumerate() {
                // at most (2^64 - 1)^2 + 2 (2^64 - 1) = 2^128 - 1
                let sum = u128::from(a) * u128::from(b) + u128::from(digits[place + step]) + carry;
                digits[place + step] = sum as u64;
                carry = sum >> 64;
            }
            digits[place + other.0.len()] = carry as u64;
        }
        Whole::trimmed(digits)
    }

    pub fn squared(&self) -> Whole {
        self.times(self)
    }

    pub fn plus(&self, other: &Whole) -> Whole {
        let digit = |number: &Whole, place: usize| number.0.get(place).copied().unwrap_or(0);
        let mut digits = Vec::new();
        let mut carry = 0;
        for place in 0..=self.0.len().max(other.0.len()) {
            let sum = u128::from(digit(self, place)) + u128::from(digit(other, place)) + carry;
            digits.push(sum as u64);
            carry = sum >> 64;
        }
        Whole::trimmed(digits)
    }

    /// The difference from a number that is not greater.
    pub fn minus(&self, other: &Whole) -> Whole {
        assert!(*self >= *other, "a difference below 0");
        let mut digits = Vec::new();
        let mut borrow = 0;
        for (place, &a) in self.0.iter().enumerate() {
            let b = i128::from(other.0.get(place).copied().unwrap_or(0));
            let difference = i128::from(a) - b - borrow;
            borrow = i128::from(difference < 0);
            digits.push((difference + (borrow << 64)) as u64);
        }
        Whole::trimmed(digits)
    }

    /// Twice the number, and one more where asked.
    fn double(&mut self, one_more: bool) {
        let mut carry = u64::from(one_more);
        for digit in &mut self.0 {
            let out = *digit >> 63;
            *digit = *digit << 1 | carry;
            carry = out;
        }
        if carry > 0 {
            self.0.push(carry);
        }
    }

    /// The quotient and the remainder by a number above 0, bit by bit.
    pub fn divided_by(&self, divisor: &Whole) -> (Whole, Whole) {
        assert!(!divisor.0.is_empty(), "a division by 0");
        let (mut quotient, mut rest) = (Whole::new(0), Whole::new(0));
        for bit in (0..self.0.len() * 64).rev() {
            rest.double(self.0[bit / 64] >> (bit % 64) & 1 == 1);
            let goes = rest >= *divisor;
            if goes {
                rest = rest.minus(divisor);
            }
            quotient.double(goes);
        }
        (quotient, rest)
    }
}

impl Ord for Whole {
    fn cmp(&self, other: &Whole) -> Ordering {
        let by_length = self.0.len().cmp(&other.0.len());
        by_length.then_with(|| self.0.iter().rev().cmp(other.0.iter().rev()))
    }
}

impl PartialOrd for Whole {
    fn partial_cmp(&self, other: &Whole) -> Option<Ordering> {
        Some(self.cmp(other))
    }
}
