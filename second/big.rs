//! Positive whole numbers of any size.

use std::cmp::Ordering;

/// Digits to the base 2^32 from the lowest up. The last one is never 0.
#[derive(Clone, PartialEq, Eq)]
pub struct Big {
    digits: Vec<u32>,
}

impl Big {
    pub fn one() -> Big {
        Big { digits: vec![1] }
    }

    pub fn times(&self, factor: u16) -> Big {
        let mut digits = Vec::new();
        let mut carry = 0;
        for &digit in &self.digits {
            let sum = u64::from(digit) * u64::from(factor) + carry;
            digits.push(sum as u32);
            carry = sum >> 32;
        }
        digits.push(carry as u32);
        Big::without_zeros(digits)
    }

    /// This number divided by one of its divisors, if that is at most `most`.
    pub fn divided(&self, divisor: &Big, most: u16) -> Option<u16> {
        (1..=most).find(|&times| divisor.times(times) == *self)
    }

    /// This number less a smaller one.
    fn minus(&self, smaller: &Big) -> Big {
        let mut digits = Vec::new();
        let mut borrowed = 0;
        for (place, &digit) in self.digits.iter().enumerate() {
            let taken = i64::from(smaller.digits.get(place).copied().unwrap_or(0)) + borrowed;
            let rest = i64::from(digit) - taken;
            digits.push(rest as u32);
            borrowed = i64::from(rest < 0);
        }
        Big::without_zeros(digits)
    }

    fn is_even(&self) -> bool {
        self.digits[0] % 2 == 0
    }

    /// Half of an even number.
    fn half(&self) -> Big {
        let above = self.digits.iter().skip(1).chain(&[0]);
        let digits = self.digits.iter().zip(above).map(|(digit, above)| digit >> 1 | above << 31);
        Big::without_zeros(digits.collect())
    }

    fn without_zeros(mut digits: Vec<u32>) -> Big {
        while digits.last() == Some(&0) {
            digits.pop();
        }
        Big { digits }
    }
}

impl Ord for Big {
    fn cmp(&self, other: &Big) -> Ordering {
        let lengths = self.digits.len().cmp(&other.digits.len());
        lengths.then_with(|| self.digits.iter().rev().cmp(other.digits.iter().rev()))
    }
}

impl PartialOrd for Big {
    fn partial_cmp(&self, other: &Big) -> Option<Ordering> {
        Some(self.cmp(other))
    }
}

/// The greatest common divisor by halving and subtracting.
pub fn common_divisor(one: &Big, other: &Big) -> Big {
    let (mut one, mut other) = (one.clone(), other.clone());
    let mut twos = 0;
    while one != other {
        match (one.is_even(), other.is_even()) {
            (true, true) => {
                (one, other) = (one.half(), other.half());
                twos += 1;
            }
            (true, false) => one = one.half(),
            (false, true) => other = other.half(),
            (false, false) if one > other => one = one.minus(&other),
            (false, false) => other = other.minus(&one),
        }
    }
    (0..twos).fold(one, |divisor, _| divisor.times(2))
}
