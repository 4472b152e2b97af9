//! Natural numbers of any size: sums, products with a small number, and comparison. Nothing else is needed.

use std::cmp::Ordering;

/// A natural number in 32-bit digits, the lowest first, with no zero digit at the high end.
#[derive(Clone, Debug, Default, PartialEq, Eq, Hash)]
pub struct Big {
    digits: Vec<u32>,
}

impl From<u64> for Big {
    fn from(number: u64) -> Big {
        Big { digits: vec![number as u32, (number >> 32) as u32] }.trimmed()
    }
}

impl Big {
    pub fn is_zero(&self) -> bool {
        self.digits.is_empty()
    }

    fn trimmed(mut self) -> Big {
        while self.digits.last() == Some(&0) {
            self.digits.pop();
        }
        self
    }

    /// Adds another number to this one.
    pub fn add(&mut self, other: &Big) {
        if self.digits.len() < other.digits.len() {
            self.digits.resize(other.digits.len(), 0);
        }
        let mut carry = 0u64;
        for (index, digit) in self.digits.iter_mut().enumerate() {
            let sum = *digit as u64 + other.digits.get(index).copied().unwrap_or(0) as u64 + carry;
            *digit = sum as u32;
            carry = sum >> 32;
        }
        if carry > 0 {
            self.digits.push(carry as u32);
        }
    }

    /// This number times a small one.
    pub fn times(&self, factor: u32) -> Big {
        let mut digits = Vec::with_capacity(self.digits.len() + 1);
        let mut carry = 0u64;
        for digit in &self.digits {
            let product = *digit as u64 * factor as u64 + carry;
            digits.push(product as u32);
            carry = product >> 32;
        }
        digits.push(carry as u32);
        Big { digits }.trimmed()
    }

    /// The number itself where it is at most the limit, and the limit plus one where it is more.
    pub fn capped(&self, limit: u32) -> u32 {
        match self.digits.as_slice() {
            [] => 0,
            [digit] if *digit <= limit => *digit,
            _ => limit + 1,
        }
    }
}

impl PartialOrd for Big {
    fn partial_cmp(&self, other: &Big) -> Option<Ordering> {
        Some(self.cmp(other))
    }
}

impl Ord for Big {
    fn cmp(&self, other: &Big) -> Ordering {
        let by_length = self.digits.len().cmp(&other.digits.len());
        by_length.then_with(|| self.digits.iter().rev().cmp(other.digits.iter().rev()))
    }
}

#[cfg(test)]
mod tests {
    use super::Big;

    /// 2 to the power n, by doubling.
    fn power(n: u32) -> Big {
        (0..n).fold(Big::from(1), |number, _| number.times(2))
    }

    #[test]
    fn sums_carry_over_several_digits() {
        let mut number = Big::from(u64::MAX);
        number.add(&Big::from(1));
        assert_eq!(number, power(64));
        number.add(&power(64));
        assert_eq!(number, power(65));
        number.add(&Big::default());
        assert_eq!(number, power(65));
    }

    #[test]
    fn products_carry_and_zero_has_no_digits() {
        assert_eq!(Big::from(u64::MAX).times(0), Big::default());
        assert!(Big::from(0).is_zero());
        let mut sum = power(96).times(u32::MAX);
        sum.add(&power(96));
        assert_eq!(sum, power(128));
    }

    #[test]
    fn comparison_goes_by_length_and_then_from_the_high_end() {
        assert!(power(64) > Big::from(u64::MAX));
        assert!(Big::from(7 << 32) > Big::from((6 << 32) + 9));
        assert!(Big::from(5) < Big::from(6));
        assert_eq!(Big::from(6).cmp(&Big::from(6)), std::cmp::Ordering::Equal);
    }

    #[test]
    fn capping_is_exact_to_the_limit() {
        assert_eq!(Big::from(1_000_000).capped(1_000_000), 1_000_000);
        assert_eq!(Big::from(1_000_001).capped(1_000_000), 1_000_001);
        assert_eq!(power(70).capped(1_000_000), 1_000_001);
        assert_eq!(Big::from(0).capped(1_000_000), 0);
    }
}
