//! Natural numbers of any size, as little as the rule of the table H needs: powers and comparison.

use std::cmp::Ordering;

/// A natural number in digits of 64 bits, lowest first, the highest not 0.
#[derive(Clone, Debug, PartialEq, Eq)]
pub struct Natural(Vec<u64>);

impl Natural {
    pub fn from(value: u64) -> Self {
        Self(vec![value]).trimmed()
    }

    pub fn power_of_two(exponent: usize) -> Self {
        let mut digits = vec![0; exponent / 64];
        digits.push(1 << (exponent % 64));
        Self(digits)
    }

    /// The number to the power 256, by eight squarings.
    pub fn to_the_256th(&self) -> Self {
        (0..8).fold(self.clone(), |power, _| power.times(&power))
    }

    pub fn times(&self, other: &Self) -> Self {
        let mut digits = vec![0; self.0.len() + other.0.len()];
        for (i, &a) in self.0.iter().enumerate() {
            let mut carry = 0;
            for (digit, &b) in digits[i..].iter_mut().zip(&other.0) {
                let sum = u128::from(a) * u128::from(b) + u128::from(*digit) + carry;
                *digit = sum as u64;
                carry = sum >> 64;
            }
            digits[i + other.0.len()] = carry as u64;
        }
        Self(digits).trimmed()
    }

    fn trimmed(mut self) -> Self {
        while self.0.last() == Some(&0) {
            self.0.pop();
        }
        self
    }
}

impl Ord for Natural {
    fn cmp(&self, other: &Self) -> Ordering {
        let by_length = self.0.len().cmp(&other.0.len());
        by_length.then_with(|| self.0.iter().rev().cmp(other.0.iter().rev()))
    }
}

impl PartialOrd for Natural {
    fn partial_cmp(&self, other: &Self) -> Option<Ordering> {
        Some(self.cmp(other))
    }
}

#[cfg(test)]
mod tests {
    use super::*;

    #[test]
    fn powers_and_order() {
        let two = Natural::from(2);
        assert_eq!(two.to_the_256th(), Natural::power_of_two(256));
        let max = Natural::from(u64::MAX);
        let square = u128::from(u64::MAX) * u128::from(u64::MAX);
        assert_eq!(
            max.times(&max),
            Natural(vec![square as u64, (square >> 64) as u64])
        );
        assert!(Natural::from(0) < Natural::from(1));
        assert!(max < Natural::power_of_two(64));
        assert!(Natural::power_of_two(64) < Natural::power_of_two(65));
    }
}
