//! Exact values as fractions of natural numbers of any size, and the distance of an amount from the exact one.

use crate::products::{yield_at, Product, Terms};
use std::cmp::Ordering;

/// A natural number of any size: digits in base 2^32, the lowest first, with no zero at the end.
#[derive(Clone, Debug, PartialEq, Eq)]
pub struct Natural(Vec<u32>);

impl From<u64> for Natural {
    fn from(n: u64) -> Natural {
        Natural(vec![n as u32, (n >> 32) as u32]).trimmed()
    }
}

impl Natural {
    fn trimmed(mut self) -> Natural {
        while self.0.last() == Some(&0) {
            self.0.pop();
        }
        self
    }

    pub fn plus(&self, other: &Natural) -> Natural {
        let digit = |n: &Natural, i: usize| u64::from(n.0.get(i).copied().unwrap_or(0));
        let mut digits = Vec::new();
        let mut carry = 0;
        for i in 0..self.0.len().max(other.0.len()) + 1 {
            let sum = digit(self, i) + digit(other, i) + carry;
            digits.push(sum as u32);
            carry = sum >> 32;
        }
        Natural(digits).trimmed()
    }

    pub fn times(&self, other: &Natural) -> Natural {
        let mut digits = vec![0u32; self.0.len() + other.0.len()];
        for (i, &a) in self.0.iter().enumerate() {
            let mut carry = 0;
            for (j, &b) in other.0.iter().enumerate() {
                let sum = u64::from(a) * u64::from(b) + u64::from(digits[i + j]) + carry;
                digits[i + j] = sum as u32;
                carry = sum >> 32;
            }
            digits[i + other.0.len()] = carry as u32;
        }
        Natural(digits).trimmed()
    }

    pub fn times_number(&self, n: u64) -> Natural {
        self.times(&Natural::from(n))
    }
}

impl PartialOrd for Natural {
    fn partial_cmp(&self, other: &Natural) -> Option<Ordering> {
        Some(self.cmp(other))
    }
}

impl Ord for Natural {
    fn cmp(&self, other: &Natural) -> Ordering {
        let lengths = self.0.len().cmp(&other.0.len());
        lengths.then_with(|| self.0.iter().rev().cmp(other.0.iter().rev()))
    }
}

/// A fraction that is at least 0.
#[derive(Clone, Debug)]
pub struct Fraction {
    pub numerator: Natural,
    pub denominator: Natural,
}

/// The exact bracket times (2,000,000 + Y)^n, and that power, by Horner's rule: each step multiplies by 2,000,000 + Y and adds
/// the next power of 2,000,000.
fn exact_bracket(coupon: u64, halves: u32, price: u32) -> Fraction {
    let q = 2_000_000 + yield_at(price);
    let mut power = Natural::from(1);
    let mut sum = Natural::from(0);
    let mut denominator = Natural::from(1);
    for _ in 0..halves {
        power = power.times_number(2_000_000);
        sum = sum.times_number(q).plus(&power);
        denominator = denominator.times_number(q);
    }
    Fraction { numerator: sum.times_number(coupon).plus(&power.times_number(100)), denominator }
}

/// The formula of the value in cents, without any rounding.
pub fn exact_value(product: &Product, price: u32) -> Fraction {
    match product.terms {
        Terms::Bill => Fraction {
            numerator: Natural::from(3_650_000_000_000_000),
            denominator: Natural::from(36_500_000 + 9 * yield_at(price)),
        },
        Terms::CashRate { cents } => {
            Fraction { numerator: Natural::from(cents * u64::from(price)), denominator: Natural::from(100) }
        }
        Terms::Bond { face, coupon, halves } => {
            let bracket = exact_bracket(coupon, halves, price);
            Fraction { numerator: bracket.numerator.times_number(face), denominator: bracket.denominator }
        }
    }
}

/// Whether 1,000 times the amount differs from 1,000 times lots times (exact value at the final price - exact value at the
/// previous price) by at most the product's accuracy figure times the lots without their sign.
///
/// Everything is multiplied by both denominators. What is added on either side of the difference is collected by its sign, so
/// that natural numbers are enough.
pub fn is_near(product: &Product, previous: u32, last: u32, lots: i64, amount: i64) -> bool {
    let before = exact_value(product, previous);
    let after = exact_value(product, last);
    let both = before.denominator.times(&after.denominator);
    let size = lots.unsigned_abs();
    let amount_part = both.times_number(amount.unsigned_abs()).times_number(1_000);
    let after_part = after.numerator.times(&before.denominator).times_number(size).times_number(1_000);
    let before_part = before.numerator.times(&after.denominator).times_number(size).times_number(1_000);
    let (mut above, mut below) = if lots > 0 { (before_part, after_part) } else { (after_part, before_part) };
    if amount > 0 {
        above = above.plus(&amount_part);
    } else {
        below = below.plus(&amount_part);
    }
    let allowed = both.times_number(product.accuracy).times_number(size);
    above <= below.plus(&allowed) && below <= above.plus(&allowed)
}
