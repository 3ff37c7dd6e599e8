//! Exact numbers.

use std::cmp::Ordering;
use std::fmt;

/// A whole number from 0 to 2^192 - 1, in three words, the greatest first.
#[derive(Clone, Copy, Debug, Default, PartialEq, Eq, PartialOrd, Ord, Hash)]
pub struct Whole(pub [u64; 3]);

impl Whole {
    /// The power of 36, at most the 36th.
    pub(crate) fn power_of_36(exponent: u32) -> Whole {
        let mut power = Whole([0, 0, 1]);
        for _ in 0..exponent {
            let mut carry = 0;
            for word in power.0.iter_mut().rev() {
                let product = u128::from(*word) * 36 + carry;
                *word = product as u64;
                carry = product >> 64;
            }
        }
        power
    }

    /// Divided by a small number, and what is left.
    fn divided(self, by: u64) -> (Whole, u64) {
        let (mut quotient, mut rest) = ([0; 3], 0);
        for (place, word) in self.0.iter().enumerate() {
            let part = u128::from(rest) << 64 | u128::from(*word);
            quotient[place] = (part / u128::from(by)) as u64;
            rest = (part % u128::from(by)) as u64;
        }
        (Whole(quotient), rest)
    }

    /// Whether it is 0.
    pub fn is_zero(self) -> bool {
        self == Whole::default()
    }

    /// How many binary digits it has.
    fn bits(self) -> u32 {
        let first = self.0.iter().position(|word| *word != 0).unwrap_or(2);
        64 * (3 - first as u32) - self.0[first].leading_zeros()
    }
}

/// The nearest double, and of two that are as near the even one.
impl From<Whole> for f64 {
    fn from(number: Whole) -> f64 {
        nearest(number, Whole([0, 0, 1]))
    }
}

/// The double that is nearest to a quotient, and of two that are as near the even one. What
/// divides is not 0.
fn nearest(above: Whole, below: Whole) -> f64 {
    const DIGITS: i32 = 53;
    if above.is_zero() {
        return 0.0;
    }
    // the quotient is rest / by times 2^exponent, and rest / by at least 1 and less than 2
    let mut exponent = above.bits() as i32 - below.bits() as i32;
    let mut rest = doubled(above, -exponent);
    let by = doubled(below, exponent);
    if rest < by {
        exponent -= 1;
        rest = twice(rest);
    }
    let mut digits: u64 = 0;
    for _ in 0..DIGITS {
        digits *= 2;
        if rest >= by {
            digits += 1;
            rest = difference(rest, by);
        }
        rest = twice(rest);
    }
    if rest > by || (rest == by && digits % 2 == 1) {
        digits += 1;
    }
    let last = (1023 + exponent - (DIGITS - 1)) as u64;
    digits as f64 * f64::from_bits(last << 52)
}

/// A number in four words, the greatest first, doubled so many times, none where they are below 0.
fn doubled(number: Whole, times: i32) -> [u64; 4] {
    let [first, middle, last] = number.0;
    (0..times).fold([0, first, middle, last], |told, _| twice(told))
}

fn twice(number: [u64; 4]) -> [u64; 4] {
    let [first, second, third, last] = number;
    [first << 1 | second >> 63, second << 1 | third >> 63, third << 1 | last >> 63, last << 1]
}

/// What is left of a number that is not less than the other one.
fn difference(from: [u64; 4], taken: [u64; 4]) -> [u64; 4] {
    let (mut left, mut borrowed) = ([0; 4], false);
    for place in (0..4).rev() {
        let (part, is_below) = from[place].overflowing_sub(taken[place]);
        let (part, is_again) = part.overflowing_sub(u64::from(borrowed));
        left[place] = part;
        borrowed = is_below || is_again;
    }
    left
}

impl fmt::Display for Whole {
    fn fmt(&self, formatter: &mut fmt::Formatter<'_>) -> fmt::Result {
        const PART: u64 = 10_000_000_000_000_000_000;
        let (mut parts, mut left) = (Vec::new(), *self);
        while !left.is_zero() {
            let (quotient, part) = left.divided(PART);
            parts.push(part);
            left = quotient;
        }
        let mut text = parts.pop().unwrap_or(0).to_string();
        for part in parts.iter().rev() {
            text += &format!("{:019}", part);
        }
        formatter.pad_integral(true, "", &text)
    }
}

/// An exact number from 0 on, in lowest terms: of rolls, of pips, or a chance. As a text it is
/// `5/4`, or `3` where it is whole; with a precision, as in `{:.3}`, it is the nearest double with
/// so many digits.
#[derive(Clone, Copy, Debug, PartialEq, Eq, Hash)]
pub struct Fraction {
    numerator: Whole,
    denominator: Whole,
}

impl Fraction {
    /// A fraction in lowest terms.
    pub(crate) fn in_lowest_terms(numerator: Whole, denominator: Whole) -> Fraction {
        Fraction { numerator, denominator }
    }

    /// A numerator over a power of 36, which has the prime factors 2 and 3 alone.
    pub(crate) fn over_power_of_36(numerator: Whole, whole: Whole) -> Fraction {
        if numerator.is_zero() {
            return Fraction::in_lowest_terms(numerator, Whole([0, 0, 1]));
        }
        let (mut above, mut below) = (numerator, whole);
        for factor in [2, 3] {
            while let ((upper, 0), (lower, 0)) = (above.divided(factor), below.divided(factor)) {
                above = upper;
                below = lower;
            }
        }
        Fraction::in_lowest_terms(above, below)
    }

    /// The numerator.
    pub fn numerator(&self) -> Whole {
        self.numerator
    }

    /// The denominator, which is not 0.
    pub fn denominator(&self) -> Whole {
        self.denominator
    }
}

/// The nearest double, and of two that are as near the even one.
impl From<Fraction> for f64 {
    fn from(fraction: Fraction) -> f64 {
        nearest(fraction.numerator, fraction.denominator)
    }
}

/// By their sizes, exactly.
impl Ord for Fraction {
    fn cmp(&self, other: &Fraction) -> Ordering {
        product(self.numerator, other.denominator).cmp(&product(other.numerator, self.denominator))
    }
}

impl PartialOrd for Fraction {
    fn partial_cmp(&self, other: &Fraction) -> Option<Ordering> {
        Some(self.cmp(other))
    }
}

/// The product of two numbers, in six words, the greatest first.
fn product(one: Whole, other: Whole) -> [u64; 6] {
    let mut words = [0; 6];
    for high in (0..3).rev() {
        let mut carry = 0;
        for low in (0..3).rev() {
            let place = high + low + 1;
            let sum = u128::from(one.0[high]) * u128::from(other.0[low])
                + u128::from(words[place])
                + carry;
            words[place] = sum as u64;
            carry = sum >> 64;
        }
        words[high] = carry as u64;
    }
    words
}

impl fmt::Display for Fraction {
    fn fmt(&self, formatter: &mut fmt::Formatter<'_>) -> fmt::Result {
        if formatter.precision().is_some() {
            return f64::from(*self).fmt(formatter);
        }
        if self.denominator == Whole([0, 0, 1]) {
            return self.numerator.fmt(formatter);
        }
        formatter.pad(&format!("{}/{}", self.numerator, self.denominator))
    }
}
