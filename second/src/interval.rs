//! For working out what document 02 says in "The weight from the paper":
//! numbers known to lie between two bounds. The bounds are whole numbers of
//! 2^-56ths and are rounded outwards, so that the number stays between them; no
//! floating-point arithmetic takes part.
//!
//! No factor met on the way is as large as 16, so that no product of two bounds
//! is as large as 2^120.

use std::ops::{Add, Mul, Neg, Sub};

/// The bounds of the number one.
const ONE: i128 = 1 << 56;

/// How many terms of a series are summed up. Those left out are far below one
/// 2^-56th: π^40/40! and 1/(41·5^41) are.
const TERMS: i128 = 20;

/// A number that is at least `low` and at most `high`.
#[derive(Clone, Copy, Debug)]
pub(crate) struct Interval {
    low: i128,
    high: i128,
}

impl Interval {
    const ZERO: Interval = Interval { low: 0, high: 0 };

    /// A whole number over a positive one.
    pub(crate) fn fraction(numerator: i128, denominator: i128) -> Interval {
        let whole = numerator * ONE;
        let whole = Interval {
            low: whole,
            high: whole,
        };
        whole.over(denominator)
    }

    /// The number over a positive whole number.
    pub(crate) fn over(self, divisor: i128) -> Interval {
        Interval {
            low: self.low.div_euclid(divisor),
            high: -(-self.high).div_euclid(divisor),
        }
    }

    /// The number times a positive whole number.
    pub(crate) fn times(self, factor: i128) -> Interval {
        Interval {
            low: self.low * factor,
            high: self.high * factor,
        }
    }

    /// A number that differs from this one by at most the size of another.
    pub(crate) fn give_or_take(self, other: Interval) -> Interval {
        let size = other.low.abs().max(other.high.abs());
        Interval {
            low: self.low - size,
            high: self.high + size,
        }
    }

    /// The nearest whole number, where that is sure: both bounds are less than
    /// a half away from it.
    pub(crate) fn nearest(self) -> Option<i128> {
        const HALF: i128 = ONE / 2;
        let nearest = (self.low + HALF).div_euclid(ONE);
        let is_sure = self.low > nearest * ONE - HALF && self.high < nearest * ONE + HALF;
        is_sure.then_some(nearest)
    }
}

impl Neg for Interval {
    type Output = Interval;

    fn neg(self) -> Interval {
        Interval {
            low: -self.high,
            high: -self.low,
        }
    }
}

impl Add for Interval {
    type Output = Interval;

    fn add(self, other: Interval) -> Interval {
        Interval {
            low: self.low + other.low,
            high: self.high + other.high,
        }
    }
}

impl Sub for Interval {
    type Output = Interval;

    fn sub(self, other: Interval) -> Interval {
        self + -other
    }
}

impl Mul for Interval {
    type Output = Interval;

    fn mul(self, other: Interval) -> Interval {
        let (a, b) = (self.low * other.low, self.low * other.high);
        let (c, d) = (self.high * other.low, self.high * other.high);
        let product = Interval {
            low: a.min(b).min(c).min(d),
            high: a.max(b).max(c).max(d),
        };
        // Each bound has the 2^56 of both factors.
        product.over(ONE)
    }
}

/// π = 16 arctan(1/5) − 4 arctan(1/239), which is Machin's formula.
pub(crate) fn pi() -> Interval {
    arctangent_of_one_over(5).times(16) - arctangent_of_one_over(239).times(4)
}

/// 1/k − 1/(3k³) + 1/(5k⁵) − …, for k above 1. The signs alternate and the
/// terms fall, so that what is left out is no larger than its first term.
fn arctangent_of_one_over(k: i128) -> Interval {
    let mut sum = Interval::ZERO;
    let mut power = Interval::fraction(1, k);
    for term in 0..TERMS {
        sum = sum + power.over(2 * term + 1);
        power = -power.over(k * k);
    }
    sum.give_or_take(power)
}

/// 1 − x²/2! + x⁴/4! − …, for x from −4 to 4. No derivative of the cosine
/// exceeds 1, so that what is left out is no larger than its first term.
pub(crate) fn cosine(x: Interval) -> Interval {
    let square = x * x;
    let mut sum = Interval::ZERO;
    let mut term = Interval::fraction(1, 1);
    for pair in 1..=TERMS {
        sum = sum + term;
        term = -(term * square).over((2 * pair - 1) * (2 * pair));
    }
    sum.give_or_take(term)
}

#[cfg(test)]
mod tests {
    use super::{cosine, pi, Interval, ONE};

    /// A number known to a million millionths.
    fn is_narrow(number: Interval) -> bool {
        number.high - number.low < ONE / 1_000_000_000_000
    }

    fn contains(outer: Interval, inner: Interval) -> bool {
        outer.low <= inner.low && inner.high <= outer.high
    }

    /// Bounds that are no whole 2^-56ths are rounded outwards.
    #[test]
    fn bounds_are_rounded_outwards() {
        for (numerator, low) in [(1, ONE / 3), (-1, -ONE / 3 - 1), (0, 0), (3, ONE)] {
            let third = Interval::fraction(numerator, 3);
            let is_whole = numerator % 3 == 0;
            assert_eq!(third.low, low);
            assert_eq!(third.high, low + i128::from(!is_whole));
            let ninth = Interval::fraction(numerator * numerator, 9);
            assert!(contains(third * third, ninth) && is_narrow(third * third));
        }
    }

    #[test]
    fn products_of_either_sign() {
        let between = |low, high| Interval {
            low: low * ONE,
            high: high * ONE,
        };
        let ends = |product: Interval| (product.low / ONE, product.high / ONE);
        assert_eq!(ends(between(-2, 3) * between(-1, 2)), (-4, 6));
        assert_eq!(ends(between(-3, -2) * between(-1, 2)), (-6, 3));
        assert_eq!(ends(between(-3, -2) * between(-2, -1)), (2, 6));
        assert_eq!(ends(between(-2, 3) - between(-1, 2)), (-4, 4));
    }

    /// 3.141592653589793 and some more.
    #[test]
    fn pi_between_known_digits() {
        let moved = pi().times(1_000_000_000_000);
        assert!(moved.low > 3_141_592_653_589 * ONE);
        assert!(moved.high < 3_141_592_653_590 * ONE);
        assert!(is_narrow(pi()));
    }

    /// −1, −1/2, 0 and 1/2, and 1 for no turn at all.
    #[test]
    fn known_cosines() {
        for (valence, halves) in [(2, -2), (3, -1), (4, 0), (6, 1)] {
            let found = cosine(pi().times(2).over(valence));
            let known = Interval::fraction(halves, 2);
            assert!(contains(found, known) && is_narrow(found), "{valence}");
        }
        let found = cosine(Interval::ZERO);
        assert!(contains(found, Interval::fraction(1, 1)) && is_narrow(found));
    }

    #[test]
    fn nearest_only_where_it_is_sure() {
        let exactly = |numerator, denominator| Interval::fraction(numerator, denominator);
        assert_eq!(exactly(7, 1).nearest(), Some(7));
        assert_eq!(exactly(29, 4).nearest(), Some(7));
        assert_eq!(exactly(-29, 4).nearest(), Some(-7));
        assert_eq!(exactly(31, 4).nearest(), Some(8));
        // A half, and bounds with a half between them.
        assert_eq!(exactly(15, 2).nearest(), None);
        assert_eq!(exactly(-15, 2).nearest(), None);
        let seven = exactly(7, 1);
        assert_eq!(seven.give_or_take(exactly(-1, 2)).nearest(), None);
        assert_eq!(seven.give_or_take(exactly(1, 2)).nearest(), None);
        assert_eq!(seven.give_or_take(exactly(2, 1)).nearest(), None);
        assert_eq!(seven.give_or_take(exactly(499, 1_000)).nearest(), Some(7));
    }
}
