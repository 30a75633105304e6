//! Exact rational numbers: the paper's projections are rational vectors.

use std::ops::{Add, Div, Mul, Sub};

/// A rational number in lowest terms with a denominator above 0, so that equal numbers have equal
/// fields.
#[derive(Clone, Copy, Debug, PartialEq, Eq, Hash)]
pub struct Rational {
    numerator: i128,
    denominator: i128,
}

/// The greatest common divisor, by Euclid's algorithm; 0 only for two zeros.
pub fn greatest_common_divisor(a: i128, b: i128) -> i128 {
    let (mut a, mut b) = (a.abs(), b.abs());
    while b != 0 {
        (a, b) = (b, a % b);
    }
    a
}

impl Rational {
    pub const ZERO: Rational = Rational { numerator: 0, denominator: 1 };
    pub const ONE: Rational = Rational { numerator: 1, denominator: 1 };

    /// The quotient of two whole numbers. The denominator must not be 0.
    pub fn new(numerator: i128, denominator: i128) -> Rational {
        assert!(denominator != 0, "a denominator of 0");
        let divisor = greatest_common_divisor(numerator, denominator);
        let sign = if denominator < 0 { -1 } else { 1 };
        Rational {
            numerator: sign * numerator / divisor,
            denominator: sign * denominator / divisor,
        }
    }

    pub fn whole(number: i64) -> Rational {
        Rational { numerator: i128::from(number), denominator: 1 }
    }

    pub fn is_zero(self) -> bool {
        self.numerator == 0
    }

    pub fn is_whole(self) -> bool {
        self.denominator == 1
    }

    /// The greatest whole number that is not above this one.
    pub fn floor(self) -> i64 {
        let below = self.numerator.div_euclid(self.denominator);
        i64::try_from(below).expect("a number of 64 bits")
    }

    /// What is left above the floor: at least 0 and below 1.
    pub fn fraction(self) -> Rational {
        self - Rational::whole(self.floor())
    }

    /// This number as a whole number, if it is one.
    pub fn to_whole(self) -> Option<i64> {
        self.is_whole().then(|| self.floor())
    }
}

impl Add for Rational {
    type Output = Rational;
    fn add(self, other: Rational) -> Rational {
        Rational::new(
            self.numerator * other.denominator + other.numerator * self.denominator,
            self.denominator * other.denominator,
        )
    }
}

impl Sub for Rational {
    type Output = Rational;
    fn sub(self, other: Rational) -> Rational {
        Rational::new(
            self.numerator * other.denominator - other.numerator * self.denominator,
            self.denominator * other.denominator,
        )
    }
}

impl Mul for Rational {
    type Output = Rational;
    fn mul(self, other: Rational) -> Rational {
        Rational::new(self.numerator * other.numerator, self.denominator * other.denominator)
    }
}

impl Div for Rational {
    type Output = Rational;
    fn div(self, other: Rational) -> Rational {
        Rational::new(self.numerator * other.denominator, self.denominator * other.numerator)
    }
}

#[cfg(test)]
mod tests {
    use super::*;

    #[test]
    fn lowest_terms_with_positive_denominator() {
        assert_eq!(Rational::new(6, -4), Rational::new(-3, 2));
        assert_eq!(Rational::new(0, -7), Rational::ZERO);
        assert!(Rational::new(8, 4).is_whole());
    }

    #[test]
    fn the_four_operations() {
        let (half, third) = (Rational::new(1, 2), Rational::new(1, 3));
        assert_eq!(half + third, Rational::new(5, 6));
        assert_eq!(third - half, Rational::new(-1, 6));
        assert_eq!(half * third, Rational::new(1, 6));
        assert_eq!(half / third, Rational::new(3, 2));
    }

    #[test]
    fn floor_below_at_and_above_zero() {
        assert_eq!(Rational::new(-1, 2).floor(), -1);
        assert_eq!(Rational::new(-2, 1).floor(), -2);
        assert_eq!(Rational::new(0, 1).floor(), 0);
        assert_eq!(Rational::new(1, 2).floor(), 0);
        assert_eq!(Rational::new(-1, 3).fraction(), Rational::new(2, 3));
    }
}
