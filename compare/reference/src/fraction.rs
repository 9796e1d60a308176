//! Exact fractions. Document 01: "Rounding the drain or read spacing to
//! nanoseconds: it drifts within one frame" is an error, so instants stay
//! fractions and are compared by cross-multiplication.

use std::cmp::Ordering;

/// `over` / `under`, with `under` always above 0. It is never reduced.
#[derive(Clone, Copy, Debug)]
pub struct Fraction {
    over: i128,
    under: i128,
}

impl Fraction {
    pub fn new(over: i128, under: i128) -> Fraction {
        assert!(under > 0, "a fraction needs a denominator above 0");
        Fraction { over, under }
    }

    pub fn whole(value: i128) -> Fraction {
        Fraction::new(value, 1)
    }

    pub fn plus(self, other: Fraction) -> Fraction {
        Fraction::new(
            self.over * other.under + other.over * self.under,
            self.under * other.under,
        )
    }

    pub fn times(self, other: Fraction) -> Fraction {
        Fraction::new(self.over * other.over, self.under * other.under)
    }

    pub fn divided_by(self, other: Fraction) -> Fraction {
        Fraction::new(self.over * other.under, self.under * other.over)
    }

    /// The greatest whole number not above the fraction: INT of document 01.
    pub fn floor(self) -> i128 {
        self.over.div_euclid(self.under)
    }

    /// The least whole number not below the fraction.
    pub fn ceiling(self) -> i128 {
        -(-self.over).div_euclid(self.under)
    }

    pub fn is_whole(self) -> bool {
        self.over.rem_euclid(self.under) == 0
    }
}

impl PartialEq for Fraction {
    fn eq(&self, other: &Fraction) -> bool {
        self.cmp(other) == Ordering::Equal
    }
}

impl Eq for Fraction {}

impl PartialOrd for Fraction {
    fn partial_cmp(&self, other: &Fraction) -> Option<Ordering> {
        Some(self.cmp(other))
    }
}

impl Ord for Fraction {
    fn cmp(&self, other: &Fraction) -> Ordering {
        (self.over * other.under).cmp(&(other.over * self.under))
    }
}

#[cfg(test)]
mod tests {
    use super::*;

    #[test]
    fn floors_and_ceilings_on_both_sides_of_zero() {
        assert_eq!(Fraction::new(7, 2).floor(), 3);
        assert_eq!(Fraction::new(7, 2).ceiling(), 4);
        assert_eq!(Fraction::new(-7, 2).floor(), -4);
        assert_eq!(Fraction::new(-7, 2).ceiling(), -3);
        assert_eq!(Fraction::new(6, 2).floor(), 3);
        assert_eq!(Fraction::new(6, 2).ceiling(), 3);
    }

    #[test]
    fn compares_by_cross_multiplication() {
        assert!(Fraction::new(1, 3) < Fraction::new(34, 100));
        assert_eq!(Fraction::new(2, 6), Fraction::new(1, 3));
        assert!(Fraction::new(-1, 3) > Fraction::new(-34, 100));
    }
}
