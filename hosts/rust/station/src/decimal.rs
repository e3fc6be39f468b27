//! Numbers with a fixed count of digits behind the point, as the fields of a line have them.

use std::fmt;

/// A number with so many digits behind its point, at most 18, kept exact. Shown, it is what a line has in its columns,
/// without the blanks; a width (`{:8}`) puts them before it.
///
/// ```
/// use station::{Billionths, Hundredths, Thousandths};
///
/// let x = Thousandths::of(-1);
/// assert_eq!((x.to_string().as_str(), x.value(), x.units()), ("-0.001", -0.001, -1));
/// assert_eq!(format!("{:8}", Thousandths::of(11_281)), "  11.281");
/// assert_eq!(Hundredths::of(50).to_string(), "0.50");
/// assert_eq!(Billionths::of(-123_085).to_string(), "-0.000123085");
/// ```
#[derive(Clone, Copy, Debug, Default, PartialEq, Eq, PartialOrd, Ord, Hash)]
pub struct Decimal<const DIGITS: u32>(i64);

/// A number with two digits behind its point: an occupancy, a temperature factor in square ångström, or an angle in degrees.
pub type Hundredths = Decimal<2>;

/// A number with three digits behind its point: a coordinate or an edge of a cell, in ångström.
pub type Thousandths = Decimal<3>;

/// A number with five digits behind its point: the shift of a transformation, or a fractional coordinate that is rounded.
pub type HundredThousandths = Decimal<5>;

/// A number with six digits behind its point: a coefficient of a transformation.
pub type Millionths = Decimal<6>;

/// A number with nine digits behind its point: a fractional coordinate.
pub type Billionths = Decimal<9>;

impl<const DIGITS: u32> Decimal<DIGITS> {
    /// How many units of the last digit are 1.
    const ONE: u64 = 10_u64.pow(DIGITS);

    /// The number of so many units of its last digit.
    pub fn of(units: impl Into<i64>) -> Self {
        Decimal(units.into())
    }

    /// How many units of its last digit it is.
    pub const fn units(self) -> i64 {
        self.0
    }

    /// The double next to it, which is also the one that its text reads as.
    pub fn value(self) -> f64 {
        if self.0.unsigned_abs().max(Self::ONE) <= 1 << f64::MANTISSA_DIGITS {
            // Both are doubles as they are, and the quotient is rounded once.
            return self.0 as f64 / Self::ONE as f64;
        }
        self.to_string().parse().unwrap_or(f64::NAN)
    }
}

impl<const DIGITS: u32> fmt::Display for Decimal<DIGITS> {
    fn fmt(&self, f: &mut fmt::Formatter<'_>) -> fmt::Result {
        let (whole, rest) = (self.0.unsigned_abs() / Self::ONE, self.0.unsigned_abs() % Self::ONE);
        let text = format!("{whole}.{rest:0digits$}", digits = DIGITS as usize);
        f.pad_integral(self.0 >= 0, "", &text)
    }
}
