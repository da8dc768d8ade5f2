//! Numbers in hundredths, and the threshold of a list, which is one of them.
use std::error::Error;
use std::fmt;

/// A number of hundredths: of dBZ, of m/s or of a degree. Shown, it has its two decimals.
///
/// ```
/// use polar::Hundredths;
///
/// assert_eq!((Hundredths(4112).to_string(), Hundredths(-5).to_string()), ("41.12".into(), "-0.05".into()));
/// assert_eq!(Hundredths(4112).to_f64(), 41.12);
/// ```
#[derive(Debug, Clone, Copy, PartialEq, Eq, PartialOrd, Ord, Hash)]
pub struct Hundredths(
    /// How many hundredths.
    pub i32,
);

impl Hundredths {
    /// The number itself, taken over exactly and divided once by 100.
    pub fn to_f64(self) -> f64 {
        f64::from(self.0) / 100.0
    }
}

impl fmt::Display for Hundredths {
    fn fmt(&self, f: &mut fmt::Formatter<'_>) -> fmt::Result {
        let sign = if self.0 < 0 { "-" } else { "" };
        let size = self.0.unsigned_abs();
        f.pad(&format!("{sign}{}.{:02}", size / 100, size % 100))
    }
}

/// The value from which on a bin is [over](crate::Kind::Over): a whole number of hundredths from -327.67 to 327.67. It is made
/// by a name that says what is handed in, so that 40 dBZ is never taken for 0.40.
///
/// ```
/// use polar::Threshold;
///
/// assert_eq!(Threshold::from_dbz(40.0), Ok(Threshold::HOUSE));
/// assert_eq!(Threshold::from_hundredths(4000), Ok(Threshold::HOUSE));
/// assert_eq!(Threshold::from_metres_per_second(-7.25)?.to_string(), "-7.25");
/// assert!(Threshold::from_dbz(327.68).is_err());
/// assert!(Threshold::from_dbz(0.125).is_err());
/// # Ok::<(), polar::NoThreshold>(())
/// ```
#[derive(Debug, Clone, Copy, PartialEq, Eq, PartialOrd, Ord, Hash)]
pub struct Threshold(Hundredths);

impl Threshold {
    /// The house threshold: 40.00.
    pub const HOUSE: Threshold = Threshold(Hundredths(4000));
    /// The least: -327.67.
    pub const LEAST: Threshold = Threshold(Hundredths(-32767));
    /// The greatest: 327.67.
    pub const GREATEST: Threshold = Threshold(Hundredths(32767));

    /// Of so many hundredths.
    pub fn from_hundredths(hundredths: i32) -> Result<Threshold, NoThreshold> {
        let made = Threshold(Hundredths(hundredths));
        (Threshold::LEAST <= made && made <= Threshold::GREATEST).then_some(made).ok_or(NoThreshold(()))
    }

    /// Of so many dBZ, for reflectivity.
    pub fn from_dbz(dbz: f64) -> Result<Threshold, NoThreshold> {
        Threshold::from_units(dbz)
    }

    /// Of so many m/s, for velocity.
    pub fn from_metres_per_second(metres_per_second: f64) -> Result<Threshold, NoThreshold> {
        Threshold::from_units(metres_per_second)
    }

    /// A float that is none of a whole number of hundredths is not brought to the nearest: what was meant is not known.
    fn from_units(units: f64) -> Result<Threshold, NoThreshold> {
        // what is no number, and what is too great for an i32, becomes a number of hundredths that is another float
        let made = Threshold::from_hundredths((units * 100.0).round() as i32)?;
        (made.0.to_f64() == units).then_some(made).ok_or(NoThreshold(()))
    }

    /// How many hundredths it is.
    pub fn hundredths(self) -> Hundredths {
        self.0
    }
}

impl fmt::Display for Threshold {
    fn fmt(&self, f: &mut fmt::Formatter<'_>) -> fmt::Result {
        self.0.fmt(f)
    }
}

/// What was handed in is no threshold.
#[derive(Debug, Clone, Copy, PartialEq, Eq, Hash)]
pub struct NoThreshold(());

impl fmt::Display for NoThreshold {
    fn fmt(&self, f: &mut fmt::Formatter<'_>) -> fmt::Result {
        write!(f, "a threshold is a number from {} to {} with up to two decimals", Threshold::LEAST, Threshold::GREATEST)
    }
}

impl Error for NoThreshold {}

#[cfg(test)]
mod tests {
    use super::*;

    #[test]
    fn every_threshold_by_each_name() {
        for n in -32767..=32767 {
            let made = Threshold::from_hundredths(n).unwrap();
            assert_eq!(made.hundredths(), Hundredths(n));
            let read: f64 = made.to_string().parse().unwrap();
            assert_eq!((Threshold::from_dbz(read), Threshold::from_metres_per_second(read)), (Ok(made), Ok(made)));
        }
    }

    #[test]
    fn what_is_no_threshold() {
        for n in [i32::MIN, -32768, 32768, 40000, i32::MAX] {
            assert_eq!(Threshold::from_hundredths(n), Err(NoThreshold(())), "{n}");
        }
        for units in [40.005, 327.68, -327.68, 1e-3, 1e300, -1e300, f64::NAN, f64::INFINITY, f64::NEG_INFINITY, f64::MIN_POSITIVE] {
            assert_eq!(Threshold::from_dbz(units), Err(NoThreshold(())), "{units}");
        }
        assert_eq!(NoThreshold(()).to_string(), "a threshold is a number from -327.67 to 327.67 with up to two decimals");
    }
}
