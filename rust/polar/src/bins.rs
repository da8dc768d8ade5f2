//! What a bin holds, and a ray of bins, in both formats.

/// What one bin holds.
#[derive(Debug, Clone, Copy, PartialEq, Eq, Hash)]
#[non_exhaustive]
pub enum Bin<T> {
    /// There is no number. In the base format the bin was out of range or missing; in the dual-polarisation format the value is
    /// invalid or nothing was detected.
    Missing,
    /// A measured value, which may well be 0.
    Measured(T),
}

impl<T> Bin<T> {
    /// The value, where there is one.
    ///
    /// ```
    /// let file = polar::File::open(include_bytes!("../../../samples/document01.bin"))?;
    /// let measured: Vec<f64> = file.cut(0)?.ray(1)?.bins().iter().filter_map(|bin| bin.measured()).map(|h| h.to_f64()).collect();
    /// assert_eq!(measured, [41.12, 0.0, 0.0, 0.0]);
    /// # Ok::<(), polar::Refusal>(())
    /// ```
    pub fn measured(self) -> Option<T> {
        match self {
            Bin::Missing => None,
            Bin::Measured(value) => Some(value),
        }
    }

    /// Whether there is no number.
    pub fn is_missing(&self) -> bool {
        matches!(self, Bin::Missing)
    }

    /// The bin with this mark, as the library answers it; `value` is looked at only where the bin is measured.
    pub(crate) fn of_mark(mark: u64, value: T) -> Bin<T> {
        match mark {
            0 => Bin::Missing,
            1 => Bin::Measured(value),
            _ => unreachable!("a mark is 0 or 1"),
        }
    }
}

/// One ray of a cut, with values of type `T`: [`Hundredths`](crate::Hundredths) in the base format, `f64` in the
/// dual-polarisation format.
#[derive(Debug, Clone, PartialEq, Eq)]
pub struct Ray<T> {
    index: usize,
    bins: Vec<Bin<T>>,
}

impl<T> Ray<T> {
    pub(crate) fn new(index: usize, bins: Vec<Bin<T>>) -> Ray<T> {
        Ray { index, bins }
    }

    /// Its index in the cut, counted from 0.
    pub fn index(&self) -> usize {
        self.index
    }

    /// Its bins, nearest first. A bin that is not there is none of the slice; one without a number is [`Bin::Missing`].
    ///
    /// ```
    /// use polar::{Bin, Hundredths};
    ///
    /// let file = polar::File::open(include_bytes!("../../../samples/document01.bin"))?;
    /// let ray = file.cut(0)?.ray(1)?;
    /// assert_eq!(ray.bins()[0], Bin::Measured(Hundredths(4112)));
    /// assert_eq!(ray.bins().get(4), Some(&Bin::Missing));
    /// assert_eq!(ray.bins().get(5), None);
    /// # Ok::<(), polar::Refusal>(())
    /// ```
    pub fn bins(&self) -> &[Bin<T>] {
        &self.bins
    }
}
