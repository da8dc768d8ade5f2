//! The grid of a cut, in both formats.

/// What section 3 says of a cut in both formats: its bins and rays, and where they lie.
#[derive(Debug, Clone, Copy, PartialEq, Eq, Hash)]
#[non_exhaustive]
pub struct Grid {
    /// The number of bins on a ray (Nb), 1 to 2048.
    pub bins: usize,
    /// The number of rays (Nr), 1 to 1024.
    pub rays: usize,
    /// The middle's latitude in 10^-6 degrees, north positive.
    pub latitude_microdegrees: i64,
    /// The middle's longitude in 10^-6 degrees, 0 to 360,000,000.
    pub longitude_microdegrees: i64,
    /// The spacing of the bins (Dx) in millimetres, as the file says it; never 0.
    pub spacing_mm: u32,
    /// The distance from the middle to the first bin (Dstart) in millimetres.
    pub start_mm: u32,
}

impl Grid {
    /// Nb, Nr, latitude, longitude, Dx, Dstart, as the library answers them of an accepted file.
    pub(crate) fn of_words([bins, rays, latitude, longitude, spacing, start]: [i64; 6]) -> Grid {
        Grid {
            bins: bins as usize,
            rays: rays as usize,
            latitude_microdegrees: latitude,
            longitude_microdegrees: longitude,
            spacing_mm: spacing as u32,
            start_mm: start as u32,
        }
    }

    /// How many bins the cut has: Nb times Nr.
    pub fn points(&self) -> usize {
        self.bins * self.rays
    }

    /// The distance from the middle in millimetres at which a bin begins. The bin past the last begins where the last one ends.
    ///
    /// ```
    /// let file = polar::File::open(include_bytes!("../../../samples/document01.bin"))?;
    /// let grid = file.cut(0)?.grid();
    /// assert_eq!((grid.distance_mm(0), grid.distance_mm(grid.bins)), (0, 2_500_000));
    /// # Ok::<(), polar::Refusal>(())
    /// ```
    pub fn distance_mm(&self, bin: usize) -> u64 {
        u64::from(self.start_mm) + bin as u64 * u64::from(self.spacing_mm)
    }
}
