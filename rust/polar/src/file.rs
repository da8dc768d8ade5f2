//! Files, cuts and rays.
use crate::index::{self, RayRecord};
use crate::indexed::{Indexed, Source};
use crate::octets::Octets;
use crate::stretches::Stretches;
use crate::{Bin, Grid, Hundredths, Ray, Refusal, Threshold};
use std::fmt;

/// What a file's values are.
#[derive(Debug, Clone, Copy, PartialEq, Eq, Hash)]
pub enum Product {
    /// Base reflectivity, in dBZ.
    Reflectivity,
    /// Doppler velocity, in m/s.
    Velocity,
}

impl Product {
    /// The unit of its values.
    pub fn unit(self) -> &'static str {
        match self {
            Product::Reflectivity => "dBZ",
            Product::Velocity => "m/s",
        }
    }
}

impl fmt::Display for Product {
    fn fmt(&self, f: &mut fmt::Formatter<'_>) -> fmt::Result {
        f.write_str(match self {
            Product::Reflectivity => "reflectivity",
            Product::Velocity => "velocity",
        })
    }
}

/// A file's time, in UTC.
#[derive(Debug, Clone, Copy, PartialEq, Eq, PartialOrd, Ord, Hash)]
pub struct Time {
    /// 1000 to 9999
    pub year: u16,
    /// 1 to 12
    pub month: u8,
    /// 1 to 31
    pub day: u8,
    /// 0 to 23
    pub hour: u8,
    /// 0 to 59
    pub minute: u8,
    /// 0 to 59
    pub second: u8,
}

impl Time {
    /// Year, month, day, hour, minute, second, as the library answers them of an accepted file.
    pub(crate) fn of_words([year, month, day, hour, minute, second]: [u64; 6]) -> Time {
        let small = |word: u64| word as u8;
        Time { year: year as u16, month: small(month), day: small(day), hour: small(hour), minute: small(minute), second: small(second) }
    }
}

impl fmt::Display for Time {
    fn fmt(&self, f: &mut fmt::Formatter<'_>) -> fmt::Result {
        let Time { year, month, day, hour, minute, second } = self;
        write!(f, "{year:04}-{month:02}-{day:02}T{hour:02}:{minute:02}:{second:02}Z")
    }
}

/// An accepted file.
#[derive(Debug, Clone, Copy)]
pub struct File<'a> {
    octets: Octets<'a>,
    product: Product,
    time: Time,
    site: u16,
    cuts: usize,
}

impl<'a> File<'a> {
    /// Checks all of a file, and opens it.
    ///
    /// ```
    /// use polar::{File, Product, Reason};
    ///
    /// let octets = include_bytes!("../../../samples/document01.bin");
    /// let file = File::open(octets)?;
    /// assert_eq!((file.product(), file.cut_count()), (Product::Reflectivity, 1));
    ///
    /// let cut_short = File::open(&octets[..500]).unwrap_err();
    /// assert_eq!((cut_short.reason(), cut_short.number(), cut_short.place()), (Reason::Section0, 2, 0));
    /// # Ok::<(), polar::Refusal>(())
    /// ```
    pub fn open(octets: &'a [u8]) -> Result<File<'a>, Refusal> {
        let mut answer = [0; 9];
        Refusal::check(polar_sys::open(octets, &mut answer))?;
        let [product, year, month, day, hour, minute, second, site, cuts] = answer;
        let time = Time::of_words([year, month, day, hour, minute, second]);
        let product = if product == 1 { Product::Reflectivity } else { Product::Velocity };
        Ok(File { octets: Octets(octets), product, time, site: site as u16, cuts: cuts as usize })
    }

    /// The octets that were opened.
    pub fn octets(&self) -> &'a [u8] {
        self.octets.0
    }

    /// What its values are.
    pub fn product(&self) -> Product {
        self.product
    }

    /// When it was observed.
    pub fn time(&self) -> Time {
        self.time
    }

    /// The radar's site number.
    pub fn site(&self) -> u16 {
        self.site
    }

    /// The number of cuts, 1 to 64.
    pub fn cut_count(&self) -> usize {
        self.cuts
    }

    /// The cut of this index, counted from 0; [`Reason::Argument`](crate::Reason::Argument) where there is none.
    pub fn cut(&self, index: usize) -> Result<Cut<'a>, Refusal> {
        let mut answer = [0; 10];
        Refusal::check(polar_sys::cut(self.octets(), index, &mut answer))?;
        let [bins, rays, latitude, longitude, spacing, start, azimuth, mode, known, elevation] = answer;
        Ok(Cut {
            file: *self,
            index,
            grid: Grid::of_words([bins, rays, latitude, longitude, spacing, start]),
            azimuth: azimuth as u16,
            mode: mode as u8,
            elevation: (known == 1).then_some(elevation as i16),
        })
    }

    /// All its cuts, in the order of the file.
    pub fn cuts(&self) -> Cuts<'a> {
        Indexed::new(*self, self.cuts)
    }
}

/// The cuts of a file.
pub type Cuts<'a> = Indexed<File<'a>>;

impl<'a> Source for File<'a> {
    type Item = Cut<'a>;

    fn item(&self, index: usize) -> Cut<'a> {
        self.cut(index).expect("a cut of an accepted file")
    }
}

/// One cut of a file: the rays of one turn of the antenna.
#[derive(Debug, Clone, Copy)]
pub struct Cut<'a> {
    file: File<'a>,
    index: usize,
    grid: Grid,
    azimuth: u16,
    mode: u8,
    elevation: Option<i16>,
}

impl<'a> Cut<'a> {
    /// The file that it is a cut of.
    pub fn file(&self) -> &File<'a> {
        &self.file
    }

    /// Its index in the file, counted from 0.
    pub fn index(&self) -> usize {
        self.index
    }

    /// Its bins and rays, and where they lie.
    pub fn grid(&self) -> Grid {
        self.grid
    }

    /// The azimuth at which the first ray starts, in hundredths of a degree from north by the east: 0 to 36000.
    pub fn start_azimuth(&self) -> Hundredths {
        Hundredths(self.azimuth.into())
    }

    /// Octet 38 of section 4, the mode of operation: 0, 1, 2, or 255 where it is missing.
    pub fn mode(&self) -> u8 {
        self.mode
    }

    /// The elevation constant in hundredths of a degree; none where it is missing.
    pub fn elevation(&self) -> Option<Hundredths> {
        self.elevation.map(|angle| Hundredths(angle.into()))
    }

    /// One ray; [`Reason::Argument`](crate::Reason::Argument) where there is none of this index.
    ///
    /// ```
    /// use polar::{Bin::*, Hundredths};
    ///
    /// let file = polar::File::open(include_bytes!("../../../samples/document01.bin"))?;
    /// let ray = file.cut(0)?.ray(1)?;
    /// let zero = Measured(Hundredths(0));
    /// assert_eq!(ray.bins(), [Measured(Hundredths(4112)), zero, zero, zero, Missing]);
    /// # Ok::<(), polar::Refusal>(())
    /// ```
    pub fn ray(&self, index: usize) -> Result<Ray<Hundredths>, Refusal> {
        self.ray_by(index, |marks, values| Refusal::check(polar_sys::ray_values(self.file.octets(), self.index, index, marks, values)))
    }

    /// One ray, of the marks and values that a call fills in.
    fn ray_by(&self, index: usize, call: impl FnOnce(&mut [u8], &mut [i32]) -> Result<(), Refusal>) -> Result<Ray<Hundredths>, Refusal> {
        let (mut marks, mut values) = (vec![0; self.grid.bins], vec![0; self.grid.bins]);
        call(&mut marks, &mut values)?;
        let bins = marks.iter().zip(values).map(|(mark, value)| Bin::of_mark((*mark).into(), Hundredths(value)));
        Ok(Ray::new(index, bins.collect()))
    }

    /// The levels of one ray, as they stand in the file; level 0 is missing.
    pub fn ray_levels(&self, index: usize) -> Result<Vec<u8>, Refusal> {
        let mut levels = vec![0; self.grid.bins];
        Refusal::check(polar_sys::ray_levels(self.file.octets(), self.index, index, &mut levels))?;
        Ok(levels)
    }

    /// Its index: for each ray where it begins in the data.
    ///
    /// ```
    /// use polar::{File, RayRecord};
    ///
    /// let file = File::open(include_bytes!("../../../samples/document01.bin"))?;
    /// // ray 1 begins in the run that the octet at 2 opens, and three bins of that run are ray 0's
    /// assert_eq!(file.cut(0)?.records(), [RayRecord { offset: 0, before: 0 }, RayRecord { offset: 2, before: 3 }]);
    /// # Ok::<(), polar::Refusal>(())
    /// ```
    pub fn records(&self) -> Vec<RayRecord> {
        let mut records = vec![RayRecord::default(); self.grid.rays];
        index::records(self.file.octets(), self.index, &mut records).expect("a cut of an accepted file");
        records
    }

    /// One ray, read from a record on. With the record of this ray it is what [`ray`](Cut::ray) gives, and the rays before it
    /// are not read; with any other it is what decoding from there gives, or [`Reason::Record`](crate::Reason::Record).
    /// [`Reason::Argument`](crate::Reason::Argument) where there is no ray of this index.
    ///
    /// ```
    /// let file = polar::File::open(include_bytes!("../../../samples/ridge.bin"))?;
    /// let cut = file.cut(0)?;
    /// let records = cut.records();
    /// assert_eq!(cut.ray_from(500, records[500])?, cut.ray(500)?);
    /// # Ok::<(), polar::Refusal>(())
    /// ```
    pub fn ray_from(&self, index: usize, record: RayRecord) -> Result<Ray<Hundredths>, Refusal> {
        self.ray_by(index, |marks, values| index::ray_values(self.file.octets(), self.index, index, record, marks, values))
    }

    /// The levels of one ray, read from a record on, as [`ray_from`](Cut::ray_from) its values.
    ///
    /// ```
    /// let file = polar::File::open(include_bytes!("../../../samples/document01.bin"))?;
    /// let cut = file.cut(0)?;
    /// assert_eq!(cut.ray_levels_from(1, cut.records()[1])?, [130, 1, 1, 1, 0]);
    /// # Ok::<(), polar::Refusal>(())
    /// ```
    pub fn ray_levels_from(&self, index: usize, record: RayRecord) -> Result<Vec<u8>, Refusal> {
        let mut levels = vec![0; self.grid.bins];
        index::ray_levels(self.file.octets(), self.index, index, record, &mut levels)?;
        Ok(levels)
    }

    /// All its rays, in the order of the file, by records that are built once.
    ///
    /// ```
    /// let file = polar::File::open(include_bytes!("../../../samples/document01.bin"))?;
    /// let missing = |ray: polar::Ray<_>| ray.bins().iter().filter(|bin| bin.is_missing()).count();
    /// assert_eq!(file.cut(0)?.rays().map(missing).collect::<Vec<_>>(), [2, 1]);
    /// # Ok::<(), polar::Refusal>(())
    /// ```
    pub fn rays(&self) -> Rays<'a> {
        Indexed::new(ByRecords { cut: *self, records: self.records() }, self.grid.rays)
    }

    /// What one bin holds, its value in dBZ or m/s; [`Reason::Argument`](crate::Reason::Argument) where there is no such bin.
    ///
    /// ```
    /// use polar::Bin;
    ///
    /// let file = polar::File::open(include_bytes!("../../../samples/document01.bin"))?;
    /// let cut = file.cut(0)?;
    /// assert_eq!((cut.bin_value(1, 0)?, cut.bin_value(1, 4)?), (Bin::Measured(41.12), Bin::Missing));
    /// assert!(cut.bin_value(1, 5).is_err());
    /// # Ok::<(), polar::Refusal>(())
    /// ```
    pub fn bin_value(&self, ray: usize, bin: usize) -> Result<Bin<f64>, Refusal> {
        let (mut value, mut answer) = (f64::NAN, [0]);
        Refusal::check(polar_sys::bin_value(self.file.octets(), self.index, ray, bin, &mut value, &mut answer))?;
        Ok(Bin::of_mark(answer[0], value))
    }

    /// Every longest stretch of one kind on each ray, by ray and then by first bin.
    pub fn stretches(&self, threshold: Threshold) -> Stretches<'a> {
        Stretches::new(*self, threshold)
    }
}

/// The rays of a cut.
pub type Rays<'a> = Indexed<ByRecords<'a>>;

/// A cut with the records of its rays.
#[derive(Clone)]
pub struct ByRecords<'a> {
    cut: Cut<'a>,
    records: Vec<RayRecord>,
}

impl Source for ByRecords<'_> {
    type Item = Ray<Hundredths>;

    fn item(&self, index: usize) -> Ray<Hundredths> {
        self.cut.ray_from(index, self.records[index]).expect("a ray of an accepted file")
    }
}
