//! Dual-polarisation files: a second format, with its own files and cuts.
//!
//! A value is a 64-bit float in the unit of the file's [`Parameter`], within one part in 2^51 of the exact value. A cell of
//! all ones is [`Bin::Missing`], never 0: its value is invalid, or nothing was detected, and the file does not say which. Each value is a call of its own, and every call checks all the file's sections again:
//! its time grows with the number of cuts.
//!
//! ```
//! let octets = include_bytes!("../../../samples/dual.bin");
//! let file = polar::dual::File::open(octets)?;
//! for cut in file.cuts() {
//!     let rays: Vec<polar::Ray<f64>> = cut.rays().collect();
//!     let measured: Vec<f64> = rays.iter().flat_map(|ray| ray.bins()).filter_map(|bin| bin.measured()).collect();
//!     let strongest = measured.iter().copied().reduce(f64::max);
//!     println!("{} of {} bins measured, at most {strongest:?} dBZ", measured.len(), cut.grid().points());
//! }
//! # Ok::<(), polar::Refusal>(())
//! ```
use crate::indexed::{Indexed, Source};
use crate::octets::Octets;
use crate::{Bin, Grid, Ray, Refusal, Time};
use std::fmt;

/// What a file's values are: a number of the format's table of parameters. Numbers that are not in it are read all the same.
#[derive(Debug, Clone, Copy, PartialEq, Eq, Hash)]
pub struct Parameter(u8);

/// Number, name, abbreviation and unit of the table's parameters.
const PARAMETERS: [(u8, &str, &str, Option<&str>); 13] = [
    (0, "spectrum width", "vsw", Some("m/s")),
    (1, "reflectivity", "ref", Some("dBZ")),
    (2, "radial velocity", "vel", Some("m/s")),
    (194, "rain intensity", "rfi", Some("mm/h")),
    (195, "horizontal reflectivity", "zhh", Some("dBZ")),
    (196, "vertical reflectivity", "zvv", Some("dBZ")),
    (197, "differential reflectivity", "zdr", Some("dB")),
    (198, "received differential phase", "psd", Some("deg")),
    (199, "correlation coefficient", "rhv", None),
    (201, "differential phase", "phd", Some("deg")),
    (202, "specific differential phase", "kdp", Some("deg/km")),
    (205, "particle type", "typ", None),
    (206, "quality information", "qci", None),
];

impl Parameter {
    /// The parameter of this number.
    pub fn new(number: u8) -> Parameter {
        Parameter(number)
    }

    /// Its number: octet 11 of section 4.
    pub fn number(self) -> u8 {
        self.0
    }

    fn entry(self) -> Option<&'static (u8, &'static str, &'static str, Option<&'static str>)> {
        PARAMETERS.iter().find(|entry| entry.0 == self.0)
    }

    /// Its name; none where the table has no such number.
    pub fn name(self) -> Option<&'static str> {
        self.entry().map(|entry| entry.1)
    }

    /// Its abbreviation, as it stands in the names of files; none where the table has no such number.
    pub fn abbreviation(self) -> Option<&'static str> {
        self.entry().map(|entry| entry.2)
    }

    /// The unit of its values; none where they have none, and where the table has no such number.
    ///
    /// ```
    /// use polar::dual::Parameter;
    ///
    /// assert_eq!((Parameter::new(195).unit(), Parameter::new(199).unit()), (Some("dBZ"), None));
    /// assert_eq!((Parameter::new(195).to_string(), Parameter::new(77).to_string()),
    ///            ("horizontal reflectivity".into(), "unknown parameter".into()));
    /// ```
    pub fn unit(self) -> Option<&'static str> {
        self.entry().and_then(|entry| entry.3)
    }
}

impl fmt::Display for Parameter {
    fn fmt(&self, f: &mut fmt::Formatter<'_>) -> fmt::Result {
        f.write_str(self.name().unwrap_or("unknown parameter"))
    }
}

/// An accepted dual-polarisation file.
#[derive(Debug, Clone, Copy)]
pub struct File<'a> {
    octets: Octets<'a>,
    parameter: Parameter,
    time: Time,
    site: u16,
    cuts: usize,
}

impl<'a> File<'a> {
    /// Checks all of a file, and opens it.
    ///
    /// ```
    /// use polar::{dual::File, Reason};
    ///
    /// let octets = include_bytes!("../../../samples/dual.bin");
    /// let file = File::open(octets)?;
    /// assert_eq!((file.parameter().number(), file.cut_count()), (195, 2));
    ///
    /// // a file of the base format is none of this one
    /// let refusal = File::open(include_bytes!("../../../samples/ridge.bin")).unwrap_err();
    /// assert_eq!((refusal.reason(), refusal.place()), (Reason::SectionLength, 37));
    /// # Ok::<(), polar::Refusal>(())
    /// ```
    pub fn open(octets: &'a [u8]) -> Result<File<'a>, Refusal> {
        let mut answer = [0; 9];
        Refusal::check(polar_sys::dual_open(octets, &mut answer))?;
        let [parameter, year, month, day, hour, minute, second, site, cuts] = answer;
        let time = Time::of_words([year, month, day, hour, minute, second]);
        Ok(File { octets: Octets(octets), parameter: Parameter(parameter as u8), time, site: site as u16, cuts: cuts as usize })
    }

    /// The octets that were opened.
    pub fn octets(&self) -> &'a [u8] {
        self.octets.0
    }

    /// What its values are.
    pub fn parameter(&self) -> Parameter {
        self.parameter
    }

    /// The time that its observation is told from.
    pub fn time(&self) -> Time {
        self.time
    }

    /// The radar's site number.
    pub fn site(&self) -> u16 {
        self.site
    }

    /// The number of cuts, 1 to 64.
    pub fn cut_count(&self) -> usize {
        self.cuts
    }

    /// The cut of this index, counted from 0; [`Reason::Argument`](crate::Reason::Argument) where there is none.
    pub fn cut(&self, index: usize) -> Result<Cut<'a>, Refusal> {
        let mut grid = [0; 6];
        Refusal::check(polar_sys::dual_cut(self.octets(), index, &mut grid))?;
        Ok(Cut { file: *self, index, grid: Grid::of_words(grid) })
    }

    /// All its cuts, in the order of the file.
    pub fn cuts(&self) -> Cuts<'a> {
        Indexed::new(*self, self.cuts)
    }
}

/// The cuts of a dual-polarisation file.
pub type Cuts<'a> = Indexed<File<'a>>;

impl<'a> Source for File<'a> {
    type Item = Cut<'a>;

    fn item(&self, index: usize) -> Cut<'a> {
        self.cut(index).expect("a cut of an accepted file")
    }
}

/// One cut of a dual-polarisation file: the rays of one turn of the antenna.
#[derive(Debug, Clone, Copy)]
pub struct Cut<'a> {
    file: File<'a>,
    index: usize,
    grid: Grid,
}

impl<'a> Cut<'a> {
    /// The file that it is a cut of.
    pub fn file(&self) -> &File<'a> {
        &self.file
    }

    /// Its index in the file, counted from 0.
    pub fn index(&self) -> usize {
        self.index
    }

    /// Its bins and rays, and where they lie.
    pub fn grid(&self) -> Grid {
        self.grid
    }

    /// What one bin holds, its value in the parameter's unit; [`Reason::Argument`](crate::Reason::Argument) where there is no
    /// such bin.
    ///
    /// ```
    /// use polar::Bin;
    ///
    /// let file = polar::dual::File::open(include_bytes!("../../../samples/dual.bin"))?;
    /// let (low, high) = (file.cut(0)?, file.cut(1)?);
    /// // behind the ridge, and over it
    /// assert_eq!((low.bin_value(109, 48)?, high.bin_value(109, 48)?), (Bin::Missing, Bin::Measured(56.59)));
    /// // a measured 0 is a value
    /// assert_eq!(low.bin_value(32, 21)?, Bin::Measured(0.0));
    /// assert!(low.bin_value(128, 0).is_err());
    /// # Ok::<(), polar::Refusal>(())
    /// ```
    pub fn bin_value(&self, ray: usize, bin: usize) -> Result<Bin<f64>, Refusal> {
        let (mut value, mut answer) = (f64::NAN, [0]);
        Refusal::check(polar_sys::dual_bin_value(self.file.octets(), self.index, ray, bin, &mut value, &mut answer))?;
        Ok(Bin::of_mark(answer[0], value))
    }

    /// One ray; [`Reason::Argument`](crate::Reason::Argument) where there is none of this index.
    pub fn ray(&self, index: usize) -> Result<Ray<f64>, Refusal> {
        let bins = (0..self.grid.bins).map(|bin| self.bin_value(index, bin)).collect::<Result<_, _>>()?;
        Ok(Ray::new(index, bins))
    }

    /// All its rays, in the order of the file.
    pub fn rays(&self) -> Rays<'a> {
        Indexed::new(*self, self.grid.rays)
    }
}

/// The rays of a cut.
pub type Rays<'a> = Indexed<Cut<'a>>;

impl Source for Cut<'_> {
    type Item = Ray<f64>;

    fn item(&self, index: usize) -> Ray<f64> {
        self.ray(index).expect("a ray of an accepted file")
    }
}
