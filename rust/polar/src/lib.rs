//! Polar weather-radar files (GRIB2), read by a proved library: base reflectivity and Doppler velocity, run-length packed,
//! here; dual-polarisation files, simply packed, in [`dual`]. [`Format::of`] tells them apart.
//!
//! [`File::open`] takes the octets of a whole file and checks all of it. What an accepted file holds is then there by
//! iterators: its [cuts](File::cuts), their [rays](Cut::rays) and their [stretches](Cut::stretches), the longest
//! pieces of a ray that are blind, under a threshold, or at or over it. Octets that are no such file get a [`Refusal`] with
//! a number, a place in the file and a plain sentence.
//!
//! A bin that was not measured has no number: it is [`Bin::Missing`], never 0.
//!
//! ```
//! use polar::{File, Kind, Threshold};
//!
//! let octets = include_bytes!("../../../samples/document01.bin");
//! let file = File::open(octets)?;
//! for cut in file.cuts() {
//!     for stretch in cut.stretches(Threshold::HOUSE) {
//!         println!("{} {} {} {}", stretch.ray, stretch.first, stretch.length, stretch.kind);
//!     }
//! }
//! let blind: usize = file.cut(0)?.stretches(Threshold::HOUSE).filter(|s| s.kind == Kind::Missing).map(|s| s.length).sum();
//! assert_eq!(blind, 3);
//! # Ok::<(), polar::Refusal>(())
//! ```
//!
//! Every call to the library is lent the whole file and makes all its checks again, so a call's time grows with the file.
//! Take what is wanted from few calls: a ray's values at once instead of bin by bin, and a cut's stretches instead of its
//! rays. [All rays](Cut::rays) of a cut go by an [`index`], which a call by a record makes use of: it reads no data but its
//! ray's.
#![forbid(unsafe_code)]
#![warn(missing_docs)]

mod bins;
pub mod dual;
mod file;
mod format;
mod grid;
mod hundredths;
pub mod index;
mod indexed;
mod octets;
mod refusal;
pub mod runs;
mod stretches;

pub use bins::{Bin, Ray};
pub use file::{Cut, Cuts, File, Product, Rays, Time};
pub use format::Format;
pub use grid::Grid;
pub use hundredths::{Hundredths, NoThreshold, Threshold};
pub use index::RayRecord;
pub use indexed::Indexed;
pub use refusal::Reason;
pub use stretches::{Kind, Stretch, Stretches};

/// A refusal of a call on a file, of either format: why, and where in the file.
pub type Refusal = refusal::Refusal<Reason>;
