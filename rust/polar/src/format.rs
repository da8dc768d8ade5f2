//! Which format a file has.
use std::fmt;

/// The two formats of polar files.
#[derive(Debug, Clone, Copy, PartialEq, Eq, Hash)]
pub enum Format {
    /// Base reflectivity and Doppler velocity, run-length packed: [`crate::File`].
    Base,
    /// Dual-polarisation data, simply packed: [`crate::dual::File`].
    Dual,
}

/// Octets 13 and 14 of the section at place 37, behind sections 0 and 1: a grid's template number.
const TEMPLATE: std::ops::Range<usize> = 49..51;
const DUAL_TEMPLATE: [u8; 2] = 50121u16.to_be_bytes();

impl Format {
    /// The format that octets claim by the template number of their first section 3; the base format where they claim none.
    /// Whether they are an accepted file is for that format's `open` to say.
    ///
    /// ```
    /// use polar::{dual, File, Format};
    ///
    /// let octets = include_bytes!("../../../samples/dual.bin");
    /// match Format::of(octets) {
    ///     Format::Base => println!("{}", File::open(octets)?.product()),
    ///     Format::Dual => println!("{}", dual::File::open(octets)?.parameter()),
    /// }
    /// assert_eq!(Format::of(octets), Format::Dual);
    /// assert_eq!(Format::of(include_bytes!("../../../samples/ridge.bin")), Format::Base);
    /// # Ok::<(), polar::Refusal>(())
    /// ```
    pub fn of(octets: &[u8]) -> Format {
        if octets.get(TEMPLATE) == Some(&DUAL_TEMPLATE[..]) {
            Format::Dual
        } else {
            Format::Base
        }
    }
}

impl fmt::Display for Format {
    fn fmt(&self, f: &mut fmt::Formatter<'_>) -> fmt::Result {
        f.write_str(match self {
            Format::Base => "base",
            Format::Dual => "dual-polarisation",
        })
    }
}
