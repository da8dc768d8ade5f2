//! Run-length packed levels, without a file: the bare run calls, which refuse by reasons of their own.
use crate::refusal::{self, reasons};
use crate::Reason as OfFile;

reasons! {
    /// Why a bare run call was refused: one case for each number that such a call can answer. Those that a call on a file can answer
    /// too have its number and its meaning.
    pub enum Reason {
        /// 8: the octets open above V, or do not give exactly the levels wanted. The place is that of the octet at fault.
        Data = OfFile::Data as isize => OfFile::Data.meaning(),
        /// 10: over [`MOST_LEVELS`] levels are wanted or given, or a level is over 252.
        Argument = OfFile::Argument as isize => OfFile::Argument.meaning(),
        /// 11: lent room is too short.
        Room = OfFile::Room as isize => OfFile::Room.meaning(),
        /// 12: V is over 253, in [`check`] and [`read`].
        V = 12 => "the greatest level of packed data is over 253",
    }
    Data at an octet of "data"
}

/// A refusal of a bare run call. For [`Reason::Data`] its place is the octet at fault, counted from 0 in the octets that were lent, and
/// their number where they give too few levels; else it is 0.
///
/// ```
/// use polar::runs::{self, Reason};
///
/// let refusal = runs::check(&[3], 254, 1).unwrap_err();
/// assert_eq!((refusal.reason(), refusal.number(), refusal.place()), (Reason::V, 12, 0));
/// // the digit 1 behind two zero digits makes a run of 15,626 levels
/// let refusal = runs::check(&[0, 131, 131, 132], 130, 1).unwrap_err();
/// assert_eq!((refusal.reason(), refusal.number(), refusal.place()), (Reason::Data, 8, 3));
/// ```
pub type Refusal = refusal::Refusal<Reason>;

/// The most levels that are taken.
pub const MOST_LEVELS: usize = 2_097_152;

/// Levels as run-length octets.
#[derive(Debug, Clone, PartialEq, Eq)]
pub struct Packed {
    /// The greatest level, under which the octets are read.
    pub v: u8,
    /// The octets.
    pub octets: Vec<u8>,
}

/// Whether octets give exactly `n` levels under `v`, without writing them anywhere.
///
/// ```
/// assert!(polar::runs::check(&[3, 11, 12], 10, 246).is_ok());
/// assert_eq!(polar::runs::check(&[3, 11, 12], 10, 245).unwrap_err().place(), 2);
/// assert_eq!(polar::runs::check(&[3, 11, 12], 10, 247).unwrap_err().place(), 3);
/// ```
pub fn check(octets: &[u8], v: u8, n: usize) -> Result<(), Refusal> {
    Refusal::check(polar_sys::run_check(octets, v.into(), n))
}

/// The `n` levels that octets give under `v`.
///
/// ```
/// assert_eq!(polar::runs::read(&[7, 255, 255], 252, 9)?, [7; 9]);
/// # Ok::<(), polar::runs::Refusal>(())
/// ```
pub fn read(octets: &[u8], v: u8, n: usize) -> Result<Vec<u8>, Refusal> {
    // where n is over the limit the call is refused before it looks at the room
    let mut levels = vec![0; if n > MOST_LEVELS { 0 } else { n }];
    Refusal::check(polar_sys::run_read(octets, v.into(), n, &mut levels))?;
    Ok(levels)
}

/// The octets of levels from 0 to 252. Read under their `v` they give the same levels, and no octets that do, under this `v` or
/// another, are fewer.
///
/// ```
/// let packed = polar::runs::write(&[252; 10])?;
/// assert_eq!((packed.v, &packed.octets[..]), (252, &[252, 253, 253, 254][..]));
/// assert_eq!(polar::runs::read(&packed.octets, packed.v, 10)?, [252; 10]);
/// # Ok::<(), polar::runs::Refusal>(())
/// ```
pub fn write(levels: &[u8]) -> Result<Packed, Refusal> {
    // octets are never more than the levels they stand for
    let mut octets = vec![0; levels.len()];
    let mut answer = [0; 2];
    Refusal::check(polar_sys::run_write(levels, &mut octets, &mut answer))?;
    let [v, length] = answer;
    octets.truncate(length as usize);
    Ok(Packed { v: v as u8, octets })
}
