//! Where the rays of a cut begin in its data, so that none has to be read from the front.
//!
//! [`records`] builds an index of a cut of an accepted file: a [`RayRecord`] for each ray. [`ray_levels`] and [`ray_values`]
//! read a ray from a record, and with the ray's own record they answer what the plain calls do. They make every check of the
//! file but one: they look at no data but the ray's. So they read a file whose data is spoiled elsewhere, which [`File::open`]
//! refuses; and any record at all may be handed in, of another ray or of no ray: the answer is what decoding from there gives.
//!
//! [`Cut::rays`] goes by records; [`Cut::records`] and [`Cut::ray_from`] are the same calls on an accepted file.
//!
//! ```
//! use polar::{index, File, Reason, RayRecord};
//!
//! let mut octets = *include_bytes!("../../../samples/document01.bin");
//! let mut records = [RayRecord::default(); 2];
//! index::records(&octets, 0, &mut records)?;
//! assert_eq!(records, [RayRecord { offset: 0, before: 0 }, RayRecord { offset: 2, before: 3 }]);
//!
//! // the last octet of the data is spoiled: a digit, where a level stood
//! octets[684] = 255;
//! assert_eq!(File::open(&octets).unwrap_err().reason(), Reason::Data);
//! let mut levels = [0; 5];
//! index::ray_levels(&octets, 0, 0, records[0], &mut levels)?;
//! assert_eq!(levels, [0, 0, 130, 130, 130]);
//!
//! // four bins of level 130 stand there, and none of them is a fifth
//! let refusal = index::ray_levels(&octets, 0, 0, RayRecord { offset: 2, before: 4 }, &mut levels).unwrap_err();
//! assert_eq!((refusal.reason(), refusal.place()), (Reason::Record, 673));
//! # Ok::<(), polar::Refusal>(())
//! ```
//!
//! [`File::open`]: crate::File::open
//! [`Cut::rays`]: crate::Cut::rays
//! [`Cut::records`]: crate::Cut::records
//! [`Cut::ray_from`]: crate::Cut::ray_from
use crate::Refusal;
pub use polar_sys::RayRecord;

/// A record for each ray of a cut of an accepted file, at the front of `records`;
/// [`Reason::Room`](crate::Reason::Room) where these are fewer than its rays.
pub fn records(octets: &[u8], cut: usize, records: &mut [RayRecord]) -> Result<(), Refusal> {
    Refusal::check(polar_sys::build_index(octets, cut, records))
}

/// The levels of a ray from a record on, at the front of `levels`, as many as a ray has bins; level 0 is missing.
///
/// Where the file, but for its data, is refused, or there is no such cut or ray, or too little room, that refusal comes
/// first; then [`Reason::Record`](crate::Reason::Record). The ray takes no other part.
pub fn ray_levels(octets: &[u8], cut: usize, ray: usize, record: RayRecord, levels: &mut [u8]) -> Result<(), Refusal> {
    Refusal::check(polar_sys::ray_levels_from(octets, cut, ray, record, levels))
}

/// The same bins as marks, 0 missing and 1 measured, at the front of `marks`, and at each measured place the value in
/// hundredths in `values`; a missing place of `values` keeps what it held.
///
/// ```
/// use polar::{index, RayRecord};
///
/// let octets = include_bytes!("../../../samples/document01.bin");
/// let (mut marks, mut values) = ([9; 6], [9; 6]);
/// index::ray_values(octets, 0, 1, RayRecord { offset: 2, before: 3 }, &mut marks, &mut values)?;
/// assert_eq!((marks, values), ([1, 1, 1, 1, 0, 9], [4112, 0, 0, 0, 9, 9]));
/// # Ok::<(), polar::Refusal>(())
/// ```
pub fn ray_values(octets: &[u8], cut: usize, ray: usize, record: RayRecord, marks: &mut [u8], values: &mut [i32]) -> Result<(), Refusal> {
    Refusal::check(polar_sys::ray_values_from(octets, cut, ray, record, marks, values))
}
