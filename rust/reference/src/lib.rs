//! A second view of what polar radar files mean, written from the rules of docs/FORMAT.md alone and by other means than
//! the proved library: whole decoded cuts, iterators, exact arithmetic, no concern for speed. The tests hold the proved library to it.
//!
//! * [`octets`], [`published`], [`runs`]: numbers in a file, published values, the run-length rule
//! * [`frame`], [`layout`]: which octets are an accepted file, and how any others are refused
//! * [`calls`], [`stretches`], [`lister`]: the calls and the text of the list
//! * [`maker`], [`shapes`], [`scene`], [`cases`], [`spoil`]: made files, random sound ones, weather, files with their verdicts,
//!   spoiled files
//! * [`index`]: a record for each ray, and the ray calls by a record, with their own cases and shapes
//! * [`dual`]: the second format, dual-polarisation files, with all of the above for itself
//! * [`exact`]: whole numbers of any size, and floats as what they are exactly
//! * [`samples`]: what samples/ and the two programs' crates store
//! * [`numbers`]: numbers that look random and are the same in every run
pub mod calls;
pub mod cases;
pub mod dual;
pub mod exact;
pub mod frame;
pub mod index;
pub mod layout;
pub mod lister;
pub mod maker;
pub mod numbers;
pub mod octets;
pub mod published;
pub mod runs;
pub mod samples;
pub mod scene;
pub mod shapes;
pub mod spoil;
pub mod stretches;

/// A refusal's number, with its place.
#[derive(Debug, Clone, Copy, PartialEq, Eq)]
pub struct Refusal {
    pub number: u32,
    pub place: u64,
}

/// A refusal that concerns no section.
pub(crate) fn refused<T>(number: u32) -> Result<T, Refusal> {
    refused_at(number, 0)
}

pub(crate) fn refused_at<T>(number: u32, place: usize) -> Result<T, Refusal> {
    Err(Refusal { number, place: place as u64 })
}
