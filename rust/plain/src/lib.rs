//! The calls of the base format, those by a record and those on dual-polarisation files as one would write them in Rust for speed, with
//! the same checks and the same work as the proved library: the yardstick of the benchmark. Its own tests hold it to the
//! independent reader.
pub mod dual;
pub mod file;
pub mod frame;
pub mod index;
pub mod lister;
pub mod rays;
pub mod runs;
pub mod stretches;

/// A refusal's number and place.
#[derive(Debug, Clone, Copy, PartialEq, Eq)]
pub struct Refusal(pub u32, pub u64);

pub type Answer<T> = Result<T, Refusal>;
