//! The second format: dual-polarisation files, written from FORMAT.md, "Dual-polarisation files", alone.
//!
//! * [`packing`]: what a cell stands for, exactly and as a float
//! * [`layout`], [`calls`]: which octets are an accepted file, and the three calls
//! * [`maker`], [`shapes`], [`cases`]: made files, random sound ones, files with their verdicts
pub mod calls;
pub mod cases;
pub mod layout;
pub mod maker;
pub mod packing;
pub mod shapes;
