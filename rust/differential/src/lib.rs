//! The proved library held to the independent reader: the same call on both, with buffers that were filled with a pattern
//! and are compared whole, with what stands before and after them.
pub mod compare;
pub mod dual;
pub mod lent;
pub mod made;
pub mod ours;
