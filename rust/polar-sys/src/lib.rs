//! The one boundary to the proved library: each of its C functions as a safe function on slices, in the words of
//! `include/polar.h`. Nothing else in this workspace is unsafe. Tests hold [`DECLARATIONS`] and [`SHAPES`] to the
//! header and to the library's source.
//!
//! Each function returns 0, or a refusal in one word, which [`number`] and [`place`] read. What is lent, answers and buffers,
//! changes only where nothing is refused.
#![deny(unsafe_op_in_unsafe_fn)]

/// The number of the refusal that a call returned; 0 where it refused nothing.
#[inline]
pub const fn number(returned: u64) -> u32 {
    (returned & 0xFF) as u32
}

/// The place of the refusal that a call returned.
#[inline]
pub const fn place(returned: u64) -> u64 {
    returned >> 8
}

/// Words to an entry of the stretch list: ray, first bin, length, kind.
pub const ENTRY_WORDS: usize = 4;

/// A declaration on this side of the boundary, as text.
pub struct Declaration {
    pub name: &'static str,
    /// names and types
    pub arguments: &'static [(&'static str, &'static str)],
    pub result: &'static str,
}

macro_rules! declare {
    ($(fn $name:ident($($argument:ident: $type:ty),*) -> $result:ty;)*) => {
        extern "C" {
            $(fn $name($($argument: $type),*) -> $result;)*
        }
        /// Every declaration that this boundary is linked by.
        pub const DECLARATIONS: &[Declaration] = &[$(Declaration {
            name: stringify!($name),
            arguments: &[$((stringify!($argument), stringify!($type))),*],
            result: stringify!($result),
        }),*];
    };
}

/// A struct of both sides, as text.
pub struct Shape {
    pub name: &'static str,
    /// names and types
    pub fields: &'static [(&'static str, &'static str)],
}

macro_rules! shape {
    ($(#[$about:meta])* struct $name:ident { $($(#[$about_field:meta])* $field:ident: $type:ty,)* }) => {
        $(#[$about])*
        #[repr(C)]
        #[derive(Debug, Clone, Copy, Default, PartialEq, Eq, Hash)]
        pub struct $name {
            $($(#[$about_field])* pub $field: $type,)*
        }
        /// Every struct that this boundary is linked by.
        pub const SHAPES: &[Shape] = &[Shape { name: stringify!($name), fields: &[$((stringify!($field), stringify!($type))),*] }];
    };
}

shape! {
    /// Where a ray begins in its cut's data, which is section 7 from octet 6 on.
    struct RayRecord {
        /// The offset in the data of the level octet whose run holds the ray's first bin.
        offset: u32,
        /// How many bins of that run came before.
        before: u32,
    }
}

declare! {
    fn polar_run_check(octets: *const u8, octets_len: usize, v: u64, n: usize) -> u64;
    fn polar_run_read(octets: *const u8, octets_len: usize, v: u64, n: usize, levels: *mut u8, room: usize) -> u64;
    fn polar_run_write(levels: *const u8, n: usize, octets: *mut u8, room: usize, answer: *mut [u64; 2]) -> u64;
    fn polar_open(file: *const u8, len: usize, answer: *mut [u64; 9]) -> u64;
    fn polar_cut(file: *const u8, len: usize, cut: usize, answer: *mut [i64; 10]) -> u64;
    fn polar_ray_levels(file: *const u8, len: usize, cut: usize, ray: usize, levels: *mut u8, room: usize) -> u64;
    fn polar_ray_values(file: *const u8, len: usize, cut: usize, ray: usize, marks: *mut u8, marks_room: usize, values: *mut i32, values_room: usize) -> u64;
    fn polar_build_index(file: *const u8, len: usize, cut: usize, records: *mut RayRecord, room: usize) -> u64;
    fn polar_ray_levels_from(file: *const u8, len: usize, cut: usize, ray: usize, offset: u32, before: u32, levels: *mut u8, room: usize) -> u64;
    fn polar_ray_values_from(file: *const u8, len: usize, cut: usize, ray: usize, offset: u32, before: u32, marks: *mut u8, marks_room: usize, values: *mut i32, values_room: usize) -> u64;
    fn polar_bin_value(file: *const u8, len: usize, cut: usize, ray: usize, bin: usize, value: *mut f64, answer: *mut [u64; 1]) -> u64;
    fn polar_stretches(file: *const u8, len: usize, cut: usize, t: i64, ray: usize, bin: usize, words: *mut u32, room: usize, answer: *mut [u64; 3]) -> u64;
    fn polar_house_stretches(file: *const u8, len: usize, cut: usize, ray: usize, bin: usize, words: *mut u32, room: usize, answer: *mut [u64; 3]) -> u64;
    fn polar_dual_open(file: *const u8, len: usize, answer: *mut [u64; 9]) -> u64;
    fn polar_dual_cut(file: *const u8, len: usize, cut: usize, answer: *mut [i64; 6]) -> u64;
    fn polar_dual_bin_value(file: *const u8, len: usize, cut: usize, ray: usize, bin: usize, value: *mut f64, answer: *mut [u64; 1]) -> u64;
}

// Each call below hands on a slice as its pointer and its length, and an array as its pointer: memory that is there for as
// long as the call, and that nobody else changes meanwhile. The proved library asks nothing more of its caller. A record's two
// words may be any.

/// What run read would find in `octets`, with nothing lent.
#[inline]
pub fn run_check(octets: &[u8], v: u64, n: usize) -> u64 {
    unsafe { polar_run_check(octets.as_ptr(), octets.len(), v, n) }
}

/// `n` levels at the front of `levels`.
#[inline]
pub fn run_read(octets: &[u8], v: u64, n: usize, levels: &mut [u8]) -> u64 {
    unsafe { polar_run_read(octets.as_ptr(), octets.len(), v, n, levels.as_mut_ptr(), levels.len()) }
}

/// Octets at the front of `octets`. Answer: V, number of octets.
#[inline]
pub fn run_write(levels: &[u8], octets: &mut [u8], answer: &mut [u64; 2]) -> u64 {
    unsafe { polar_run_write(levels.as_ptr(), levels.len(), octets.as_mut_ptr(), octets.len(), answer) }
}

/// Answer: product, year, month, day, hour, minute, second, site, number of cuts.
#[inline]
pub fn open(file: &[u8], answer: &mut [u64; 9]) -> u64 {
    unsafe { polar_open(file.as_ptr(), file.len(), answer) }
}

/// Answer: Nb, Nr, latitude, longitude, Dx, Dstart, start azimuth, mode of operation, whether the elevation is known,
/// and the elevation constant (unchanged where it is missing).
#[inline]
pub fn cut(file: &[u8], cut: usize, answer: &mut [i64; 10]) -> u64 {
    unsafe { polar_cut(file.as_ptr(), file.len(), cut, answer) }
}

/// Nb levels at the front of `levels`.
#[inline]
pub fn ray_levels(file: &[u8], cut: usize, ray: usize, levels: &mut [u8]) -> u64 {
    unsafe { polar_ray_levels(file.as_ptr(), file.len(), cut, ray, levels.as_mut_ptr(), levels.len()) }
}

/// Nb marks at the front of `marks` and, at each measured place, the value in `values`.
#[inline]
pub fn ray_values(file: &[u8], cut: usize, ray: usize, marks: &mut [u8], values: &mut [i32]) -> u64 {
    unsafe { polar_ray_values(file.as_ptr(), file.len(), cut, ray, marks.as_mut_ptr(), marks.len(), values.as_mut_ptr(), values.len()) }
}

/// A record for each ray of a cut at the front of `records`.
#[inline]
pub fn build_index(file: &[u8], cut: usize, records: &mut [RayRecord]) -> u64 {
    unsafe { polar_build_index(file.as_ptr(), file.len(), cut, records.as_mut_ptr(), records.len()) }
}

/// The Nb levels that decoding from a record gives, at the front of `levels`.
#[inline]
pub fn ray_levels_from(file: &[u8], cut: usize, ray: usize, record: RayRecord, levels: &mut [u8]) -> u64 {
    let RayRecord { offset, before } = record;
    unsafe { polar_ray_levels_from(file.as_ptr(), file.len(), cut, ray, offset, before, levels.as_mut_ptr(), levels.len()) }
}

/// The same bins' marks at the front of `marks` and, at each measured place, the value in `values`.
#[inline]
pub fn ray_values_from(file: &[u8], cut: usize, ray: usize, record: RayRecord, marks: &mut [u8], values: &mut [i32]) -> u64 {
    let RayRecord { offset, before } = record;
    let (marks, marks_room, values, values_room) = (marks.as_mut_ptr(), marks.len(), values.as_mut_ptr(), values.len());
    unsafe { polar_ray_values_from(file.as_ptr(), file.len(), cut, ray, offset, before, marks, marks_room, values, values_room) }
}

/// Answer: the mark. The value is set only where the mark is 1.
#[inline]
pub fn bin_value(file: &[u8], cut: usize, ray: usize, bin: usize, value: &mut f64, answer: &mut [u64; 1]) -> u64 {
    unsafe { polar_bin_value(file.as_ptr(), file.len(), cut, ray, bin, value, answer) }
}

/// Entries of [`ENTRY_WORDS`] words at the front of `words`. Answer: count of entries, next ray, next bin.
#[inline]
pub fn stretches(file: &[u8], cut: usize, t: i64, point: (usize, usize), words: &mut [u32], answer: &mut [u64; 3]) -> u64 {
    unsafe { polar_stretches(file.as_ptr(), file.len(), cut, t, point.0, point.1, words.as_mut_ptr(), words.len(), answer) }
}

/// The same at the house threshold.
#[inline]
pub fn house_stretches(file: &[u8], cut: usize, point: (usize, usize), words: &mut [u32], answer: &mut [u64; 3]) -> u64 {
    unsafe { polar_house_stretches(file.as_ptr(), file.len(), cut, point.0, point.1, words.as_mut_ptr(), words.len(), answer) }
}

/// Open of a dual-polarisation file. Answer: parameter, year, month, day, hour, minute, second, site, number of cuts.
#[inline]
pub fn dual_open(file: &[u8], answer: &mut [u64; 9]) -> u64 {
    unsafe { polar_dual_open(file.as_ptr(), file.len(), answer) }
}

/// A cut of a dual-polarisation file. Answer: Nb, Nr, latitude, longitude, Dx, Dstart.
#[inline]
pub fn dual_cut(file: &[u8], cut: usize, answer: &mut [i64; 6]) -> u64 {
    unsafe { polar_dual_cut(file.as_ptr(), file.len(), cut, answer) }
}

/// A bin of a dual-polarisation file. Answer: the mark. The value is set only where the mark is 1.
#[inline]
pub fn dual_bin_value(file: &[u8], cut: usize, ray: usize, bin: usize, value: &mut f64, answer: &mut [u64; 1]) -> u64 {
    unsafe { polar_dual_bin_value(file.as_ptr(), file.len(), cut, ray, bin, value, answer) }
}
