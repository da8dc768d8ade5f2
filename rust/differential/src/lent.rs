//! Buffers to be lent: filled with a pattern, and standing between guards, so that any store out of place shows.
use polar_sys::RayRecord;
use reference::index::Record;

/// How many elements stand before and after what is lent.
const GUARD: usize = 8;

pub trait Pattern: Copy {
    /// What stands at place `i` before a call.
    fn pattern(i: usize) -> Self;
}

impl Pattern for u8 {
    fn pattern(i: usize) -> u8 {
        (i.wrapping_mul(37) ^ 0xA5) as u8
    }
}

impl Pattern for i32 {
    fn pattern(i: usize) -> i32 {
        i32::MIN + i as i32
    }
}

impl Pattern for u32 {
    fn pattern(i: usize) -> u32 {
        0xA500_0000 + i as u32
    }
}

impl Pattern for RayRecord {
    fn pattern(i: usize) -> RayRecord {
        RayRecord { offset: u32::pattern(i), before: !u32::pattern(i) }
    }
}

impl Pattern for Record {
    fn pattern(i: usize) -> Record {
        let RayRecord { offset, before } = RayRecord::pattern(i);
        Record { offset, before }
    }
}

#[derive(Debug, PartialEq, Eq)]
pub struct Lent<T> {
    all: Vec<T>,
}

impl<T: Pattern> Lent<T> {
    pub fn new(room: usize) -> Self {
        Lent { all: (0..room + 2 * GUARD).map(T::pattern).collect() }
    }

    /// What is lent.
    pub fn room(&mut self) -> &mut [T] {
        let end = self.all.len() - GUARD;
        &mut self.all[GUARD..end]
    }

    /// The same in the other side's words.
    pub fn told<U>(&self, words: impl Fn(T) -> U) -> Lent<U> {
        Lent { all: self.all.iter().map(|element| words(*element)).collect() }
    }
}
