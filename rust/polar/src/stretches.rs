//! The stretch list of a cut, fetched in portions.
use crate::{Cut, Refusal, Threshold};
use polar_sys::ENTRY_WORDS;
use std::fmt;
use std::iter::FusedIterator;
use std::mem;

/// Entries in the first portion, and in the largest. Each portion is a call on the whole file: where a list turns out long,
/// portions grow.
const FIRST_PORTION: usize = 1 << 10;
const LARGEST_PORTION: usize = 1 << 18;

/// What the bins of a stretch are.
#[derive(Debug, Clone, Copy, PartialEq, Eq, PartialOrd, Ord, Hash)]
#[non_exhaustive]
pub enum Kind {
    /// Out of range or missing: there is no number.
    Missing = 0,
    /// The value is below the threshold.
    Under = 1,
    /// The value is at or above the threshold.
    Over = 2,
}

impl Kind {
    /// All kinds, in the order of their numbers.
    pub const ALL: &'static [Kind] = &[Kind::Missing, Kind::Under, Kind::Over];

    /// Its number, from 0 on: its place in [`Kind::ALL`].
    pub fn number(self) -> usize {
        self as usize
    }
}

impl fmt::Display for Kind {
    fn fmt(&self, f: &mut fmt::Formatter<'_>) -> fmt::Result {
        f.pad(match self {
            Kind::Missing => "missing",
            Kind::Under => "under",
            Kind::Over => "over",
        })
    }
}

/// A longest stretch of bins of one kind on one ray.
#[derive(Debug, Clone, Copy, PartialEq, Eq, Hash)]
#[non_exhaustive]
pub struct Stretch {
    /// The ray.
    pub ray: usize,
    /// Its first bin.
    pub first: usize,
    /// How many bins it has, at least 1.
    pub length: usize,
    /// What they are.
    pub kind: Kind,
}

impl Stretch {
    /// A stretch as it would stand in a list, for what is made of lists to be tried without a file.
    pub fn new(ray: usize, first: usize, length: usize, kind: Kind) -> Stretch {
        Stretch { ray, first, length, kind }
    }
}

/// The stretches of a cut, by ray and then by first bin.
///
/// ```
/// use polar::{File, Kind, Stretch, Threshold};
///
/// let file = File::open(include_bytes!("../../../samples/document01.bin"))?;
/// let first = file.cut(0)?.stretches(Threshold::from_dbz(40.0)?).next();
/// assert_eq!(first, Some(Stretch::new(0, 0, 2, Kind::Missing)));
/// # Ok::<(), Box<dyn std::error::Error>>(())
/// ```
#[derive(Clone)]
pub struct Stretches<'a> {
    cut: Cut<'a>,
    threshold: Threshold,
    words: Vec<u32>,
    /// the words of `words` that are still to be handed out
    at: usize,
    end: usize,
    /// where the next portion begins
    point: (usize, usize),
}

impl fmt::Debug for Stretches<'_> {
    fn fmt(&self, f: &mut fmt::Formatter<'_>) -> fmt::Result {
        let Stretches { cut, threshold, point, .. } = self;
        f.debug_struct("Stretches").field("cut", cut).field("threshold", threshold).field("point", point).finish_non_exhaustive()
    }
}

impl<'a> Stretches<'a> {
    pub(crate) fn new(cut: Cut<'a>, threshold: Threshold) -> Self {
        let mut list = Stretches { cut, threshold, words: vec![0; ENTRY_WORDS * FIRST_PORTION], at: 0, end: 0, point: (0, 0) };
        list.fetch();
        list
    }

    /// The portion from `point` on. A cut of an accepted file, a threshold and a point of its own: nothing is refused.
    fn fetch(&mut self) {
        let mut answer = [0; 3];
        let t = self.threshold.hundredths().0.into();
        let returned = polar_sys::stretches(self.cut.file().octets(), self.cut.index(), t, self.point, &mut self.words, &mut answer);
        let [count, ray, bin] = answer;
        Refusal::check(returned).expect("a portion of an accepted file's list");
        (self.at, self.end, self.point) = (0, ENTRY_WORDS * count as usize, (ray as usize, bin as usize));
    }
}

impl Iterator for Stretches<'_> {
    type Item = Stretch;

    fn next(&mut self) -> Option<Stretch> {
        if self.at == self.end {
            if self.point == (self.cut.grid().rays, 0) {
                return None;
            }
            // the words are not read again, so the longer room need not keep them
            let longer = (2 * self.words.len()).min(ENTRY_WORDS * LARGEST_PORTION);
            if self.words.len() < longer {
                drop(mem::take(&mut self.words));
                self.words = vec![0; longer];
            }
            self.fetch();
        }
        let entry = self.words[self.at..self.end].first_chunk::<ENTRY_WORDS>()?;
        self.at += ENTRY_WORDS;
        let [ray, first, length, kind] = entry.map(|word| word as usize);
        Some(Stretch { ray, first, length, kind: Kind::ALL[kind] })
    }
}

impl FusedIterator for Stretches<'_> {}
