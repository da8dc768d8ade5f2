//! One iterator for all that stands in a file in order: the cuts of a file and the rays of a cut, in both formats.
use std::fmt;
use std::iter::FusedIterator;
use std::ops::Range;

/// What has items by index, all of them there. Its module is private: nobody else has such items.
pub trait Source {
    /// What stands at an index.
    type Item;

    /// The item at an index that is in range.
    fn item(&self, index: usize) -> Self::Item;
}

/// Items in the order of the file, each read as it is come to. `nth` and `rev` read none of those that they pass over.
#[derive(Clone)]
pub struct Indexed<S> {
    source: S,
    left: Range<usize>,
}

impl<S> Indexed<S> {
    pub(crate) fn new(source: S, count: usize) -> Self {
        Indexed { source, left: 0..count }
    }
}

impl<S> fmt::Debug for Indexed<S> {
    fn fmt(&self, f: &mut fmt::Formatter<'_>) -> fmt::Result {
        f.debug_struct("Indexed").field("left", &self.left).finish_non_exhaustive()
    }
}

impl<S: Source> Iterator for Indexed<S> {
    type Item = S::Item;

    fn next(&mut self) -> Option<S::Item> {
        self.left.next().map(|index| self.source.item(index))
    }

    fn nth(&mut self, n: usize) -> Option<S::Item> {
        self.left.nth(n).map(|index| self.source.item(index))
    }

    fn size_hint(&self) -> (usize, Option<usize>) {
        self.left.size_hint()
    }
}

impl<S: Source> DoubleEndedIterator for Indexed<S> {
    fn next_back(&mut self) -> Option<S::Item> {
        self.left.next_back().map(|index| self.source.item(index))
    }
}

impl<S: Source> ExactSizeIterator for Indexed<S> {}
impl<S: Source> FusedIterator for Indexed<S> {}
