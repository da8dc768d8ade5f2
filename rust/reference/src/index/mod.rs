//! FORMAT.md, "Rays by a record": for a cut an index, a record for each ray, and the two ray calls by a record.
pub mod cases;
pub mod shapes;

use crate::calls::{has_room, in_range, put_values};
use crate::layout::{unchecked, verdict, Accepted, Cut, Unchecked, UncheckedCut};
use crate::runs::{each_run, runs, Run};
use crate::{refused, refused_at, Refusal};
use std::iter;

/// Where a ray begins in its cut's data.
#[derive(Debug, Clone, Copy, PartialEq, Eq)]
pub struct Record {
    /// the offset in the data of the level octet whose run holds the ray's first bin
    pub offset: u32,
    /// how many bins of that run came before
    pub before: u32,
}

impl Cut<'_> {
    /// The cut's index: a record for each ray.
    pub fn index(&self) -> Vec<Record> {
        let runs = runs(self.data, self.v).expect("an accepted cut");
        // the octet and the bin at which each run begins
        let begin = |at: &mut (usize, u128), run: &Run| {
            let here = *at;
            *at = (at.0 + run.octets, at.1 + run.length);
            Some(here)
        };
        let begins: Vec<(usize, u128)> = runs.iter().scan((0, 0), begin).collect();
        let record = |ray: usize| {
            let bin = (ray * self.grid.bins) as u128;
            let (octet, first) = begins[begins.partition_point(|(_, first)| *first <= bin) - 1];
            Record { offset: octet as u32, before: (bin - first) as u32 }
        };
        (0..self.grid.rays).map(record).collect()
    }
}

impl UncheckedCut<'_> {
    /// The run that begins at an offset and those that follow it; none where no run begins there.
    fn runs_from(&self, offset: usize) -> Option<(Run, impl Iterator<Item = Run> + '_)> {
        let mut runs = each_run(self.data.get(offset..)?, self.v)?;
        runs.next().map(|first| (first, runs))
    }

    /// The Nb bins from a record on; none where the record is none of this data.
    fn levels_from(&self, record: Record) -> Option<Vec<u8>> {
        let (first, later) = self.runs_from(record.offset as usize)?;
        let left = first.length.checked_sub(record.before.into()).filter(|left| *left > 0)?;
        let bins = self.grid.bins;
        let runs = iter::once(Run { length: left, ..first }).chain(later);
        let levels: Vec<u8> = runs.flat_map(|run| iter::repeat_n(run.level, run.length.min(bins as u128) as usize)).take(bins).collect();
        (levels.len() == bins).then_some(levels)
    }

    /// The same, or refusal 13 at section 7.
    fn ray_from(&self, record: Record) -> Result<Vec<u8>, Refusal> {
        self.levels_from(record).map_or_else(|| refused_at(13, self.place), Ok)
    }
}

impl Accepted<'_> {
    /// A record for each ray at the front of a lent row.
    pub fn build_index(&self, cut: usize, records: &mut [Record]) -> Result<(), Refusal> {
        let index = self.cut(cut)?.index();
        has_room(records.len() >= index.len())?;
        records[..index.len()].copy_from_slice(&index);
        Ok(())
    }
}

impl<'a> Unchecked<'a> {
    /// The cut, where it has such a ray.
    fn cut_of_ray(&self, cut: usize, ray: usize) -> Result<&UncheckedCut<'a>, Refusal> {
        let cut = self.cuts.get(cut).map_or_else(|| refused(10), Ok)?;
        in_range(ray < cut.grid.rays)?;
        Ok(cut)
    }

    pub fn ray_levels_from(&self, cut: usize, ray: usize, record: Record, levels: &mut [u8]) -> Result<(), Refusal> {
        let cut = self.cut_of_ray(cut, ray)?;
        has_room(levels.len() >= cut.grid.bins)?;
        levels[..cut.grid.bins].copy_from_slice(&cut.ray_from(record)?);
        Ok(())
    }

    pub fn ray_values_from(&self, cut: usize, ray: usize, record: Record, marks: &mut [u8], values: &mut [i32]) -> Result<(), Refusal> {
        let cut = self.cut_of_ray(cut, ray)?;
        has_room(marks.len() >= cut.grid.bins && values.len() >= cut.grid.bins)?;
        put_values(self.product, &cut.ray_from(record)?, marks, values);
        Ok(())
    }
}

/// All the file's checks, then 10, then 11.
pub fn build_index(file: &[u8], cut: usize, records: &mut [Record]) -> Result<(), Refusal> {
    verdict(file)?.build_index(cut, records)
}

/// All the file's checks but 8, then 10, then 11, then 13.
pub fn ray_levels_from(file: &[u8], cut: usize, ray: usize, record: Record, levels: &mut [u8]) -> Result<(), Refusal> {
    unchecked(file)?.ray_levels_from(cut, ray, record, levels)
}

/// The same checks.
pub fn ray_values_from(file: &[u8], cut: usize, ray: usize, record: Record, marks: &mut [u8], values: &mut [i32]) -> Result<(), Refusal> {
    unchecked(file)?.ray_values_from(cut, ray, record, marks, values)
}
