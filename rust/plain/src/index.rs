//! An index of a cut, a record for each ray; and ray levels and ray values by a record.
use crate::file::{cut, unchecked_cut, Cut};
use crate::rays::{put_levels, put_values};
use crate::runs::Runs;
use crate::{Answer, Refusal};

/// The offset in the data of the level octet whose run holds a ray's first bin, and how many bins of that run came before.
#[derive(Debug, Clone, Copy, PartialEq, Eq, Default)]
pub struct Record {
    pub offset: u32,
    pub before: u32,
}

/// A record for each ray of a cut, in one walk over its runs.
pub fn build(file: &[u8], at: usize, records: &mut [Record]) -> Answer<()> {
    let (_, cut) = cut(file, at)?;
    let records = records.get_mut(..cut.grid.rays).ok_or(Refusal(11, 0))?;
    let mut runs = Runs::new(cut.data, cut.v);
    // the run at hand: its offset and its length; and how many of its bins come before the next ray
    let (mut offset, mut length, mut before) = (0, 0, 0);
    for record in records {
        while before >= length {
            before -= length;
            offset = cut.data.len() - runs.left();
            length = runs.next().map_or(usize::MAX, |(_, length)| length);
        }
        *record = Record { offset: offset as u32, before: before as u32 };
        before += cut.grid.bins;
    }
    Ok(())
}

/// The cut asked for, where it has such a ray.
fn cut_of_ray(file: &[u8], at: usize, ray: usize) -> Answer<(u8, Cut<'_>)> {
    let (product, cut) = unchecked_cut(file, at)?;
    if ray >= cut.grid.rays {
        return Err(Refusal(10, 0));
    }
    Ok((product, cut))
}

/// The runs from a record on, which give a ray's bins past the record's earlier ones.
fn runs_from<'a>(cut: &Cut<'a>, record: Record) -> Answer<Runs<'a>> {
    let refused = Refusal(13, cut.place as u64);
    let octets = cut.data.get(record.offset as usize..).ok_or(refused)?;
    if octets.first().is_none_or(|level| *level > cut.v) {
        return Err(refused);
    }
    let before = record.before as usize;
    let mut bins = 0;
    for (_, length) in Runs::new(octets, cut.v) {
        bins += length;
        // the first run alone holds the earlier bins
        if bins <= before {
            return Err(refused);
        }
        if bins >= before + cut.grid.bins {
            return Ok(Runs::new(octets, cut.v));
        }
    }
    Err(refused)
}

pub fn ray_levels(file: &[u8], cut: usize, ray: usize, record: Record, levels: &mut [u8]) -> Answer<()> {
    let (_, cut) = cut_of_ray(file, cut, ray)?;
    let levels = levels.get_mut(..cut.grid.bins).ok_or(Refusal(11, 0))?;
    put_levels(runs_from(&cut, record)?, record.before as usize, levels);
    Ok(())
}

pub fn ray_values(file: &[u8], cut: usize, ray: usize, record: Record, marks: &mut [u8], values: &mut [i32]) -> Answer<()> {
    let (product, cut) = cut_of_ray(file, cut, ray)?;
    let bins = cut.grid.bins;
    let (marks, values) = marks.get_mut(..bins).zip(values.get_mut(..bins)).ok_or(Refusal(11, 0))?;
    put_values(runs_from(&cut, record)?, record.before as usize, product, marks, values);
    Ok(())
}
