//! Ray levels, ray values and bin value: a walk over the runs up to the bins asked for.
use crate::file::{cut, cuts, value, Cut};
use crate::runs::Runs;
use crate::{Answer, Refusal};

/// The value of each level, by product.
static VALUES: [[i32; 256]; 2] = [values(1), values(2)];

const fn values(product: u8) -> [i32; 256] {
    let mut all = [0; 256];
    let mut level = 0;
    while level < 253 {
        all[level] = value(product, level as u8);
        level += 1;
    }
    all
}

/// Hands on the runs of `len` bins from bin `first`, each with its place among them.
fn each_run(runs: Runs, first: usize, len: usize, mut on_run: impl FnMut(u8, usize, usize)) {
    let mut skip = first;
    let mut at = 0;
    for (level, length) in runs {
        if length <= skip {
            skip -= length;
            continue;
        }
        let part = (length - skip).min(len - at);
        on_run(level, at, part);
        skip = 0;
        at += part;
        if at == len {
            break;
        }
    }
}

/// The levels of as many bins from bin `first`.
pub(crate) fn put_levels(runs: Runs, first: usize, levels: &mut [u8]) {
    each_run(runs, first, levels.len(), |level, at, len| levels[at..at + len].fill(level));
}

/// The marks and values of as many bins from bin `first`.
pub(crate) fn put_values(runs: Runs, first: usize, product: u8, marks: &mut [u8], values: &mut [i32]) {
    let table = &VALUES[usize::from(product) - 1];
    each_run(runs, first, marks.len(), |level, at, len| {
        marks[at..at + len].fill(u8::from(level > 0));
        if level > 0 {
            values[at..at + len].fill(table[usize::from(level)]);
        }
    });
}

fn ray_of(file: &[u8], at: usize, ray: usize) -> Answer<(u8, Cut<'_>)> {
    let (product, cut) = cut(file, at)?;
    if ray >= cut.grid.rays {
        return Err(Refusal(10, 0));
    }
    Ok((product, cut))
}

pub fn ray_levels(file: &[u8], cut: usize, ray: usize, levels: &mut [u8]) -> Answer<()> {
    let (_, cut) = ray_of(file, cut, ray)?;
    let bins = cut.grid.bins;
    if levels.len() < bins {
        return Err(Refusal(11, 0));
    }
    put_levels(Runs::new(cut.data, cut.v), ray * bins, &mut levels[..bins]);
    Ok(())
}

pub fn ray_values(file: &[u8], cut: usize, ray: usize, marks: &mut [u8], values: &mut [i32]) -> Answer<()> {
    let (product, cut) = ray_of(file, cut, ray)?;
    let bins = cut.grid.bins;
    if marks.len() < bins || values.len() < bins {
        return Err(Refusal(11, 0));
    }
    put_values(Runs::new(cut.data, cut.v), ray * bins, product, &mut marks[..bins], &mut values[..bins]);
    Ok(())
}

pub fn bin_value(file: &[u8], cut: usize, ray: usize, bin: usize) -> Answer<Option<f64>> {
    let (product, cut) = ray_of(file, cut, ray)?;
    if bin >= cut.grid.bins {
        return Err(Refusal(10, 0));
    }
    let mut found = 0;
    each_run(Runs::new(cut.data, cut.v), ray * cut.grid.bins + bin, 1, |level, _, _| found = level);
    let value = VALUES[usize::from(product) - 1][usize::from(found)];
    Ok((found > 0).then(|| f64::from(value) / 100.0))
}

/// The levels of every ray of every cut, one after the other: each cut is decoded once.
pub fn all_levels(file: &[u8], levels: &mut [u8]) -> Answer<()> {
    let (_, cuts) = cuts(file)?;
    if levels.len() < points(&cuts) {
        return Err(Refusal(11, 0));
    }
    let mut rest = levels;
    for cut in &cuts {
        let (of_cut, after) = rest.split_at_mut(cut.grid.bins * cut.grid.rays);
        put_levels(Runs::new(cut.data, cut.v), 0, of_cut);
        rest = after;
    }
    Ok(())
}

/// The marks and values of every ray of every cut, one after the other: each cut is decoded once.
pub fn all_values(file: &[u8], marks: &mut [u8], values: &mut [i32]) -> Answer<()> {
    let (product, cuts) = cuts(file)?;
    if marks.len().min(values.len()) < points(&cuts) {
        return Err(Refusal(11, 0));
    }
    let mut rest = (marks, values);
    for cut in &cuts {
        let bins = cut.grid.bins * cut.grid.rays;
        let ((marks, marks_after), (values, values_after)) = (rest.0.split_at_mut(bins), rest.1.split_at_mut(bins));
        put_values(Runs::new(cut.data, cut.v), 0, product, marks, values);
        rest = (marks_after, values_after);
    }
    Ok(())
}

/// The bins of all cuts.
fn points(cuts: &[Cut]) -> usize {
    cuts.iter().map(|cut| cut.grid.bins * cut.grid.rays).sum()
}
