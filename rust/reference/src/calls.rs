//! "Calls" on a file: each is lent the whole file and makes all its checks, then 10, then 11.
use crate::layout::{verdict, Accepted, Cut, Grid};
use crate::published::Product;
use crate::{refused, Refusal};

#[derive(Debug, Clone, Copy, PartialEq, Eq)]
pub struct Opened {
    pub product: Product,
    pub time: [u64; 6],
    pub site: u64,
    pub cuts: usize,
}

pub fn open(file: &[u8]) -> Result<Opened, Refusal> {
    let file = verdict(file)?;
    Ok(Opened { product: file.product, time: file.time, site: file.site, cuts: file.cuts.len() })
}

#[derive(Debug, Clone, Copy, PartialEq, Eq)]
pub struct CutFacts {
    pub grid: Grid,
    pub mode: u8,
    pub elevation: Option<i64>,
}

/// 10 where an argument is outside its range
pub(crate) fn in_range(met: bool) -> Result<(), Refusal> {
    if met {
        Ok(())
    } else {
        refused(10)
    }
}

/// 11 where lent room is too short
pub(crate) fn has_room(met: bool) -> Result<(), Refusal> {
    if met {
        Ok(())
    } else {
        refused(11)
    }
}

pub fn cut(file: &[u8], cut: usize) -> Result<CutFacts, Refusal> {
    verdict(file)?.facts(cut)
}

pub fn ray_levels(file: &[u8], cut: usize, ray: usize, levels: &mut [u8]) -> Result<(), Refusal> {
    verdict(file)?.ray_levels(cut, ray, levels)
}

pub fn ray_values(file: &[u8], cut: usize, ray: usize, marks: &mut [u8], values: &mut [i32]) -> Result<(), Refusal> {
    verdict(file)?.ray_values(cut, ray, marks, values)
}

pub fn bin_value(file: &[u8], cut: usize, ray: usize, bin: usize) -> Result<Option<f64>, Refusal> {
    verdict(file)?.bin_value(cut, ray, bin)
}

/// A mark for each level (0 missing, 1 measured), and the value at each measured place; a missing place keeps what it held.
pub(crate) fn put_values(product: Product, levels: &[u8], marks: &mut [u8], values: &mut [i32]) {
    for (bin, level) in levels.iter().enumerate() {
        match product.value(*level) {
            None => marks[bin] = 0,
            Some(value) => (marks[bin], values[bin]) = (1, value),
        }
    }
}

/// The calls on a file that is accepted already.
impl<'a> Accepted<'a> {
    pub(crate) fn cut(&self, cut: usize) -> Result<&Cut<'a>, Refusal> {
        self.cuts.get(cut).map_or_else(|| refused(10), Ok)
    }

    /// The levels of one ray.
    fn ray(&self, cut: usize, ray: usize) -> Result<&[u8], Refusal> {
        let cut = self.cut(cut)?;
        in_range(ray < cut.grid.rays)?;
        Ok(cut.ray(ray))
    }

    pub fn facts(&self, cut: usize) -> Result<CutFacts, Refusal> {
        let cut = self.cut(cut)?;
        Ok(CutFacts { grid: cut.grid, mode: cut.mode, elevation: cut.elevation })
    }

    /// Nb octets at the front of a lent buffer.
    pub fn ray_levels(&self, cut: usize, ray: usize, levels: &mut [u8]) -> Result<(), Refusal> {
        let of_ray = self.ray(cut, ray)?;
        has_room(levels.len() >= of_ray.len())?;
        levels[..of_ray.len()].copy_from_slice(of_ray);
        Ok(())
    }

    pub fn ray_values(&self, cut: usize, ray: usize, marks: &mut [u8], values: &mut [i32]) -> Result<(), Refusal> {
        let of_ray = self.ray(cut, ray)?;
        has_room(marks.len() >= of_ray.len() && values.len() >= of_ray.len())?;
        put_values(self.product, of_ray, marks, values);
        Ok(())
    }

    /// Missing, or the whole value taken over exactly and divided once by 100.
    pub fn bin_value(&self, cut: usize, ray: usize, bin: usize) -> Result<Option<f64>, Refusal> {
        let of_ray = self.ray(cut, ray)?;
        in_range(bin < of_ray.len())?;
        Ok(self.product.value(of_ray[bin]).map(|value| f64::from(value) / 100.0))
    }
}
