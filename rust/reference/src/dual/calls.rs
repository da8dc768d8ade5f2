//! The three calls: each is lent the whole file and makes all its checks, then 10.
use super::layout::{verdict, Accepted, Cut};
use crate::calls::in_range;
use crate::frame::Circle;
use crate::{refused, Refusal};

#[derive(Debug, Clone, Copy, PartialEq, Eq)]
pub struct Opened {
    pub parameter: u64,
    pub time: [u64; 6],
    pub site: u64,
    pub cuts: usize,
}

pub fn open(file: &[u8]) -> Result<Opened, Refusal> {
    verdict(file).map(|file| file.opened())
}

pub fn cut(file: &[u8], cut: usize) -> Result<Circle, Refusal> {
    verdict(file)?.facts(cut)
}

pub fn bin_value(file: &[u8], cut: usize, ray: usize, bin: usize) -> Result<Option<f64>, Refusal> {
    verdict(file)?.bin_value(cut, ray, bin)
}

/// The calls on a file that is accepted already.
impl<'a> Accepted<'a> {
    pub fn opened(&self) -> Opened {
        Opened { parameter: self.parameter.into(), time: self.time, site: self.site, cuts: self.cuts.len() }
    }

    fn cut(&self, cut: usize) -> Result<&Cut<'a>, Refusal> {
        self.cuts.get(cut).map_or_else(|| refused(10), Ok)
    }

    /// What section 3 says of a cut, from Nb to Dstart.
    pub fn facts(&self, cut: usize) -> Result<Circle, Refusal> {
        self.cut(cut).map(|cut| cut.grid)
    }

    /// Missing, or the value.
    pub fn bin_value(&self, cut: usize, ray: usize, bin: usize) -> Result<Option<f64>, Refusal> {
        let cut = self.cut(cut)?;
        in_range(ray < cut.grid.rays && bin < cut.grid.bins)?;
        Ok(cut.cell(ray, bin).map(|z| cut.packing.value(z)))
    }
}
