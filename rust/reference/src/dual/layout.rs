//! The verdict on any octets: FORMAT.md, "Dual-polarisation files", sections 3, 4, 5 and 7.
use super::packing::Packing;
use crate::frame::{circle, walk, Circle, Format, Section};
use crate::Refusal;

#[derive(Debug, Clone)]
pub struct Cut<'a> {
    pub grid: Circle,
    pub packing: Packing,
    pub data: &'a [u8],
}

impl Cut<'_> {
    /// Z of a bin, or none; bin b of ray r is cell r x Nb + b.
    pub fn cell(&self, ray: usize, bin: usize) -> Option<u64> {
        self.packing.cell(self.data, ray * self.grid.bins + bin)
    }
}

/// An accepted file.
#[derive(Debug, Clone)]
pub struct Accepted<'a> {
    /// octet 11 of the first section 4
    pub parameter: u8,
    /// year, month, day, hour, minute, second
    pub time: [u64; 6],
    pub site: u64,
    pub cuts: Vec<Cut<'a>>,
}

/// The octets that the flags say are stored for each ray: two for each flag, by the flags as read.
fn per_ray(flags: [u8; 2], rays: u64) -> u64 {
    2 * flags.map(u64::from).iter().sum::<u64>() * rays
}

fn are_flags(flags: [u8; 2]) -> bool {
    flags.iter().all(|flag| *flag <= 1)
}

fn section_3(s: &Section) -> Result<Circle, Refusal> {
    let length = s.octets.len() as u64;
    s.check(4, length >= 58)?;
    let flags = [s.octet(53), s.octet(54)];
    s.check(4, length == 58 + per_ray(flags, s.number_at(19..=22)))?;
    let circle = circle(s, 50121)?;
    s.check(5, are_flags(flags))?;
    // a turn at one elevation (PPI): the vertical mode is missing
    s.check(14, s.octet(39) == 0 && s.octet(40) == 255)?;
    s.check(6, s.number_at(7..=10) == circle.points() as u64)?;
    Ok(circle)
}

/// Parameter and site. `first`: those of the first cut, if this is a later one.
fn section_4(s: &Section, grid: &Circle, first: Option<(u8, u64)>) -> Result<(u8, u64), Refusal> {
    let length = s.octets.len() as u64;
    s.check(4, length >= 61)?;
    let flags = [s.octet(56), s.octet(57)];
    // what stands further on has no layout and is carried unread
    s.check(4, length >= 61 + per_ray(flags, grid.rays as u64))?;
    let of_cut = (s.octet(11), s.number_at(28..=29));
    s.check(5, s.number_at(6..=7) == 0)?;
    s.check(5, s.number_at(8..=9) == 51123)?;
    s.check(5, s.octet(10) == 15)?;
    s.check(5, s.octet(12) == 8)?;
    s.check(5, s.octet(13) == 1)?;
    s.check(5, s.octet(32) == 13)?;
    s.check(5, [0, 1, 2, 255].contains(&s.octet(42)))?;
    s.check(5, are_flags(flags))?;
    s.check(5, first.is_none_or(|of_first| of_first == of_cut))?;
    Ok(of_cut)
}

fn section_5(s: &Section, grid: &Circle) -> Result<Packing, Refusal> {
    s.check(4, s.octets.len() == 21)?;
    let (r, e, d, width) = (s.number_at(12..=15) as u32, s.number_at(16..=17), s.number_at(18..=19), s.octet(20));
    s.check(5, s.number_at(10..=11) == 0)?;
    s.check(5, e <= 2)?;
    s.check(5, d <= 4)?;
    // an exponent of all ones is infinite or no number
    s.check(14, r >> 23 & 0xFF != 0xFF)?;
    s.check(14, width == 8 || width == 16)?;
    s.check(6, s.number_at(6..=9) == grid.points() as u64)?;
    Ok(Packing { r, e: e as u16, d: d as u16, width })
}

/// What was last seen of sections 3 and 5, and parameter and site of the first cut.
#[derive(Default)]
struct Seen {
    grid: Option<Circle>,
    packing: Option<Packing>,
    first: Option<(u8, u64)>,
}

impl Seen {
    fn grid(&self) -> Circle {
        self.grid.expect("section 3")
    }
}

impl<'a> Format<'a> for Seen {
    type Cut = Cut<'a>;

    fn section_3(&mut self, s: &Section<'a>) -> Result<(), Refusal> {
        self.grid = Some(section_3(s)?);
        Ok(())
    }

    fn section_4(&mut self, s: &Section<'a>) -> Result<(), Refusal> {
        let of_cut = section_4(s, &self.grid(), self.first)?;
        self.first.get_or_insert(of_cut);
        Ok(())
    }

    fn section_5(&mut self, s: &Section<'a>) -> Result<(), Refusal> {
        self.packing = Some(section_5(s, &self.grid())?);
        Ok(())
    }

    fn section_7(&mut self, s: &Section<'a>) -> Result<Cut<'a>, Refusal> {
        let (grid, packing) = (self.grid(), self.packing.expect("section 5"));
        let data = &s.octets[5..];
        s.check(4, data.len() == packing.octets_of(grid.points()))?;
        Ok(Cut { grid, packing, data })
    }
}

/// Accepted, or refused by the order 1, 2, then section by section 3, 9, 4, 5, 14, 6.
pub fn verdict(file: &[u8]) -> Result<Accepted<'_>, Refusal> {
    let mut seen = Seen::default();
    let (time, cuts) = walk(file, &mut seen)?;
    let (parameter, site) = seen.first.expect("a cut");
    Ok(Accepted { parameter, time, site, cuts })
}
