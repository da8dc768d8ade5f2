//! Dual-polarisation files: their sections 3, 4, 5 and 7, open, cut and bin value.
use crate::frame::{self, be16, be32, Format, Grid, Opened};
use crate::{Answer, Refusal};

/// What a section 5 says: Y x 10^D = R + Z x 2^E.
#[derive(Clone, Copy, Default)]
struct Packing {
    r: f32,
    e: u16,
    ten_to_the_d: f64,
    octets_a_cell: usize,
}

#[derive(Default)]
struct Dual {
    grid: Grid,
    packing: Packing,
}

pub struct Cut<'a> {
    pub grid: Grid,
    packing: Packing,
    data: &'a [u8],
}

/// The octets that flags say are stored for the rays.
fn stored(flags: &[u8], rays: usize) -> usize {
    2 * rays * (usize::from(flags[0]) + usize::from(flags[1]))
}

fn are_flags(flags: &[u8]) -> bool {
    flags[0] <= 1 && flags[1] <= 1
}

impl<'a> Format<'a> for Dual {
    type Cut = Cut<'a>;

    fn section_3(&mut self, s: &[u8]) -> Result<(), u32> {
        if s.len() < 58 || s.len() != 58 + stored(&s[52..54], be32(s, 19) as usize) {
            return Err(4);
        }
        self.grid = Grid::read(s, 50121)?;
        if !are_flags(&s[52..54]) {
            return Err(5);
        }
        if s[38..40] != [0, 255] {
            return Err(14);
        }
        self.grid.check_points(s, 7)
    }

    fn section_4(&mut self, s: &[u8]) -> Result<(u8, u16), u32> {
        if s.len() < 61 || s.len() < 61 + stored(&s[55..57], self.grid.rays) {
            return Err(4);
        }
        let met = be16(s, 6) == 0
            && be16(s, 8) == 51123
            && s[9] == 15
            && s[11..13] == [8, 1]
            && s[31] == 13
            && matches!(s[41], 0 | 1 | 2 | 255)
            && are_flags(&s[55..57]);
        if !met {
            return Err(5);
        }
        Ok((s[10], be16(s, 28)))
    }

    fn section_5(&mut self, s: &[u8]) -> Result<(), u32> {
        if s.len() != 21 {
            return Err(4);
        }
        let (r, e, d) = (f32::from_bits(be32(s, 12)), be16(s, 16), be16(s, 18));
        if be16(s, 10) != 0 || e > 2 || d > 4 {
            return Err(5);
        }
        if !r.is_finite() || !matches!(s[19], 8 | 16) {
            return Err(14);
        }
        self.packing = Packing { r, e, ten_to_the_d: [1e0, 1e1, 1e2, 1e3, 1e4][usize::from(d)], octets_a_cell: usize::from(s[19] / 8) };
        self.grid.check_points(s, 6)
    }

    fn section_7(&self, s: &'a [u8], place: usize) -> Answer<Cut<'a>> {
        let Dual { grid, packing } = *self;
        let data = &s[5..];
        if data.len() != grid.bins * grid.rays * packing.octets_a_cell {
            return Err(Refusal(4, place as u64));
        }
        Ok(Cut { grid, packing, data })
    }
}

pub fn open(file: &[u8]) -> Answer<Opened> {
    frame::open::<Dual>(file)
}

pub fn cut(file: &[u8], cut: usize) -> Answer<Cut<'_>> {
    frame::cut::<Dual>(file, cut).map(|(_, cut)| cut)
}

pub fn bin_value(file: &[u8], at: usize, ray: usize, bin: usize) -> Answer<Option<f64>> {
    let Cut { grid, packing, data } = cut(file, at)?;
    if ray >= grid.rays || bin >= grid.bins {
        return Err(Refusal(10, 0));
    }
    let cell = ray * grid.bins + bin;
    let (z, all_ones) = match packing.octets_a_cell {
        1 => (u16::from(data[cell]), 0xFF),
        _ => (be16(data, 2 * cell + 1), 0xFFFF),
    };
    let scaled = f64::from(packing.r) + f64::from(u32::from(z) << packing.e);
    Ok((z != all_ones).then(|| scaled / packing.ten_to_the_d))
}
