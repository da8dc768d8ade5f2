//! Base files: sections 3, 4, 5 and 7, open and cut.
use crate::frame::{self, be16, Format, Grid, Opened};
use crate::{runs, Answer, Refusal};

pub const fn value(product: u8, level: u8) -> i32 {
    let n = level as i32;
    if n <= 1 {
        0
    } else if product == 1 {
        16 + 32 * (n - 2)
    } else if n % 2 == 1 {
        -value(product, level - 1)
    } else if n <= 218 {
        25 * n
    } else if n == 220 {
        5513
    } else {
        5600 + 50 * (n - 222)
    }
}

/// The value table of section 5.
const fn table<const OCTETS: usize>(product: u8) -> [u8; OCTETS] {
    let mut octets = [0; OCTETS];
    let mut n = 0;
    while n < OCTETS / 2 {
        let value = value(product, n as u8 + 1);
        let sign = if value < 0 { 0x80 } else { 0 };
        let [high, low] = (value.unsigned_abs() as u16).to_be_bytes();
        octets[2 * n] = high | sign;
        octets[2 * n + 1] = low;
        n += 1;
    }
    octets
}

static REFLECTIVITY: [u8; 504] = table(1);
static VELOCITY: [u8; 502] = table(2);

#[derive(Clone, Copy)]
pub struct Cut<'a> {
    pub grid: Grid,
    pub azimuth: u16,
    pub mode: u8,
    pub elevation: Option<i64>,
    pub v: u8,
    pub data: &'a [u8],
    /// where its section 7 starts
    pub place: usize,
}

/// With its data checked, or with every other check.
#[derive(Default)]
struct Base<const DATA: bool> {
    grid: Grid,
    azimuth: u16,
    product: u8,
    mode: u8,
    elevation: Option<i64>,
    v: u8,
}

impl<'a, const DATA: bool> Format<'a> for Base<DATA> {
    type Cut = Cut<'a>;

    fn section_3(&mut self, s: &[u8]) -> Result<(), u32> {
        if s.len() != 41 {
            return Err(4);
        }
        (self.grid, self.azimuth) = (Grid::read(s, 50120)?, be16(s, 40));
        if s[38] != 0 || self.azimuth > 36000 {
            return Err(5);
        }
        self.grid.check_points(s, 7)
    }

    fn section_4(&mut self, s: &[u8]) -> Result<(u8, u16), u32> {
        if s.len() != 60 + 4 * self.grid.rays {
            return Err(4);
        }
        let elevation = be16(s, 42);
        (self.product, self.mode) = (s[10], s[37]);
        let met = be16(s, 6) == 0
            && be16(s, 8) == 51022
            && s[9] == 15
            && matches!(self.product, 1 | 2)
            && s[11..14] == [8, 1, 13]
            && matches!(self.mode, 0 | 1 | 2 | 255)
            && (elevation & 0x7FFF <= 9000 || elevation == 0xFFFF);
        if !met {
            return Err(5);
        }
        let size = i64::from(elevation & 0x7FFF);
        self.elevation = (elevation != 0xFFFF).then_some(if elevation >> 15 == 1 { -size } else { size });
        Ok((self.product, be16(s, 29)))
    }

    fn section_5(&mut self, s: &[u8]) -> Result<(), u32> {
        if s.len() < 17 || s.len() != 17 + 2 * usize::from(be16(s, 15)) {
            return Err(4);
        }
        let (v, m) = (be16(s, 13), be16(s, 15));
        let table = if self.product == 1 { &REFLECTIVITY[..] } else { &VELOCITY[..] };
        if be16(s, 10) != 200 || s[11] != 8 || v > m || usize::from(m) != table.len() / 2 || s[16] != 2 {
            return Err(5);
        }
        self.grid.check_points(s, 6)?;
        if s[17..] != *table {
            return Err(7);
        }
        self.v = v as u8;
        Ok(())
    }

    fn section_7(&self, s: &'a [u8], place: usize) -> Answer<Cut<'a>> {
        if s.len() < 6 {
            return Err(Refusal(4, place as u64));
        }
        let Base { grid, azimuth, mode, elevation, v, .. } = *self;
        let data = &s[5..];
        if DATA {
            if let Some(octet) = runs::at_fault(data, v, grid.bins * grid.rays) {
                return Err(Refusal(8, (place + 5 + octet) as u64));
            }
        }
        Ok(Cut { grid, azimuth, mode, elevation, v, data, place })
    }
}

pub fn open(file: &[u8]) -> Answer<Opened> {
    frame::open::<Base<true>>(file)
}

/// The product, and the cut asked for.
pub fn cut(file: &[u8], cut: usize) -> Answer<(u8, Cut<'_>)> {
    frame::cut::<Base<true>>(file, cut)
}

/// The product, and all cuts.
pub fn cuts(file: &[u8]) -> Answer<(u8, Vec<Cut<'_>>)> {
    frame::cuts::<Base<true>>(file)
}

/// The product, and the cut asked for, after every check but 8.
pub fn unchecked_cut(file: &[u8], cut: usize) -> Answer<(u8, Cut<'_>)> {
    frame::cut::<Base<false>>(file, cut)
}
