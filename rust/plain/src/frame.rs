//! What both formats share: sections 0, 1, 6 and 8, the order of sections, the number of cuts, and section 3 up to Dstart.
use crate::{Answer, Refusal};

pub struct Opened {
    /// octet 11 of section 4: a base file's product, a dual-polarisation file's parameter
    pub product: u8,
    pub time: [u16; 6],
    pub site: u16,
    pub cuts: usize,
}

#[derive(Debug, Clone, Copy, PartialEq, Default)]
pub struct Grid {
    pub bins: usize,
    pub rays: usize,
    pub latitude: i64,
    pub longitude: u32,
    pub dx: u32,
    pub dstart: u32,
}

impl Grid {
    /// By the rules for octets 6 to 34, under this template number.
    pub fn read(s: &[u8], template: u16) -> Result<Grid, u32> {
        let (bins, rays, latitude, longitude) = (be32(s, 15), be32(s, 19), be32(s, 23), be32(s, 27));
        let (dx, dstart) = (be32(s, 31), be32(s, 35));
        let met = (s[5], s[10], s[11]) == (0, 0, 0)
            && be16(s, 13) == template
            && (1..=2048).contains(&bins)
            && (1..=1024).contains(&rays)
            && latitude & 0x7FFF_FFFF <= 90_000_000
            && longitude <= 360_000_000
            && dx != 0;
        if !met {
            return Err(5);
        }
        let size = i64::from(latitude & 0x7FFF_FFFF);
        let latitude = if latitude >> 31 == 1 { -size } else { size };
        Ok(Grid { bins: bins as usize, rays: rays as usize, latitude, longitude, dx, dstart })
    }

    /// Refusal 6, unless the count of points at this octet is the grid's.
    pub fn check_points(&self, s: &[u8], octet: usize) -> Result<(), u32> {
        if be32(s, octet) as usize != self.bins * self.rays {
            return Err(6);
        }
        Ok(())
    }
}

pub fn be16(octets: &[u8], octet: usize) -> u16 {
    u16::from_be_bytes([octets[octet - 1], octets[octet]])
}

pub fn be32(octets: &[u8], octet: usize) -> u32 {
    u32::from_be_bytes(octets[octet - 1..octet + 3].try_into().unwrap())
}

fn section_1(s: &[u8]) -> Result<[u16; 6], u32> {
    if s.len() != 21 {
        return Err(4);
    }
    let time = [be16(s, 13), s[14].into(), s[15].into(), s[16].into(), s[17].into(), s[18].into()];
    let [year, month, day, hour, minute, second] = time;
    let met = be16(s, 6) == 34
        && be16(s, 8) == 0
        && s[11] == 3
        && (1000..=9999).contains(&year)
        && (1..=12).contains(&month)
        && (1..=31).contains(&day)
        && hour <= 23
        && minute <= 59
        && second <= 59
        && s[19] == 0
        && s[20] == 7;
    if met {
        Ok(time)
    } else {
        Err(5)
    }
}

fn section_6(s: &[u8]) -> Result<(), u32> {
    match s.len() {
        6 if s[5] == 255 => Ok(()),
        6 => Err(5),
        _ => Err(4),
    }
}

/// The sections that a format has its own rules for, and what was last seen of them. An error is the refusal's number, at the section;
/// of a section 7, whose data has octets of its own to name, it is the whole refusal.
pub trait Format<'a>: Default {
    type Cut;

    fn section_3(&mut self, s: &[u8]) -> Result<(), u32>;
    /// Product and site, which are those of the first cut.
    fn section_4(&mut self, s: &[u8]) -> Result<(u8, u16), u32>;
    fn section_5(&mut self, s: &[u8]) -> Result<(), u32>;
    /// The cut that this section ends, which starts at `place`.
    fn section_7(&self, s: &'a [u8], place: usize) -> Answer<Self::Cut>;
}

/// All the checks of a file. Each cut is handed on with its number, while those after it are still to be checked.
pub fn walk<'a, F: Format<'a>>(file: &'a [u8], on_cut: &mut dyn FnMut(usize, F::Cut)) -> Answer<Opened> {
    if !(20..=8_388_608).contains(&file.len()) {
        return Err(Refusal(1, 0));
    }
    let total = u64::from_be_bytes(file[8..16].try_into().unwrap());
    if file[..4] != *b"GRIB" || file[6..8] != [0, 2] || total != file.len() as u64 {
        return Err(Refusal(2, 0));
    }
    let (body, tail) = file.split_at(file.len() - 4);
    let (mut place, mut last, mut cuts) = (16, 0, 0);
    let (mut time, mut format) = ([0; 6], F::default());
    let mut first = None;
    while place < body.len() {
        let refuse = |number| Refusal(number, place as u64);
        let rest = &body[place..];
        if rest.len() < 5 {
            return Err(refuse(3));
        }
        let (length, number) = (be32(rest, 1) as usize, rest[4]);
        let allowed = match last {
            0 => number == 1,
            1 => number == 3,
            7 => matches!(number, 3 | 4),
            _ => number == last + 1,
        };
        if length < 5 || length > rest.len() || !allowed {
            return Err(refuse(3));
        }
        if last == 7 && cuts == 64 {
            return Err(refuse(9));
        }
        let section = &rest[..length];
        match number {
            1 => time = section_1(section).map_err(refuse)?,
            3 => format.section_3(section).map_err(refuse)?,
            4 => {
                let seen = format.section_4(section).map_err(refuse)?;
                if *first.get_or_insert(seen) != seen {
                    return Err(refuse(5));
                }
            }
            5 => format.section_5(section).map_err(refuse)?,
            6 => section_6(section).map_err(refuse)?,
            _ => {
                on_cut(cuts, format.section_7(section, place)?);
                cuts += 1;
            }
        }
        place += length;
        last = number;
    }
    match first {
        Some((product, site)) if last == 7 && tail == b"7777" => Ok(Opened { product, time, site, cuts }),
        _ => Err(Refusal(3, place as u64)),
    }
}

pub fn open<'a, F: Format<'a>>(file: &'a [u8]) -> Answer<Opened> {
    walk::<F>(file, &mut |_, _| ())
}

/// The product, and the cut asked for.
pub fn cut<'a, F: Format<'a>>(file: &'a [u8], cut: usize) -> Answer<(u8, F::Cut)> {
    let mut found = None;
    let opened = walk::<F>(file, &mut |k, of_file| {
        if k == cut {
            found = Some(of_file);
        }
    })?;
    found.map(|cut| (opened.product, cut)).ok_or(Refusal(10, 0))
}

/// The product, and all cuts.
pub fn cuts<'a, F: Format<'a>>(file: &'a [u8]) -> Answer<(u8, Vec<F::Cut>)> {
    let mut cuts = Vec::new();
    let opened = walk::<F>(file, &mut |_, cut| cuts.push(cut))?;
    Ok((opened.product, cuts))
}
