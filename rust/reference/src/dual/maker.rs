//! Made files of the second format: sound ones of any shape, and their sections to be changed before they are put together.
use super::packing::Packing;
use crate::frame::Circle;
use crate::maker::{assemble, circle, section_1, section_3_of, section_6, section_7, Section};

/// A file to be made. What is not said here is filled in as the radars send it, or with all ones where that is open.
#[derive(Debug, Clone)]
pub struct Plan {
    /// octet 11 of section 4
    pub parameter: u8,
    /// year, month, day, hour, minute, second
    pub time: [u16; 6],
    pub site: u16,
    pub cuts: Vec<CutPlan>,
}

/// Which numbers are stored for each ray.
#[derive(Debug, Clone, Copy, PartialEq, Eq)]
pub struct Flags {
    /// Fa and Fe: azimuth and elevation, in section 3
    pub azimuth: bool,
    pub elevation: bool,
    /// Fp and Ft: pulse frequency and time, in section 4
    pub frequency: bool,
    pub time: bool,
}

impl Flags {
    pub const NONE: Flags = Flags { azimuth: false, elevation: false, frequency: false, time: false };
    /// As the radars send it.
    pub const ALL: Flags = Flags { azimuth: true, elevation: true, frequency: true, time: true };

    /// Every combination of the four.
    pub fn every() -> impl Iterator<Item = Flags> {
        (0..16u8).map(|bits| Flags { azimuth: bits & 1 != 0, elevation: bits & 2 != 0, frequency: bits & 4 != 0, time: bits & 8 != 0 })
    }
}

#[derive(Debug, Clone)]
pub struct CutPlan {
    pub grid: Circle,
    /// whether a section 3 stands before it
    pub own_grid: bool,
    /// those of section 3 count where it has one of its own
    pub flags: Flags,
    /// octet 42 of section 4
    pub mode: u8,
    /// the elevation's setting, in hundredths of a degree
    pub elevation: u16,
    /// octets at the end of section 4 that nobody reads
    pub tail: Vec<u8>,
    pub packing: Packing,
    /// as they stand in the file, each in the packing's width
    pub cells: Vec<u16>,
}

impl CutPlan {
    /// A cut of these cells, as the radars send it.
    pub fn new(bins: usize, rays: usize, packing: Packing, cells: Vec<u16>) -> CutPlan {
        assert_eq!(cells.len(), bins * rays);
        let grid = circle(bins, rays);
        CutPlan { grid, own_grid: true, flags: Flags::ALL, mode: 2, elevation: 130, tail: vec![0xFF; 2], packing, cells }
    }
}

/// Two octets for each ray from octet `first` on.
fn put_rays(s: &mut Section, first: usize, rays: usize, value: impl Fn(usize) -> u64) {
    for ray in 0..rays {
        s.put(first + 2 * ray, 2, value(ray));
    }
}

fn section_3(cut: &CutPlan) -> Section {
    let Flags { azimuth, elevation, .. } = cut.flags;
    let rays = cut.grid.rays;
    let stored = usize::from(azimuth) + usize::from(elevation);
    let mut s = section_3_of(&cut.grid, 50121, 58 + 2 * stored * rays);
    let angle = u64::from(cut.elevation);
    s.put_all(&[(39, 1, 0), (40, 1, 255), (43, 2, angle), (45, 2, 0), (47, 2, 36000), (49, 2, angle), (51, 2, angle)]);
    s.put_all(&[(53, 1, azimuth.into()), (54, 1, elevation.into())]);
    let width = 36000.0 / rays as f64;
    if azimuth {
        put_rays(&mut s, 59, rays, |ray| ((ray as f64 + 0.5) * width) as u64);
    } else {
        s.put(55, 2, (100.0 * width).min(65534.0) as u64);
    }
    if elevation {
        put_rays(&mut s, 59 + 2 * rays * usize::from(azimuth), rays, |_| angle);
    } else {
        s.put(57, 2, 0);
    }
    s
}

fn section_4(plan: &Plan, cut: &CutPlan) -> Section {
    let Flags { frequency, time, .. } = cut.flags;
    let rays = cut.grid.rays;
    let read = 61 + 2 * (usize::from(frequency) + usize::from(time)) * rays;
    let mut s = Section::new(4, read + cut.tail.len());
    s.put_all(&[(6, 2, 0), (8, 2, 51123), (10, 1, 15), (11, 1, plan.parameter.into()), (12, 1, 8), (13, 1, 1)]);
    s.put_all(&[(14, 4, cut.grid.latitude.unsigned_abs()), (18, 4, cut.grid.longitude), (28, 2, plan.site.into()), (32, 1, 13)]);
    s.put_all(&[(41, 1, 10), (42, 1, cut.mode.into()), (44, 1, 1), (45, 1, 1), (46, 2, cut.elevation.into()), (48, 1, 1), (49, 2, 9400)]);
    s.put_all(&[(56, 1, frequency.into()), (57, 1, time.into())]);
    if frequency {
        put_rays(&mut s, 62, rays, |_| 9400);
    }
    if time {
        put_rays(&mut s, 62 + 2 * rays * usize::from(frequency), rays, |_| 29);
    }
    s.octets[read..].copy_from_slice(&cut.tail);
    s
}

fn section_5(cut: &CutPlan) -> Section {
    let Packing { r, e, d, width } = cut.packing;
    let mut s = Section::new(5, 21);
    s.put_all(&[(6, 4, cut.grid.points() as u64), (10, 2, 0), (12, 4, r.into()), (16, 2, e.into()), (18, 2, d.into())]);
    s.put_all(&[(20, 1, width.into()), (21, 1, 1)]);
    s
}

/// The cells' octets: of a width of 16 both, of any other the less significant alone.
fn data(cut: &CutPlan) -> Vec<u8> {
    match cut.packing.width {
        16 => cut.cells.iter().flat_map(|cell| cell.to_be_bytes()).collect(),
        _ => cut.cells.iter().map(|cell| *cell as u8).collect(),
    }
}

impl Plan {
    /// A file of these cuts, of horizontal reflectivity on a day in the rains.
    pub fn new(cuts: Vec<CutPlan>) -> Plan {
        Plan { parameter: 195, time: [2026, 6, 14, 3, 40, 0], site: 47695, cuts }
    }

    /// All its sections but 0 and 8.
    pub fn sections(&self) -> Vec<Section> {
        let mut sections = vec![section_1(&self.time)];
        for cut in &self.cuts {
            if cut.own_grid {
                sections.push(section_3(cut));
            }
            sections.extend([section_4(self, cut), section_5(cut), section_6(), section_7(&data(cut))]);
        }
        sections
    }

    pub fn file(&self) -> Vec<u8> {
        assemble(&self.sections())
    }
}
