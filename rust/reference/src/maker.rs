//! Made files: sound ones of any shape, and their sections to be changed before they are put together.
use crate::frame::Circle;
use crate::layout::Grid;
use crate::octets::signed16;
use crate::published::Product;
use crate::runs;

/// A file to be made. What is not said here is filled in as the radars send it, or with all ones where that is open.
#[derive(Debug, Clone)]
pub struct Plan {
    pub product: Product,
    /// year, month, day, hour, minute, second
    pub time: [u16; 6],
    pub site: u16,
    pub cuts: Vec<CutPlan>,
}

#[derive(Debug, Clone)]
pub struct CutPlan {
    pub grid: Grid,
    /// whether a section 3 stands before it
    pub own_grid: bool,
    /// the mode of operation, octet 38 of section 4
    pub mode: u8,
    /// the elevation constant's two octets
    pub elevation: u16,
    pub v: u16,
    pub data: Vec<u8>,
}

impl CutPlan {
    /// A cut of these levels, packed by the writer's rule.
    pub fn of_levels(bins: usize, rays: usize, levels: &[u8]) -> CutPlan {
        assert_eq!(levels.len(), bins * rays);
        let (v, data) = runs::encode(levels);
        CutPlan::of_data(bins, rays, v.into(), data)
    }

    /// A cut of these octets.
    pub fn of_data(bins: usize, rays: usize, v: u16, data: Vec<u8>) -> CutPlan {
        CutPlan { grid: grid(bins, rays), own_grid: true, mode: 2, elevation: 130, v, data }
    }
}

/// A grid of bins of 500 m, begun at the north-east.
pub fn grid(bins: usize, rays: usize) -> Grid {
    Grid::new(circle(bins, rays), 4500)
}

/// Bins of 500 m about the site.
pub fn circle(bins: usize, rays: usize) -> Circle {
    Circle { bins, rays, latitude: 35_859_722, longitude: 139_959_722, dx: 500_000, dstart: 0 }
}

/// A section to be: its octets, with the length's four in front.
#[derive(Debug, Clone, PartialEq, Eq)]
pub struct Section {
    pub octets: Vec<u8>,
}

impl Section {
    pub(crate) fn new(number: u8, len: usize) -> Section {
        let mut section = Section { octets: vec![0xFF; len] };
        section.put(1, 4, len as u64);
        section.put(5, 1, number.into());
        section
    }

    pub fn number(&self) -> u8 {
        self.octets[4]
    }

    /// Writes `value` into `width` octets from octet `first`, counted from 1.
    pub fn put(&mut self, first: usize, width: usize, value: u64) {
        self.octets[first - 1..][..width].copy_from_slice(&value.to_be_bytes()[8 - width..]);
    }

    pub(crate) fn put_all(&mut self, fields: &[(usize, usize, u64)]) {
        for (first, width, value) in fields {
            self.put(*first, *width, *value);
        }
    }

    /// Cuts or lengthens the section to `len` octets and writes that as its length.
    pub fn resize(&mut self, len: usize) {
        self.octets.resize(len, 0);
        self.put(1, 4, len as u64);
    }
}

/// Year, month, day, hour, minute, second.
pub(crate) fn section_1(time: &[u16; 6]) -> Section {
    let mut s = Section::new(1, 21);
    s.put_all(&[(6, 2, 34), (8, 2, 0), (10, 1, 3), (11, 1, 1), (12, 1, 3), (13, 2, time[0].into()), (20, 1, 0), (21, 1, 7)]);
    for (part, octet) in time[1..].iter().zip(15..) {
        s.put(octet, 1, (*part).into());
    }
    s
}

/// A section 3 of either format, filled in up to Dstart.
pub(crate) fn section_3_of(circle: &Circle, template: u64, len: usize) -> Section {
    let mut s = Section::new(3, len);
    let sign = if circle.latitude < 0 { 1 << 31 } else { 0 };
    s.put_all(&[(6, 1, 0), (7, 4, circle.points() as u64), (11, 1, 0), (12, 1, 0), (13, 2, template)]);
    s.put_all(&[(15, 4, circle.bins as u64), (19, 4, circle.rays as u64), (23, 4, sign | circle.latitude.unsigned_abs())]);
    s.put_all(&[(27, 4, circle.longitude), (31, 4, circle.dx), (35, 4, circle.dstart)]);
    s
}

fn section_3(grid: &Grid) -> Section {
    let mut s = section_3_of(&grid.circle(), 50120, 41);
    s.put_all(&[(39, 1, 0), (40, 2, grid.azimuth)]);
    s
}

fn section_4(plan: &Plan, cut: &CutPlan) -> Section {
    let rays = cut.grid.rays;
    let mut s = Section::new(4, 60 + 4 * rays);
    s.put_all(&[(6, 2, 0), (8, 2, 51022), (10, 1, 15), (11, 1, plan.product.parameter().into()), (12, 1, 8), (13, 1, 1), (14, 1, 13)]);
    s.put_all(&[(29, 2, plan.site.into()), (38, 1, cut.mode.into()), (42, 2, cut.elevation.into())]);
    for ray in 0..rays {
        s.put_all(&[(61 + 4 * ray, 2, cut.elevation.into()), (63 + 4 * ray, 2, 9400)]);
    }
    s
}

fn section_5(plan: &Plan, cut: &CutPlan) -> Section {
    let table = plan.product.table();
    let mut s = Section::new(5, 17 + table.len());
    s.put_all(&[(6, 4, (cut.grid.bins * cut.grid.rays) as u64), (10, 2, 200), (12, 1, 8)]);
    s.put_all(&[(13, 2, cut.v.into()), (15, 2, plan.product.levels().into()), (17, 1, 2)]);
    s.octets[17..].copy_from_slice(&table);
    s
}

pub(crate) fn section_6() -> Section {
    Section::new(6, 6)
}

pub(crate) fn section_7(data: &[u8]) -> Section {
    let mut s = Section::new(7, 5 + data.len());
    s.octets[5..].copy_from_slice(data);
    s
}

impl Plan {
    /// A file of these cuts, of a day in the rains.
    pub fn new(product: Product, cuts: Vec<CutPlan>) -> Plan {
        Plan { product, time: [2026, 6, 14, 3, 40, 0], site: 47695, cuts }
    }

    /// All its sections but 0 and 8.
    pub fn sections(&self) -> Vec<Section> {
        let mut sections = vec![section_1(&self.time)];
        for cut in &self.cuts {
            if cut.own_grid {
                sections.push(section_3(&cut.grid));
            }
            sections.extend([section_4(self, cut), section_5(self, cut), section_6(), section_7(&cut.data)]);
        }
        sections
    }

    pub fn file(&self) -> Vec<u8> {
        assemble(&self.sections())
    }
}

/// The file of these sections between a section 0 with the right total and a section 8.
pub fn assemble(sections: &[Section]) -> Vec<u8> {
    let mut file = b"GRIB\xFF\xFF\x00\x02".to_vec();
    file.resize(16, 0);
    for section in sections {
        file.extend_from_slice(&section.octets);
    }
    file.extend_from_slice(b"7777");
    set_total(&mut file);
    file
}

/// Writes the file's length where section 0 says it.
pub fn set_total(file: &mut [u8]) {
    let total = file.len() as u64;
    file[8..16].copy_from_slice(&total.to_be_bytes());
}

/// The elevation constant's two octets, of hundredths of a degree.
pub fn elevation(hundredths: i32) -> u16 {
    u16::from_be_bytes(signed16(hundredths))
}

/// The sample of FORMAT.md, "The lister": 689 octets.
pub fn document_sample() -> Plan {
    Plan::new(Product::Reflectivity, vec![CutPlan::of_data(5, 2, 130, vec![0, 132, 130, 134, 1, 133, 0])])
}
