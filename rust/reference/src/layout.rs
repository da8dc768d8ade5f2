//! FORMAT.md, "Sections", and "Order of checks": the verdict on any octets, by the base format's own sections 3, 4, 5 and 7.
use crate::frame::{circle, walk, Circle, Format, Section};
use crate::octets::signed;
use crate::published::Product;
use crate::{refused_at, runs, Refusal};
use std::cell::OnceCell;

/// What a section 3 says.
#[derive(Debug, Clone, Copy, PartialEq, Eq)]
pub struct Grid {
    pub bins: usize,
    pub rays: usize,
    pub latitude: i64,
    pub longitude: u64,
    pub dx: u64,
    pub dstart: u64,
    pub azimuth: u64,
}

impl Grid {
    pub fn new(circle: Circle, azimuth: u64) -> Grid {
        let Circle { bins, rays, latitude, longitude, dx, dstart } = circle;
        Grid { bins, rays, latitude, longitude, dx, dstart, azimuth }
    }

    pub fn circle(&self) -> Circle {
        let Grid { bins, rays, latitude, longitude, dx, dstart, .. } = *self;
        Circle { bins, rays, latitude, longitude, dx, dstart }
    }
}

#[derive(Debug, Clone)]
pub struct Cut<'a> {
    pub grid: Grid,
    /// the mode of operation, octet 38 of section 4
    pub mode: u8,
    /// the elevation constant in hundredths of a degree, or missing
    pub elevation: Option<i64>,
    pub v: u8,
    pub data: &'a [u8],
    levels: OnceCell<Vec<u8>>,
}

impl Cut<'_> {
    /// The cut's levels; bin b of ray r is level r x Nb + b.
    pub fn levels(&self) -> &[u8] {
        self.levels.get_or_init(|| runs::decode(self.data, self.v, self.grid.bins * self.grid.rays).expect("an accepted cut"))
    }

    pub fn ray(&self, ray: usize) -> &[u8] {
        &self.levels()[ray * self.grid.bins..][..self.grid.bins]
    }
}

/// An accepted file.
#[derive(Debug, Clone)]
pub struct Accepted<'a> {
    pub product: Product,
    /// year, month, day, hour, minute, second
    pub time: [u64; 6],
    pub site: u64,
    pub cuts: Vec<Cut<'a>>,
}

fn section_3(s: &Section) -> Result<Grid, Refusal> {
    s.check(4, s.octets.len() == 41)?;
    let circle = circle(s, 50120)?;
    s.check(5, s.octet(39) == 0)?;
    s.check(5, s.number_at(40..=41) <= 36000)?;
    s.check(6, s.number_at(7..=10) == circle.points() as u64)?;
    Ok(Grid::new(circle, s.number_at(40..=41)))
}

/// What a section 4 says.
struct ProductOfCut {
    product: Product,
    site: u64,
    mode: u8,
    elevation: Option<i64>,
}

/// `first`: product and site of the first cut, if this is a later one.
fn section_4(s: &Section, grid: &Grid, first: Option<(Product, u64)>) -> Result<ProductOfCut, Refusal> {
    s.check(4, s.octets.len() == 60 + 4 * grid.rays)?;
    let (site, mode, elevation) = (s.number_at(29..=30), s.octet(38), s.field(42..=43));
    s.check(5, s.number_at(6..=7) == 0)?;
    s.check(5, s.number_at(8..=9) == 51022)?;
    s.check(5, s.octet(10) == 15)?;
    let Some(product) = Product::of_parameter(s.octet(11)) else { return refused_at(5, s.place) };
    s.check(5, s.octet(12) == 8)?;
    s.check(5, s.octet(13) == 1)?;
    s.check(5, s.octet(14) == 13)?;
    s.check(5, [0, 1, 2, 255].contains(&mode))?;
    let elevation = if elevation == [0xFF, 0xFF] { None } else { Some(signed(elevation)) };
    s.check(5, elevation.is_none_or(|angle| angle.abs() <= 9000))?;
    s.check(5, first.is_none_or(|of_first| of_first == (product, site)))?;
    Ok(ProductOfCut { product, site, mode, elevation })
}

/// V
fn section_5(s: &Section, grid: &Grid, product: Product) -> Result<u8, Refusal> {
    s.check(4, s.octets.len() >= 17)?;
    let (v, m) = (s.number_at(13..=14), s.number_at(15..=16));
    s.check(4, s.octets.len() as u64 == 17 + 2 * m)?;
    s.check(5, s.number_at(10..=11) == 200)?;
    s.check(5, s.octet(12) == 8)?;
    s.check(5, v <= m)?;
    s.check(5, m == u64::from(product.levels()))?;
    s.check(5, s.octet(17) == 2)?;
    s.check(6, s.number_at(6..=9) == (grid.bins * grid.rays) as u64)?;
    s.check(7, s.octets[17..] == product.table())?;
    Ok(v as u8)
}

/// Where the data of a section 7 begins in it.
const DATA: usize = 5;

/// The data, unchecked.
fn data<'a>(s: &Section<'a>) -> Result<&'a [u8], Refusal> {
    s.check(4, s.octets.len() > DATA)?;
    Ok(&s.octets[DATA..])
}

/// The data, which gives exactly the grid's bins under V; else refusal 8 at the octet at fault.
fn section_7<'a>(s: &Section<'a>, grid: &Grid, v: u8) -> Result<&'a [u8], Refusal> {
    let data = data(s)?;
    runs::exactly(data, v, grid.bins * grid.rays).or_else(|at_fault| refused_at(8, s.place + DATA + at_fault))?;
    Ok(data)
}

/// What was last seen of sections 3, 4 and 5, and product and site of the first cut.
#[derive(Default)]
struct Seen {
    grid: Option<Grid>,
    of_cut: Option<ProductOfCut>,
    v: u8,
    first: Option<(Product, u64)>,
}

impl Seen {
    fn grid(&self) -> Grid {
        self.grid.expect("section 3")
    }

    fn of_cut(&self) -> &ProductOfCut {
        self.of_cut.as_ref().expect("section 4")
    }
}

impl<'a> Format<'a> for Seen {
    type Cut = Cut<'a>;

    fn section_3(&mut self, s: &Section<'a>) -> Result<(), Refusal> {
        self.grid = Some(section_3(s)?);
        Ok(())
    }

    fn section_4(&mut self, s: &Section<'a>) -> Result<(), Refusal> {
        let of_cut = section_4(s, &self.grid(), self.first)?;
        self.first.get_or_insert((of_cut.product, of_cut.site));
        self.of_cut = Some(of_cut);
        Ok(())
    }

    fn section_5(&mut self, s: &Section<'a>) -> Result<(), Refusal> {
        self.v = section_5(s, &self.grid(), self.of_cut().product)?;
        Ok(())
    }

    fn section_7(&mut self, s: &Section<'a>) -> Result<Cut<'a>, Refusal> {
        let (grid, v) = (self.grid(), self.v);
        let data = section_7(s, &grid, v)?;
        let ProductOfCut { mode, elevation, .. } = *self.of_cut();
        Ok(Cut { grid, mode, elevation, v, data, levels: OnceCell::new() })
    }
}

/// Accepted, or refused by the order 1, 2, then section by section 3, 9, 4, 5, 6, 7, 8.
pub fn verdict(file: &[u8]) -> Result<Accepted<'_>, Refusal> {
    let mut seen = Seen::default();
    let (time, cuts) = walk(file, &mut seen)?;
    let (product, site) = seen.first.expect("a cut");
    Ok(Accepted { product, time, site, cuts })
}

/// A cut whose data was not checked.
#[derive(Debug, Clone, Copy)]
pub struct UncheckedCut<'a> {
    pub grid: Grid,
    pub v: u8,
    pub data: &'a [u8],
    /// where its section 7 starts
    pub place: usize,
}

/// A file that every check but 8 passes.
#[derive(Debug, Clone)]
pub struct Unchecked<'a> {
    pub product: Product,
    pub cuts: Vec<UncheckedCut<'a>>,
}

/// The same sections, but that section 7 passes whatever its data.
#[derive(Default)]
struct SeenUnchecked(Seen);

impl<'a> Format<'a> for SeenUnchecked {
    type Cut = UncheckedCut<'a>;

    fn section_3(&mut self, s: &Section<'a>) -> Result<(), Refusal> {
        self.0.section_3(s)
    }

    fn section_4(&mut self, s: &Section<'a>) -> Result<(), Refusal> {
        self.0.section_4(s)
    }

    fn section_5(&mut self, s: &Section<'a>) -> Result<(), Refusal> {
        self.0.section_5(s)
    }

    fn section_7(&mut self, s: &Section<'a>) -> Result<UncheckedCut<'a>, Refusal> {
        Ok(UncheckedCut { grid: self.0.grid(), v: self.0.v, data: data(s)?, place: s.place })
    }
}

/// Every check but 8, in the same order.
pub fn unchecked(file: &[u8]) -> Result<Unchecked<'_>, Refusal> {
    let mut seen = SeenUnchecked::default();
    let (_, cuts) = walk(file, &mut seen)?;
    let (product, _) = seen.0.first.expect("a cut");
    Ok(Unchecked { product, cuts })
}
