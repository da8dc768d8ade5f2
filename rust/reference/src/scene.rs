//! Weather as a radar would see it: rain cells, a wind, and a ridge that hides what lies behind it. Plain arithmetic and
//! square roots alone, so that every machine makes the same octets.
use crate::dual::maker as dual;
use crate::dual::packing::Packing;
use crate::frame::Circle;
use crate::layout::Grid;
use crate::maker::{elevation, grid, CutPlan, Plan};
use crate::numbers::Numbers;
use crate::published::Product;

/// A rain cell: its middle in kilometres east and north of the radar, its radius, and its strength in dBZ.
#[derive(Debug, Clone, Copy)]
pub struct Cell {
    pub east: f64,
    pub north: f64,
    pub radius: f64,
    pub peak: f64,
}

/// A ridge: the azimuths that it spans, how far off it stands in kilometres, and up to which elevation it hides, in degrees.
#[derive(Debug, Clone, Copy)]
pub struct Ridge {
    pub from: f64,
    pub to: f64,
    pub distance: f64,
    pub hides: f64,
}

#[derive(Debug, Clone)]
pub struct Scene {
    pub cells: Vec<Cell>,
    pub ridges: Vec<Ridge>,
    /// metres a second, towards east and north
    pub wind: (f64, f64),
    /// how rough the echo is, in dBZ
    pub roughness: f64,
    pub seed: u64,
}

/// Height, in kilometres, above which rain thins out.
const RAIN_TOP: f64 = 4.0;

fn sine_of_turn(turns: f64) -> f64 {
    let x = (turns - turns.floor()) * std::f64::consts::TAU - std::f64::consts::PI;
    // the series about zero, of minus the sine since the turn was shifted by a half
    let (mut term, mut sum) = (x, x);
    for k in 1..16 {
        let n = f64::from(2 * k);
        term *= -x * x / (n * (n + 1.0));
        sum += term;
    }
    -sum
}

/// Sine and cosine of an angle in degrees.
fn sine_cosine(degrees: f64) -> (f64, f64) {
    (sine_of_turn(degrees / 360.0), sine_of_turn(degrees / 360.0 + 0.25))
}

/// What the radar meets in one bin.
struct Sight {
    east: f64,
    north: f64,
    /// towards the bin, east and north
    direction: (f64, f64),
    height: f64,
    hidden: bool,
}

impl Scene {
    /// Hands on every bin of a cut, ray by ray.
    fn look<T>(&self, grid: &Grid, angle: f64, mut on_bin: impl FnMut(&Sight, &mut Numbers) -> T) -> Vec<T> {
        let mut rough = Numbers::new(self.seed);
        let spacing = grid.dx as f64 / 1e6;
        let (rise, _) = sine_cosine(angle);
        let mut seen = Vec::with_capacity(grid.bins * grid.rays);
        for ray in 0..grid.rays {
            let azimuth = grid.azimuth as f64 / 100.0 + (ray as f64 + 0.5) * 360.0 / grid.rays as f64;
            let azimuth = azimuth % 360.0;
            let (east, north) = sine_cosine(azimuth);
            // the crest goes up and down along the ridge
            let crest = rough.below(5) as f64 * spacing;
            let shadow = self
                .ridges
                .iter()
                .filter(|r| r.from <= azimuth && azimuth < r.to && angle < r.hides)
                .map(|r| r.distance + crest)
                .fold(f64::INFINITY, f64::min);
            for bin in 0..grid.bins {
                let distance = (bin as f64 + 0.5) * spacing;
                let sight = Sight {
                    east: east * distance,
                    north: north * distance,
                    direction: (east, north),
                    height: rise * distance,
                    hidden: distance >= shadow,
                };
                seen.push(on_bin(&sight, &mut rough));
            }
        }
        seen
    }

    /// The echo at a bin in dBZ, or none.
    fn echo(&self, sight: &Sight, rough: &mut Numbers) -> Option<f64> {
        let strongest = self.cells.iter().map(|cell| {
            let (east, north) = (sight.east - cell.east, sight.north - cell.north);
            let nearness = (east * east + north * north) / (cell.radius * cell.radius);
            cell.peak * (1.5 / (1.0 + nearness) - 0.5)
        });
        let thinning = (sight.height - RAIN_TOP).max(0.0) * 6.0;
        let echo = strongest.fold(f64::NEG_INFINITY, f64::max) - thinning;
        (echo > 0.0).then(|| (echo + (rough.below(201) as f64 / 100.0 - 1.0) * self.roughness).max(0.0))
    }

    /// The levels of a cut of reflectivity: 0 where the ridge hides, 1 where there is no echo.
    pub fn reflectivity(&self, grid: &Grid, angle: f64) -> Vec<u8> {
        self.look(grid, angle, |sight, rough| match self.echo(sight, rough) {
            _ if sight.hidden => 0,
            None => 1,
            Some(dbz) => (2.0 + (dbz / 0.32).floor()).min(252.0) as u8,
        })
    }

    /// The levels of a cut of velocity: 0 where nothing is seen.
    pub fn velocity(&self, grid: &Grid, angle: f64) -> Vec<u8> {
        let level_of = |speed: f64| {
            let distance = |level: &u8| (f64::from(Product::Velocity.value(*level).expect("a level above 0")) - speed * 100.0).abs();
            (1..=251).min_by(|a, b| distance(a).total_cmp(&distance(b))).expect("levels")
        };
        // speeds in half metres a second, from -100 to 100
        let by_half: Vec<u8> = (-200..=200).map(|half| level_of(f64::from(half) / 2.0)).collect();
        self.look(grid, angle, |sight, rough| {
            let (east, north) = sight.direction;
            let speed = self.wind.0 * east + self.wind.1 * north;
            match self.echo(sight, rough) {
                Some(dbz) if !sight.hidden && dbz > 3.0 => by_half[((speed * 2.0).round() + 200.0).clamp(0.0, 400.0) as usize],
                _ => 0,
            }
        })
    }

    /// A cut of horizontal reflectivity as dual-polarisation radars send it: rays begun at the north, in hundredths of dBZ from
    /// -32 on; no value where the ridge hides and where there is no echo.
    pub fn dual_cut(&self, circle: Circle, angle: f64) -> dual::CutPlan {
        let packing = Packing { r: (-3200f32).to_bits(), e: 0, d: 2, width: 16 };
        let cells = self.look(&Grid::new(circle, 0), angle, |sight, rough| match self.echo(sight, rough) {
            Some(dbz) if !sight.hidden => ((dbz + 32.0) * 100.0).round() as u16,
            _ => packing.all_ones(),
        });
        let mut cut = dual::CutPlan::new(circle.bins, circle.rays, packing, cells);
        (cut.grid, cut.elevation) = (circle, elevation((angle * 100.0).round() as i32));
        cut
    }

    /// A file of such cuts, each its grid and its elevation.
    pub fn dual_plan(&self, cuts: &[(Circle, f64)]) -> dual::Plan {
        dual::Plan::new(cuts.iter().map(|(circle, angle)| self.dual_cut(*circle, *angle)).collect())
    }

    /// A cut at an elevation in degrees: `bins` of 500 m on each of 512 rays.
    pub fn cut(&self, product: Product, bins: usize, angle: f64) -> CutPlan {
        let grid = grid(bins, 512);
        let levels = match product {
            Product::Reflectivity => self.reflectivity(&grid, angle),
            Product::Velocity => self.velocity(&grid, angle),
        };
        let mut cut = CutPlan::of_levels(bins, 512, &levels);
        cut.elevation = elevation((angle * 100.0).round() as i32);
        cut
    }

    /// A file of cuts, each its number of bins and its elevation. A section 3 is written where the grid changes.
    pub fn plan(&self, product: Product, cuts: &[(usize, f64)]) -> Plan {
        let mut plan = Plan::new(product, cuts.iter().map(|(bins, angle)| self.cut(product, *bins, *angle)).collect());
        for k in 1..plan.cuts.len() {
            plan.cuts[k].own_grid = plan.cuts[k].grid != plan.cuts[k - 1].grid;
        }
        plan
    }
}

/// A day in the rains: cells about the radar, and a ridge to the north-west with a pump behind it.
pub fn rainy_day() -> Scene {
    let cell = |east, north, radius, peak| Cell { east, north, radius, peak };
    Scene {
        cells: vec![
            // a line of strong cells that goes in behind the ridge and comes out again
            cell(-53.0, 4.0, 8.4, 51.0),
            cell(-48.0, 18.0, 8.4, 54.0),
            cell(-39.0, 29.0, 11.2, 57.0),
            cell(-28.0, 38.0, 9.8, 55.0),
            cell(-15.0, 44.0, 8.4, 53.0),
            cell(-3.0, 46.0, 7.0, 50.0),
            // scattered rain
            cell(24.0, -18.0, 12.6, 38.0),
            cell(33.0, -13.0, 8.4, 47.0),
            cell(38.0, -24.0, 9.8, 43.0),
            cell(-10.0, -40.0, 7.0, 54.0),
            cell(-17.0, -44.0, 8.4, 40.0),
            // far off
            cell(-120.0, -60.0, 45.0, 42.0),
            cell(90.0, -130.0, 60.0, 48.0),
            cell(130.0, 110.0, 50.0, 50.0),
        ],
        ridges: vec![
            Ridge { from: 285.0, to: 322.0, distance: 18.0, hides: 1.6 },
            Ridge { from: 322.0, to: 331.0, distance: 27.0, hides: 0.9 },
            Ridge { from: 98.0, to: 104.0, distance: 34.0, hides: 0.6 },
        ],
        wind: (14.0, -6.0),
        roughness: 0.5,
        seed: 308,
    }
}
