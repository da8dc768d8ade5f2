//! Sound files of random shapes: both products, one to several cuts, grids of their own or shared, every field anywhere in
//! its range, data packed by the writer's rule or loosely.
use crate::frame::Circle;
use crate::layout::Grid;
use crate::maker::{elevation, CutPlan, Plan};
use crate::numbers::Numbers;
use crate::published::Product;
use crate::runs::write_run;

/// Octets that decode to these levels under V, but not as the writer packs them: runs broken, zero digits added.
pub fn pack_loosely(levels: &[u8], v: u8, n: &mut Numbers) -> Vec<u8> {
    let mut octets = Vec::new();
    for run in levels.chunk_by(|a, b| a == b) {
        let mut left = run.len();
        while left > 0 {
            let length = if n.once_in(3) { n.within(1, left) } else { left };
            write_run(&mut octets, run[0], length, v);
            let zeros = if n.once_in(4) { n.below(5) } else { 0 };
            octets.resize(octets.len() + zeros, v.saturating_add(1));
            left -= length;
        }
    }
    octets
}

/// A number from 0 to `most`, often at an end.
fn anywhere(n: &mut Numbers, most: u64) -> u64 {
    match n.below(4) {
        0 => n.one_of(&[0, most]),
        _ => n.word() % (most + 1),
    }
}

pub(crate) fn random_circle(bins: usize, rays: usize, n: &mut Numbers) -> Circle {
    let latitude = anywhere(n, 90_000_000) as i64;
    Circle {
        bins,
        rays,
        latitude: if n.once_in(2) { -latitude } else { latitude },
        longitude: anywhere(n, 360_000_000),
        dx: 1 + anywhere(n, u64::from(u32::MAX) - 1),
        dstart: anywhere(n, u32::MAX.into()),
    }
}

fn random_grid(bins: usize, rays: usize, n: &mut Numbers) -> Grid {
    Grid::new(random_circle(bins, rays, n), anywhere(n, 36000))
}

/// Year, month, day, hour, minute, second.
pub(crate) fn random_time(n: &mut Numbers) -> [u16; 6] {
    let ends = [(1000, 9999), (1, 12), (1, 31), (0, 23), (0, 59), (0, 59)];
    ends.map(|(low, high)| (low + anywhere(n, high - low)) as u16)
}

fn random_elevation(n: &mut Numbers) -> u16 {
    match n.below(4) {
        0 => u16::MAX,
        1 => 0x8000,
        _ => elevation(anywhere(n, 18000) as i32 - 9000),
    }
}

/// Levels of a cut: noise, short and long runs, few levels or all, sometimes all missing.
pub fn random_levels(bins: usize, rays: usize, product: Product, n: &mut Numbers) -> Vec<u8> {
    let most = product.levels() as u8;
    let high = n.one_of(&[0, 1, 2, 10, 127, 130, 200, most - 1, most]);
    let low = if n.once_in(3) { high.saturating_sub(n.octet() % 3) } else { 0 };
    let longest = n.one_of(&[1, 3, bins, 2 * bins + 1, bins * rays]).max(1);
    n.levels(bins * rays, low, high, longest)
}

/// A cut of these levels, under the writer's V or a greater one.
pub fn random_cut(bins: usize, rays: usize, product: Product, n: &mut Numbers) -> CutPlan {
    let levels = random_levels(bins, rays, product, n);
    let mut cut = CutPlan::of_levels(bins, rays, &levels);
    if n.once_in(2) {
        let v = n.within(cut.v.into(), product.levels().into()) as u8;
        cut.v = v.into();
        cut.data = pack_loosely(&levels, v, n);
    }
    cut.grid = random_grid(bins, rays, n);
    cut.mode = n.one_of(&[0, 1, 2, 255]);
    cut.elevation = random_elevation(n);
    cut
}

/// A sound file of up to `most_cuts` cuts whose grids are at most `most_bins` by `most_rays`.
pub fn random_plan(most_cuts: usize, most_bins: usize, most_rays: usize, n: &mut Numbers) -> Plan {
    let product = n.one_of(&Product::BOTH);
    let mut cuts: Vec<CutPlan> = Vec::new();
    for _ in 0..n.within(1, most_cuts) {
        let shared = cuts.last().map(|last| last.grid).filter(|_| n.once_in(2));
        let (bins, rays) = shared.map_or_else(|| (n.within(1, most_bins), n.within(1, most_rays)), |grid| (grid.bins, grid.rays));
        let mut cut = random_cut(bins, rays, product, n);
        if let Some(grid) = shared {
            // a section 3 that says the same again is allowed
            cut.grid = grid;
            cut.own_grid = n.once_in(3);
        }
        cuts.push(cut);
    }
    let mut plan = Plan::new(product, cuts);
    plan.site = n.word() as u16;
    plan.time = random_time(n);
    plan
}
