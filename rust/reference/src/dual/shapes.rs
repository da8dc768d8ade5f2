//! Sound files of random shapes: both widths, every E and D, R of every kind, every flag, cuts with grids of their own or
//! shared, octets that nobody reads.
use super::maker::{CutPlan, Flags, Plan};
use super::packing::Packing;
use crate::numbers::Numbers;
use crate::shapes::{random_circle, random_time};

/// The bits of a single that is finite: sign, exponent 0 to 254 with the bias, and fraction.
pub fn single(negative: bool, exponent: u32, fraction: u32) -> u32 {
    u32::from(negative) << 31 | exponent << 23 | (fraction & 0x7F_FFFF)
}

/// R that takes Z x 2^E away, exactly or but for its last bits.
pub fn cancelling(z: u16, e: u16, n: &mut Numbers) -> u32 {
    // 18 bits at most, so a single holds it
    let product = (u32::from(z) << e) as f32;
    let off = n.one_of(&[0.0, 0.0, 0.5, -0.25, 1.0, -1.0]);
    let bits = (-product + off).to_bits();
    match n.below(3) {
        // neighbours of 0 would have the other sign or none
        0 if bits & 0x7FFF_FFFF > 2 => bits + n.within(0, 4) as u32 - 2,
        _ => bits,
    }
}

fn random_r(cells: &[u16], e: u16, n: &mut Numbers) -> u32 {
    let any = n.word() as u32;
    let fraction = n.one_of(&[0, 1, 0x7F_FFFF, 0x40_0000, any]);
    match n.below(6) {
        0 => single(n.once_in(2), n.below(255) as u32, fraction),
        1 => single(n.once_in(2), 0, fraction),
        2 => single(n.once_in(2), 0, 0),
        // about the size of the cells, 1 to 2^19
        3 => single(n.once_in(2), 127 + n.below(19) as u32, fraction),
        4 => cancelling(n.one_of(cells), e, n),
        _ => (-(n.below(10_000) as f32)).to_bits(),
    }
}

/// Cells anywhere in their width: noise, small ones, and many of all ones, of its neighbours and of 0.
fn random_cells(count: usize, width: u8, n: &mut Numbers) -> Vec<u16> {
    let ones = u16::MAX >> (16 - width);
    let noise = n.one_of(&[1, 2, 20]);
    let cell = |n: &mut Numbers| match n.once_in(noise) {
        true => n.word() as u16 & ones,
        // a 16-bit cell with all ones in one of its octets has a value
        false => n.one_of(&[0, 1, ones, ones, ones - 1, 0xFF & ones, 0xFF00 & ones, ones / 2]),
    };
    (0..count).map(|_| cell(n)).collect()
}

pub fn random_packing(cells: &[u16], width: u8, n: &mut Numbers) -> Packing {
    let e = n.below(3) as u16;
    Packing { r: random_r(cells, e, n), e, d: n.below(5) as u16, width }
}

pub fn random_cut(bins: usize, rays: usize, n: &mut Numbers) -> CutPlan {
    let width = n.one_of(&[8, 16]);
    let cells = random_cells(bins * rays, width, n);
    let mut cut = CutPlan::new(bins, rays, random_packing(&cells, width, n), cells);
    let mut flag = || n.once_in(2);
    cut.flags = Flags { azimuth: flag(), elevation: flag(), frequency: flag(), time: flag() };
    cut.grid = random_circle(bins, rays, n);
    cut.mode = n.one_of(&[0, 1, 2, 255]);
    cut.elevation = n.word() as u16;
    let tail = n.one_of(&[0, 0, 1, 2, 144, 24 * rays]);
    cut.tail = n.octets(tail);
    cut
}

/// A sound file of up to `most_cuts` cuts whose grids are at most `most_bins` by `most_rays`.
pub fn random_plan(most_cuts: usize, most_bins: usize, most_rays: usize, n: &mut Numbers) -> Plan {
    let mut cuts: Vec<CutPlan> = Vec::new();
    for _ in 0..n.within(1, most_cuts) {
        let shared = cuts.last().map(|last| last.grid).filter(|_| n.once_in(2));
        let (bins, rays) = shared.map_or_else(|| (n.within(1, most_bins), n.within(1, most_rays)), |grid| (grid.bins, grid.rays));
        let mut cut = random_cut(bins, rays, n);
        if let Some(grid) = shared {
            // a section 3 that says the same again is allowed
            cut.grid = grid;
            cut.own_grid = n.once_in(3);
        }
        cuts.push(cut);
    }
    let mut plan = Plan::new(cuts);
    plan.parameter = n.octet();
    plan.site = n.word() as u16;
    plan.time = random_time(n);
    plan
}
