//! The calls on dual-polarisation files, small, real-sized and of many cuts: the last cut, its last bin.
use crate::timing::Table;
use reference::dual::layout::verdict;
use reference::dual::maker::{CutPlan, Plan};
use reference::dual::packing::Packing;
use reference::numbers::Numbers;
use std::hint::black_box;

/// Cuts with a section 3 each and every flag set, of cells of 16 bits that all have a value: hundredths from -32 on.
fn cuts(count: usize, bins: usize, rays: usize) -> Vec<u8> {
    let mut n = Numbers::new(4);
    let packing = Packing { r: (-3200f32).to_bits(), e: 0, d: 2, width: 16 };
    let cut = CutPlan::new(bins, rays, packing, (0..bins * rays).map(|_| n.below(65535) as u16).collect());
    Plan::new(vec![cut; count]).file()
}

pub fn rows() {
    for (name, file) in [
        ("dual, small: a cut of 5 x 4", cuts(1, 5, 4)),
        ("dual, real-sized: a cut of 600 x 512", cuts(1, 600, 512)),
        ("dual, 64 cuts of 100 x 128", cuts(64, 100, 128)),
    ] {
        calls(name, &file);
    }
}

fn calls(name: &str, file: &[u8]) {
    let cuts = verdict(file).expect("a sound file").cuts;
    let (last, grid) = (cuts.len() - 1, cuts[cuts.len() - 1].grid);
    let (ray, bin) = (grid.rays - 1, grid.bins - 1);
    let table = Table::new(name, file.len());
    table.row("open", || polar_sys::dual_open(black_box(file), &mut [0; 9]), || plain::dual::open(black_box(file)).is_ok());
    table.row("cut", || polar_sys::dual_cut(black_box(file), last, &mut [0; 6]), || plain::dual::cut(black_box(file), last).is_ok());
    let (mut ours, mut plain) = (0.0, Ok(None));
    table.row(
        "bin value",
        || assert_eq!(polar_sys::dual_bin_value(black_box(file), last, ray, bin, &mut ours, &mut [0]), 0),
        || plain = plain::dual::bin_value(black_box(file), last, ray, bin),
    );
    assert_eq!(plain, Ok(Some(ours)));
}
