//! The file calls on small, real-sized and largest files: the last cut, its last ray, its last bin.
use crate::timing::Table;
use plain::index::Record;
use polar_sys::{RayRecord, ENTRY_WORDS};
use reference::layout::verdict;
use reference::maker::{document_sample, CutPlan, Plan};
use reference::numbers::Numbers;
use reference::published::Product;
use reference::scene::rainy_day;
use std::hint::black_box;

/// Cuts of 2048 bins whose runs are 1 to `longest` bins.
fn wide_cuts(cuts: usize, rays: usize, longest: usize) -> Vec<u8> {
    let mut n = Numbers::new(2);
    let cut = CutPlan::of_levels(2048, rays, &n.levels(2048 * rays, 0, 251, longest));
    Plan::new(Product::Velocity, vec![cut; cuts]).file()
}

/// 8 cuts of 600 x 512, as a radar sends them.
pub fn real_sized() -> Vec<u8> {
    let elevations = [0.0, 0.3, 0.7, 1.1, 1.7, 2.6, 3.8, 5.4];
    rainy_day().plan(Product::Reflectivity, &elevations.map(|angle| (600, angle))).file()
}

pub fn rows() {
    let blind = Plan::new(Product::Reflectivity, vec![CutPlan::of_levels(2048, 1024, &vec![0; 2048 * 1024])]).file();
    for (name, file) in [
        ("small", document_sample().file()),
        ("a blind cut of 2048 x 1024", blind),
        ("real-sized: 8 cuts of 600 x 512", real_sized()),
        ("2 MiB: a cut of noise", wide_cuts(1, 1020, 1)),
        ("2 MiB: 2 cuts of runs from 1 to 6", wide_cuts(2, 1024, 6)),
        ("8 MiB: 4 cuts of noise", wide_cuts(4, 1020, 1)),
    ] {
        calls(name, &file);
    }
}

fn calls(name: &str, file: &[u8]) {
    let accepted = verdict(file).expect("a sound file");
    let last = accepted.cuts.len() - 1;
    let grid = accepted.cuts[last].grid;
    let (bins, ray, bin) = (grid.bins, grid.rays - 1, grid.bins - 1);
    let table = Table::new(name, file.len());
    table.row("open", || polar_sys::open(black_box(file), &mut [0; 9]), || plain::file::open(black_box(file)).is_ok());
    table.row("cut", || polar_sys::cut(black_box(file), last, &mut [0; 10]), || plain::file::cut(black_box(file), last).is_ok());
    let (mut ours, mut plain) = (vec![0; bins], vec![0; bins]);
    table.row(
        "ray levels",
        || assert_eq!(polar_sys::ray_levels(black_box(file), last, ray, &mut ours), 0),
        || assert_eq!(plain::rays::ray_levels(black_box(file), last, ray, &mut plain), Ok(())),
    );
    assert_eq!(ours, plain);
    let (mut our_values, mut plain_values) = (vec![0; bins], vec![0; bins]);
    table.row(
        "ray values",
        || assert_eq!(polar_sys::ray_values(black_box(file), last, ray, &mut ours, &mut our_values), 0),
        || assert_eq!(plain::rays::ray_values(black_box(file), last, ray, &mut plain, &mut plain_values), Ok(())),
    );
    assert_eq!((ours, our_values), (plain, plain_values));
    table.row(
        "bin value",
        || polar_sys::bin_value(black_box(file), last, ray, bin, &mut 0.0, &mut [0]),
        || plain::rays::bin_value(black_box(file), last, ray, bin).is_ok(),
    );
    list(&table, file, last, bins * grid.rays);
    by_record(&table, file, last, grid.rays, bins);
}

/// The index of a cut, and by it the last ray.
fn by_record(table: &Table, file: &[u8], cut: usize, rays: usize, bins: usize) {
    let (mut records, mut plain_records) = (vec![RayRecord::default(); rays], vec![Record::default(); rays]);
    table.row(
        "build index",
        || assert_eq!(polar_sys::build_index(black_box(file), cut, &mut records), 0),
        || assert_eq!(plain::index::build(black_box(file), cut, &mut plain_records), Ok(())),
    );
    let (ray, record, plain_record) = (rays - 1, records[rays - 1], plain_records[rays - 1]);
    assert_eq!((record.offset, record.before), (plain_record.offset, plain_record.before));
    let (mut ours, mut plain) = (vec![0; bins], vec![0; bins]);
    table.row(
        "ray levels by a record",
        || assert_eq!(polar_sys::ray_levels_from(black_box(file), cut, ray, record, &mut ours), 0),
        || assert_eq!(plain::index::ray_levels(black_box(file), cut, ray, plain_record, &mut plain), Ok(())),
    );
    assert_eq!(ours, plain);
    let (mut our_values, mut plain_values) = (vec![0; bins], vec![0; bins]);
    table.row(
        "ray values by a record",
        || assert_eq!(polar_sys::ray_values_from(black_box(file), cut, ray, record, &mut ours, &mut our_values), 0),
        || assert_eq!(plain::index::ray_values(black_box(file), cut, ray, plain_record, &mut plain, &mut plain_values), Ok(())),
    );
    assert_eq!((ours, our_values), (plain, plain_values));
}

/// The whole list of a cut in one portion.
fn list(table: &Table, file: &[u8], cut: usize, most: usize) {
    let (mut ours, mut plain) = (vec![0; ENTRY_WORDS * most], vec![0; ENTRY_WORDS * most]);
    let mut answer = [0; 3];
    table.row(
        "stretches",
        || assert_eq!(polar_sys::house_stretches(black_box(file), cut, (0, 0), &mut ours, &mut answer), 0),
        || assert!(plain::stretches::stretches(black_box(file), cut, plain::stretches::HOUSE_THRESHOLD, (0, 0), &mut plain).is_ok()),
    );
    assert!(ours == plain);
}
