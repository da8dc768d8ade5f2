//! All rays of a real-sized file: by records, by plain calls, and by plain Rust that decodes each cut once; in times of one open.
use crate::files::real_sized;
use crate::timing::Table;
use plain::index::Record;
use polar_sys::RayRecord;
use reference::layout::verdict;
use std::hint::black_box;
use std::ops::Range;

/// A ray of a file: its cut, its index there, and where its bins stand among those of all rays.
struct Ray {
    cut: usize,
    index: usize,
    bins: Range<usize>,
}

/// All rays of a file, and how many each cut has.
struct Rays<'a> {
    file: &'a [u8],
    all: Vec<Ray>,
    of_cuts: Vec<usize>,
}

impl<'a> Rays<'a> {
    fn new(file: &'a [u8]) -> Rays<'a> {
        let (mut all, mut of_cuts, mut at) = (Vec::new(), Vec::new(), 0);
        for (cut, grid) in verdict(file).expect("a sound file").cuts.iter().map(|cut| cut.grid).enumerate() {
            of_cuts.push(grid.rays);
            for index in 0..grid.rays {
                all.push(Ray { cut, index, bins: at..at + grid.bins });
                at += grid.bins;
            }
        }
        Rays { file, all, of_cuts }
    }

    /// The index of every cut, by one call for each.
    fn build<R>(&self, records: &mut [R], build: impl Fn(&[u8], usize, &mut [R]) -> bool) {
        let mut rest = records;
        for (cut, rays) in self.of_cuts.iter().enumerate() {
            let (of_cut, after) = rest.split_at_mut(*rays);
            assert!(build(black_box(self.file), cut, of_cut));
            rest = after;
        }
    }

    /// Every ray's levels by one call for each.
    fn levels(&self, levels: &mut [u8], call: impl Fn(&[u8], usize, &Ray, &mut [u8]) -> bool) {
        for (at, ray) in self.all.iter().enumerate() {
            assert!(call(black_box(self.file), at, ray, &mut levels[ray.bins.clone()]));
        }
    }

    /// Every ray's marks and values by one call for each.
    fn values(&self, marks: &mut [u8], values: &mut [i32], call: impl Fn(&[u8], usize, &Ray, &mut [u8], &mut [i32]) -> bool) {
        for (at, ray) in self.all.iter().enumerate() {
            assert!(call(black_box(self.file), at, ray, &mut marks[ray.bins.clone()], &mut values[ray.bins.clone()]));
        }
    }
}

fn build_ours(file: &[u8], cut: usize, records: &mut [RayRecord]) -> bool {
    polar_sys::build_index(file, cut, records) == 0
}

fn build_plain(file: &[u8], cut: usize, records: &mut [Record]) -> bool {
    plain::index::build(file, cut, records).is_ok()
}

pub fn rows() {
    let file = &real_sized()[..];
    let rays = Rays::new(file);
    let table = Table::in_times_of(
        &format!("all {} rays of 8 cuts of 600 x 512", rays.all.len()),
        file.len(),
        "opens",
        "one open",
        || polar_sys::open(black_box(file), &mut [0; 9]),
        || plain::file::open(black_box(file)).is_ok(),
    );
    let (mut records, mut plain_records) = (vec![RayRecord::default(); rays.all.len()], vec![Record::default(); rays.all.len()]);
    table.row("the index of every cut", || rays.build(&mut records, build_ours), || rays.build(&mut plain_records, build_plain));
    all_levels(&table, &rays, &records, &plain_records);
    all_values(&table, &rays, &records, &plain_records);
}

fn all_levels(table: &Table, rays: &Rays, records: &[RayRecord], plain_records: &[Record]) {
    let bins = rays.all.last().expect("a ray").bins.end;
    let (mut ours, mut plain) = (vec![0; bins], vec![0; bins]);
    let by_record = |records: &[RayRecord], levels: &mut [u8]| {
        rays.levels(levels, |file, at, ray, levels| polar_sys::ray_levels_from(file, ray.cut, ray.index, records[at], levels) == 0)
    };
    table.row(
        "levels by records",
        || by_record(records, &mut ours),
        || rays.levels(&mut plain, |file, at, ray, to| plain::index::ray_levels(file, ray.cut, ray.index, plain_records[at], to).is_ok()),
    );
    assert!(ours == plain);
    let mut built = records.to_vec();
    table.row(
        "levels, indexes and by them; plain: each cut once",
        || {
            rays.build(&mut built, build_ours);
            by_record(&built, &mut ours);
        },
        || assert_eq!(plain::rays::all_levels(black_box(rays.file), &mut plain), Ok(())),
    );
    assert!(ours == plain);
    table.slow_row(
        "levels by plain calls, ray by ray",
        || rays.levels(&mut ours, |file, _, ray, levels| polar_sys::ray_levels(file, ray.cut, ray.index, levels) == 0),
        || rays.levels(&mut plain, |file, _, ray, levels| plain::rays::ray_levels(file, ray.cut, ray.index, levels).is_ok()),
    );
    assert!(ours == plain);
}

fn all_values(table: &Table, rays: &Rays, records: &[RayRecord], plain_records: &[Record]) {
    let bins = rays.all.last().expect("a ray").bins.end;
    let (mut marks, mut values, mut plain_marks, mut plain_values) = (vec![0; bins], vec![0; bins], vec![0; bins], vec![0; bins]);
    let by_record = |records: &[RayRecord], marks: &mut [u8], values: &mut [i32]| {
        rays.values(marks, values, |file, at, ray, marks, values| {
            polar_sys::ray_values_from(file, ray.cut, ray.index, records[at], marks, values) == 0
        })
    };
    table.row(
        "values by records",
        || by_record(records, &mut marks, &mut values),
        || {
            rays.values(&mut plain_marks, &mut plain_values, |file, at, ray, marks, values| {
                plain::index::ray_values(file, ray.cut, ray.index, plain_records[at], marks, values).is_ok()
            })
        },
    );
    assert!((&marks, &values) == (&plain_marks, &plain_values));
    let mut built = records.to_vec();
    table.row(
        "values, indexes and by them; plain: each cut once",
        || {
            rays.build(&mut built, build_ours);
            by_record(&built, &mut marks, &mut values);
        },
        || assert_eq!(plain::rays::all_values(black_box(rays.file), &mut plain_marks, &mut plain_values), Ok(())),
    );
    assert!((&marks, &values) == (&plain_marks, &plain_values));
}
