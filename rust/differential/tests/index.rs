//! Building an index, and ray levels and ray values by a record, against the independent reader and against the plain calls.
use differential::compare::Compared;
use differential::made::{self, FAR};
use differential::ours;
use polar_sys::RayRecord;
use reference::frame::GREATEST_FILE;
use reference::index::cases::{self, Case};
use reference::index::shapes::{long_run, random_record, random_unchecked_plan};
use reference::index::Record;
use reference::maker::{document_sample, CutPlan, Plan};
use reference::numbers::Numbers;
use reference::published::Product;
use reference::shapes::{random_cut, random_plan};
use reference::spoil::spoil;
use reference::{dual, samples};
use std::fs;

/// Both calls by one record, in rooms just right.
fn by_record(compared: &Compared, cut: usize, ray: usize, record: Record, bins: usize) {
    let _ = compared.ray_levels_from(cut, ray, record, bins);
    compared.ray_values_from(cut, ray, record, bins, bins);
}

/// Both calls by one record, at room for the bins, one less and somewhat more.
fn by_record_in_every_room(compared: &Compared, cut: usize, ray: usize, record: Record, bins: usize) {
    let less = bins.saturating_sub(1);
    for room in [bins, less, bins + 5, 0] {
        let _ = compared.ray_levels_from(cut, ray, record, room);
    }
    for (marks, values) in [(bins, bins), (less, bins), (bins, less), (bins + 5, bins + 2), (0, 0)] {
        compared.ray_values_from(cut, ray, record, marks, values);
    }
}

/// The index of every cut in every room about its rays, and by it every ray: against the independent reader each, and against
/// the plain calls one in `step`, the last among them.
fn all_rays_one_in(file: &[u8], step: usize) -> usize {
    let compared = Compared::new(file);
    let accepted = compared.verdict.as_ref().expect("a sound file");
    for (k, cut) in accepted.cuts.iter().enumerate() {
        let (rays, bins) = (cut.grid.rays, cut.grid.bins);
        for room in [rays, rays - 1, rays + 3, 0] {
            compared.build_index(k, room);
        }
        for (ray, record) in cut.index().into_iter().enumerate() {
            assert_eq!(compared.ray_levels_from(k, ray, record, bins + 1), Ok(()));
            compared.ray_values_from(k, ray, record, bins + 1, bins + 2);
        }
        compared.by_built_records(k, (0..rays).rev().step_by(step));
    }
    accepted.cuts.iter().map(|cut| cut.grid.rays).sum()
}

fn all_rays(file: &[u8]) -> usize {
    all_rays_one_in(file, 1)
}

#[test]
fn stated_cases() {
    for Case { name, file, cut, ray, record, room, answer } in cases::all() {
        let mut levels = vec![99; room];
        let found = ours::ray_levels_from(&file, cut, ray, record, &mut levels);
        let (expected, mut kept) = (answer.as_ref().map(|_| ()).map_err(|(number, place)| (*number, *place as u64)), vec![99; room]);
        assert_eq!(found.map_err(|r| (r.number, r.place)), expected, "{name}");
        if let Ok(answer) = answer {
            kept[..answer.len()].copy_from_slice(&answer);
        }
        assert_eq!(levels, kept, "{name}");
        by_record_in_every_room(&Compared::new(&file), cut, ray, record, room);
    }
    for case in cases::built() {
        let mut records = vec![RayRecord { offset: 9, before: 9 }; case.records.len() + 1];
        assert_eq!(ours::build_index(&case.file, 0, &mut records), Ok(()), "{}", case.name);
        let found: Vec<(u32, u32)> = records.iter().map(|record| (record.offset, record.before)).collect();
        assert_eq!(found, [&case.records[..], &[(9, 9)]].concat(), "{}", case.name);
        all_rays(&case.file);
    }
}

/// Every record about the data's few octets, with every ray and many rooms.
#[test]
fn every_record_of_the_documents_sample() {
    let file = document_sample().file();
    let compared = Compared::new(&file);
    let ends = [u32::MAX, u32::MAX - 1, 1 << 31, 1 << 16, 256, 689, 673, 678];
    for offset in (0..=12).chain(ends).chain([673u32.wrapping_neg(), 678u32.wrapping_neg()]) {
        for before in (0..=8).chain(ends) {
            for ray in 0..=2 {
                by_record_in_every_room(&compared, 0, ray, Record { offset, before }, 5);
            }
        }
    }
    all_rays(&file);
}

#[test]
fn every_ray_of_made_files_by_its_record() {
    let mut n = Numbers::new(101);
    for _ in 0..3000 {
        let (bins, rays) = n.one_of(&[(1, 1), (5, 3), (12, 6), (1, 20), (30, 1)]);
        all_rays(&random_plan(3, bins, rays, &mut n).file());
    }
    for file in made::of_every_level(&mut n) {
        all_rays(&file);
    }
    let cuts = (0..64).map(|_| random_cut(3, 2, Product::Velocity, &mut n)).collect();
    assert_eq!(all_rays(&Plan::new(Product::Velocity, cuts).file()), 128);
}

#[test]
fn every_ray_of_samples_and_cases_by_its_record() {
    for name in ["document01.bin", "ridge.bin", "wind.bin", "dark.bin"] {
        let file = fs::read(samples::top().join("samples").join(name)).expect("a sample");
        all_rays_one_in(&file, 13);
    }
    for case in reference::cases::all().iter().filter(|case| case.verdict.is_none()) {
        all_rays_one_in(&case.file, 100);
    }
}

/// The greatest grids: noise, a blind cut and runs across many rays.
#[test]
fn grids_at_the_ends() {
    let mut n = Numbers::new(102);
    for (bins, rays) in [(2048, 1), (1, 1024), (2048, 1024), (2047, 1023)] {
        for product in Product::BOTH {
            let file = Plan::new(product, vec![random_cut(bins, rays, product, &mut n)]).file();
            all_rays_one_in(&file, 60);
        }
    }
    let noise = CutPlan::of_levels(2048, 1024, &n.levels(2048 * 1024, 0, 252, 2));
    let blind = CutPlan::of_levels(2048, 1024, &vec![0; 2048 * 1024]);
    assert_eq!(all_rays_one_in(&Plan::new(Product::Reflectivity, vec![blind, noise]).file(), 300), 2048);
}

/// Records of every kind in rooms about the bins, with rays about the last.
fn random_records(file: &[u8], calls: usize, n: &mut Numbers) {
    let compared = Compared::new(file);
    let Ok(but_8) = compared.unchecked() else { return };
    for _ in 0..calls {
        let k = n.below(but_8.cuts.len());
        let cut = &but_8.cuts[k];
        let (bins, ray, record) = (cut.grid.bins, n.below(cut.grid.rays + 1), random_record(cut, n));
        by_record(&compared, k, ray, record, bins);
        let rooms = [0; 3].map(|_| (bins + n.below(4)).saturating_sub(1));
        let _ = compared.ray_levels_from(k, ray, record, rooms[0]);
        compared.ray_values_from(k, ray, record, rooms[1], rooms[2]);
    }
}

#[test]
fn any_record() {
    let mut n = Numbers::new(103);
    for _ in 0..8000 {
        let (bins, rays) = n.one_of(&[(1, 1), (5, 3), (12, 6), (1, 20), (30, 1), (300, 4)]);
        random_records(&random_plan(3, bins, rays, &mut n).file(), 12, &mut n);
        random_records(&random_unchecked_plan(3, bins, rays, &mut n).file(), 12, &mut n);
    }
    for (bins, rays) in [(2048, 1024), (1, 1024), (2048, 1), (600, 512)] {
        let file = Plan::new(Product::Velocity, vec![random_cut(bins, rays, Product::Velocity, &mut n)]).file();
        random_records(&file, 1000, &mut n);
    }
}

/// Data that is spoiled in one cut: the plain calls refuse the file, and those by a record answer for every cut.
#[test]
fn spoiled_data() {
    let mut n = Numbers::new(104);
    let (mut answered, mut by_8) = (0, 0);
    for _ in 0..6000 {
        let plan = random_plan(3, 9, 5, &mut n);
        let sound = plan.file();
        let indexes: Vec<Vec<Record>> = Compared::new(&sound).verdict.as_ref().unwrap().cuts.iter().map(|cut| cut.index()).collect();
        let (mut spoiled, at) = (plan.clone(), n.below(plan.cuts.len()));
        let data = &mut spoiled.cuts[at].data;
        match n.below(4) {
            0 => data.push(0),
            1 => data.truncate(n.within(1, data.len())),
            2 => {
                let octet = n.below(data.len());
                data[octet] = n.octet();
            }
            _ => *data = vec![255; n.within(1, 40)],
        }
        let file = spoiled.file();
        let compared = Compared::new(&file);
        by_8 += usize::from(compared.open().is_err_and(|refusal| refusal.number == 8));
        for (k, index) in indexes.iter().enumerate() {
            compared.build_index(k, index.len());
            let bins = plan.cuts[k].grid.bins;
            for (ray, record) in index.iter().enumerate() {
                compared.ray_levels(k, ray, bins);
                let found = compared.ray_levels_from(k, ray, *record, bins + 1);
                compared.ray_values_from(k, ray, *record, bins, bins + 1);
                assert!(k == at || found == Ok(()), "another cut's data was looked at");
                answered += usize::from(found == Ok(()));
            }
        }
    }
    assert!(by_8 > 3600 && answered > 20_000, "{by_8} {answered}");
}

/// Octets of any kind: all three calls, with a record of any kind.
fn all_three(file: &[u8], n: &mut Numbers) {
    let compared = Compared::new(file);
    let (cut, ray) = (n.below(3), n.below(4));
    let of_cut = compared.unchecked().as_ref().ok().and_then(|file| file.cuts.get(cut).copied());
    let (record, bins) = match of_cut {
        Some(of_cut) => (random_record(&of_cut, n), of_cut.grid.bins),
        None => (Record { offset: n.below(9) as u32, before: n.below(3) as u32 }, n.below(7)),
    };
    compared.build_index(cut, n.below(6));
    by_record(&compared, cut, ray, record, bins);
}

/// Files with octets changed, cut off, dropped, and with sections out of order.
#[test]
fn spoiled_files() {
    let mut n = Numbers::new(105);
    for _ in 0..2000 {
        let plan = random_unchecked_plan(3, 6, 3, &mut n);
        made::spoilings(&plan.file(), &plan.sections(), 30, &mut n, all_three);
    }
    for case in reference::cases::all() {
        all_three(&case.file, &mut n);
    }
    for _ in 0..300 {
        all_three(&dual::shapes::random_plan(2, 6, 3, &mut n).file(), &mut n);
    }
}

/// Two cuts whose data gives neither's bins.
fn small_file() -> Vec<u8> {
    let mut later = CutPlan::of_data(2, 2, 9, vec![3, 255, 255, 4, 4]);
    later.own_grid = false;
    Plan::new(Product::Velocity, vec![CutPlan::of_data(2, 2, 3, vec![255, 3, 0]), later]).file()
}

#[test]
fn every_truncation() {
    let record = Record { offset: 1, before: 0 };
    let file = small_file();
    assert_eq!(Compared::new(&file).ray_levels_from(0, 0, record, 2), Ok(()));
    made::truncations(&file, |part| {
        by_record(&Compared::new(part), 0, 0, record, 2);
        by_record(&Compared::new(part), 0, 1, record, 2);
    });
}

#[test]
fn every_octet_changed() {
    for file in [document_sample().file(), small_file()] {
        made::changed_octets(&file, |changed| {
            let compared = Compared::new(changed);
            by_record(&compared, 0, 0, Record { offset: 2, before: 0 }, 5);
            compared.build_index(0, 2);
        });
    }
}

/// Arguments at the ends of their types, with room too short and a record of no data: 10 comes first, then 11.
#[test]
fn arguments_past_every_edge() {
    let file = document_sample().file();
    let compared = Compared::new(&file);
    for cut in FAR {
        for room in [0, 1, 2, 3] {
            compared.build_index(cut, room);
        }
        for ray in FAR {
            for record in [(0, 0), (2, 3), (7, 0), (u32::MAX, u32::MAX)] {
                let record = Record { offset: record.0, before: record.1 };
                by_record_in_every_room(&compared, cut, ray, record, 5);
            }
        }
    }
}

/// A cut of this one run, and of four more bins where `more` are asked for; by records about the run's length and the
/// greatest.
fn one_run(run: &[u8], length: u128, v: u8, bins: usize, more: bool) {
    let data = if more { [run, &[0; 4]].concat() } else { run.to_vec() };
    let file = Plan::new(Product::Reflectivity, vec![CutPlan::of_data(bins, 2, v.into(), data)]).file();
    let compared = Compared::new(&file);
    let about = [0, 1, bins as u128 - 1, bins as u128, bins as u128 + 1].map(|less| length.saturating_sub(less) as u32);
    for before in about.into_iter().chain([0, 1, (length + 1) as u32, u32::MAX, u32::MAX - 1, u32::MAX - 4]) {
        by_record(&compared, 0, 1, Record { offset: 0, before }, bins);
    }
    by_record(&compared, 0, 1, Record { offset: run.len() as u32, before: 0 }, bins);
    by_record(&compared, 0, 1, Record { offset: run.len() as u32 - 1, before: 0 }, bins);
}

/// Lengths about the greatest record and past every machine number, under every V, with and without zero digits after them.
#[test]
fn runs_of_every_length() {
    let mut n = Numbers::new(106);
    let bits = [0, 1, 3, 8, 11, 16, 21, 31, 32, 33, 62, 63, 64, 65, 95, 96, 126, 127];
    for v in 0..=252 {
        for bits in bits {
            let length = (1u128 << bits).saturating_sub(2) + n.below(5) as u128 + u128::from(bits == 0);
            for length in [length, (1 << bits) - u128::from(bits == 32), (1 << bits) + u128::from(bits == 32)] {
                let mut run = long_run(n.within(0, v.into()) as u8, length.max(1) - 1, v);
                run.resize(run.len() + n.below(3), v + 1);
                one_run(&run, length.max(1), v, n.one_of(&[1, 2, 5]), n.once_in(2));
            }
        }
    }
}

/// One level and digits on and on: all zero, all greatest, zero up to a last one, greatest up to many zeros, any.
fn endless_digits(count: usize, v: u8, n: &mut Numbers) -> [Vec<u8>; 5] {
    let (zero, greatest) = (v + 1, 255);
    let mut last = vec![zero; count];
    last[count - 1] = v + 2;
    let mut zeros = vec![zero; count];
    zeros[..count.min(3)].fill(greatest);
    let any = (0..count).map(|_| n.within(zero.into(), greatest.into()) as u8).collect();
    [vec![zero; count], vec![greatest; count], last, zeros, any].map(|digits| [vec![v / 2], digits].concat())
}

#[test]
fn digits_without_end() {
    let mut n = Numbers::new(107);
    let counts = |v: u8| match v {
        0 | 1 | 130 | 251 | 252 => &[10, 20, 21, 40, 41, 64, 128, 129, 300, 100_000, 1_000_000][..],
        _ => &[10, 20, 21, 40, 64, 128, 1000],
    };
    for v in 0..=252 {
        for count in counts(v) {
            for run in endless_digits(*count, v, &mut n) {
                let data = [&run[..], &[0; 4]].concat();
                let bins = n.one_of(&[1, 4, 5, 6]);
                let file = Plan::new(Product::Reflectivity, vec![CutPlan::of_data(bins, 2, v.into(), data)]).file();
                let compared = Compared::new(&file);
                let records = [(0, 0), (0, u32::MAX), (0, u32::MAX - 1), (0, 1), (run.len() as u32, 0), (run.len() as u32 - 1, 0)];
                for (offset, before) in records.into_iter().take(if *count > 1000 { 3 } else { 6 }) {
                    by_record(&compared, 0, 0, Record { offset, before }, bins);
                }
            }
        }
    }
}

/// As many digits as a file can hold.
#[test]
fn digits_to_the_limit_of_a_file() {
    for (digit, v) in [(255, 0), (255, 252), (253, 252)] {
        let file_of = |digits: usize| {
            let data = [vec![7.min(v)], vec![digit; digits]].concat();
            Plan::new(Product::Reflectivity, vec![CutPlan::of_data(2, 1, v.into(), data)]).file()
        };
        let file = file_of(GREATEST_FILE - file_of(0).len());
        assert_eq!(file.len(), GREATEST_FILE);
        let compared = Compared::new(&file);
        for record in [(0, 0), (0, u32::MAX)] {
            by_record(&compared, 0, 0, Record { offset: record.0, before: record.1 }, 2);
        }
    }
}

/// Rooms of fewer records than rays, of just as many and of more, in accepted and in refused files.
#[test]
fn rooms_for_records() {
    let mut n = Numbers::new(108);
    for round in 0..6000 {
        let (bins, rays) = n.one_of(&[(1, 1), (4, 3), (1, 40), (9, 9)]);
        let mut file = random_plan(2, bins, rays, &mut n).file();
        match round % 4 {
            0 => spoil(&mut file, &mut n),
            1 => file = random_unchecked_plan(2, bins, rays, &mut n).file(),
            _ => {}
        }
        let compared = Compared::new(&file);
        for cut in 0..3 {
            let wanted = compared.verdict.as_ref().ok().and_then(|accepted| accepted.cuts.get(cut)).map_or(2, |cut| cut.grid.rays);
            for room in [0, 1, wanted - 1, wanted, wanted + 1, wanted + 9] {
                compared.build_index(cut, room);
            }
        }
    }
}
