//! The safe crate against the independent reader: what it makes of the library's answers.
mod common;

use common::{agree_on_grid, shown, told};
use polar::{index, Bin, File, Hundredths, Product, RayRecord, Reason, Threshold};
use reference::index::shapes::{random_record, random_unchecked_plan};
use reference::index::{cases as records, Record};
use reference::layout::{unchecked, verdict};
use reference::maker::{CutPlan, Plan};
use reference::numbers::Numbers;
use reference::shapes::random_plan;
use reference::spoil::spoil;
use reference::stretches::{list, Entry};
use reference::{cases, published};

#[test]
fn refusals_have_their_number_and_place() {
    for case in cases::all() {
        let found = File::open(&case.file).err().map(|refusal| (refusal.number(), refusal.place() as usize));
        assert_eq!(found, case.verdict, "{}", case.name);
    }
}

fn entries(cut: &polar::Cut, threshold: i32) -> Vec<Entry> {
    let stretches = cut.stretches(Threshold::from_hundredths(threshold).unwrap());
    stretches.map(|s| [s.ray, s.first, s.length, s.kind.number()].map(|word| word as u32)).collect()
}

/// What a level of the independent reader is in the safe crate's words.
fn bin(value: Option<i32>) -> Bin<Hundredths> {
    value.map_or(Bin::Missing, |hundredths| Bin::Measured(Hundredths(hundredths)))
}

fn in_units(bin: Bin<Hundredths>) -> Bin<f64> {
    bin.measured().map_or(Bin::Missing, |hundredths| Bin::Measured(hundredths.to_f64()))
}

#[test]
fn made_files() {
    let mut n = Numbers::new(81);
    for _ in 0..300 {
        let mut octets = random_plan(3, 20, 8, &mut n).file();
        if n.once_in(4) {
            spoil(&mut octets, &mut n);
        }
        let (found, expected) = (File::open(&octets), verdict(&octets));
        let (Ok(file), Ok(accepted)) = (&found, &expected) else {
            assert_eq!(found.err().map(told), expected.err());
            continue;
        };
        let product = if accepted.product == published::Product::Velocity { Product::Velocity } else { Product::Reflectivity };
        assert_eq!((file.product(), file.cut_count(), u64::from(file.site())), (product, accepted.cuts.len(), accepted.site));
        assert_eq!(file.time().to_string(), shown(accepted.time));
        for (cut, of_cut) in file.cuts().zip(&accepted.cuts) {
            agree_on_grid(cut.grid(), of_cut.grid.circle());
            let hundredths = |known: Hundredths| i64::from(known.0);
            assert_eq!((cut.elevation().map(hundredths), cut.mode()), (of_cut.elevation, of_cut.mode));
            assert_eq!(hundredths(cut.start_azimuth()), of_cut.grid.azimuth as i64);
            for ray in cut.rays() {
                let expected: Vec<_> = of_cut.ray(ray.index()).iter().map(|level| bin(accepted.product.value(*level))).collect();
                assert_eq!(ray.bins(), expected);
                assert_eq!(cut.ray_levels(ray.index()).unwrap(), of_cut.ray(ray.index()));
                assert_eq!(cut.ray(ray.index()).unwrap(), ray);
                let k = n.below(expected.len());
                assert_eq!(cut.bin_value(ray.index(), k), Ok(in_units(expected[k])));
                let past = cut.bin_value(ray.index(), expected.len());
                assert_eq!(past.unwrap_err().reason(), Reason::Argument);
            }
            assert_eq!(entries(&cut, 1234), list(of_cut, accepted.product, 1234));
        }
        assert_eq!(file.cut(file.cut_count()).unwrap_err().number(), 10);
    }
}

/// A list that takes many portions.
#[test]
fn a_long_list() {
    let levels = Numbers::new(82).levels(2048 * 300, 0, 252, 1);
    let octets = Plan::new(published::Product::Reflectivity, vec![CutPlan::of_levels(2048, 300, &levels)]).file();
    let file = File::open(&octets).unwrap();
    let expected = list(&verdict(&octets).unwrap().cuts[0], published::Product::Reflectivity, 4000);
    assert!(expected.len() > 100_000);
    assert!(entries(&file.cut(0).unwrap(), 4000) == expected);
}

fn ray_record(Record { offset, before }: Record) -> RayRecord {
    RayRecord { offset, before }
}

/// By an accepted file's own records every ray is what the plain calls say; one past the last is refused.
#[test]
fn records_of_made_files() {
    let mut n = Numbers::new(85);
    for _ in 0..200 {
        let octets = random_plan(3, 20, 8, &mut n).file();
        let (file, accepted) = (File::open(&octets).unwrap(), verdict(&octets).unwrap());
        for (cut, of_cut) in file.cuts().zip(&accepted.cuts) {
            let index: Vec<RayRecord> = of_cut.index().into_iter().map(ray_record).collect();
            assert_eq!(cut.records(), index);
            for (ray, record) in index.iter().enumerate() {
                assert_eq!(cut.ray_from(ray, *record), cut.ray(ray));
                assert_eq!(cut.ray_levels_from(ray, *record), cut.ray_levels(ray));
            }
            let past = cut.grid().rays;
            assert_eq!(cut.ray_from(past, index[0]).unwrap_err().reason(), Reason::Argument);
            assert_eq!(cut.ray_levels_from(past, index[0]).unwrap_err().reason(), Reason::Argument);
            let mut room = vec![RayRecord { offset: 9, before: 9 }; past - 1];
            let refusal = index::records(&octets, cut.index(), &mut room).unwrap_err();
            assert_eq!((refusal.reason(), room), (Reason::Room, vec![RayRecord { offset: 9, before: 9 }; past - 1]));
        }
    }
}

/// Any record, on octets whose data need not be accepted.
#[test]
fn any_record() {
    for case in records::all() {
        let mut levels = vec![9; case.room];
        let found = index::ray_levels(&case.file, case.cut, case.ray, ray_record(case.record), &mut levels);
        let expected = case.answer.as_ref().map(|_| ()).map_err(|(number, place)| (*number, *place as u64));
        assert_eq!(found.map_err(|refusal| (refusal.number(), refusal.place())), expected, "{}", case.name);
        assert!(case.answer.is_err() || levels.starts_with(&case.answer.unwrap()), "{}", case.name);
    }
    let mut n = Numbers::new(86);
    let mut by_record = 0;
    for _ in 0..2000 {
        let octets = random_unchecked_plan(2, 8, 4, &mut n).file();
        let but_8 = unchecked(&octets).unwrap();
        let (k, ray) = (n.below(but_8.cuts.len()), n.below(5));
        let record = random_record(&but_8.cuts[k], &mut n);
        let (mut marks, mut values, mut marks_too, mut values_too) = ([9; 8], [9; 8], [9; 8], [9; 8]);
        let found = index::ray_values(&octets, k, ray, ray_record(record), &mut marks, &mut values);
        let expected = but_8.ray_values_from(k, ray, record, &mut marks_too, &mut values_too);
        assert_eq!(found.map_err(told), expected);
        assert_eq!((marks, values), (marks_too, values_too));
        by_record += usize::from(found.is_err_and(|refusal| refusal.reason() == Reason::Record));
    }
    assert!(by_record > 400, "{by_record}");
}

/// A file of any size, its cuts, rays and lists are shown in a line, and what is missing is not shown as a number.
#[test]
fn shown_shortly() {
    let octets = Plan::new(published::Product::Reflectivity, vec![CutPlan::of_levels(2048, 1024, &vec![0; 2048 * 1024])]).file();
    let file = File::open(&octets).unwrap();
    let cut = file.cut(0).unwrap();
    let length = format!("{} octets", octets.len());
    for text in [format!("{file:?}"), format!("{cut:?}"), format!("{:?}", cut.stretches(Threshold::HOUSE))] {
        assert!(text.contains(&length) && text.len() < 1000, "{text}");
    }
    assert!(format!("{:?} {:?}", file.cuts(), cut.rays()).len() < 1000);
    assert!(!format!("{:?}", cut.ray(0).unwrap().bins()).contains('0'));
}

/// Cuts and rays from either end, and from the middle.
#[test]
fn either_end() {
    let mut n = Numbers::new(87);
    let octets = random_plan(3, 20, 8, &mut n).file();
    let file = File::open(&octets).unwrap();
    let mut backwards: Vec<usize> = file.cuts().rev().map(|cut| cut.index()).collect();
    backwards.reverse();
    assert_eq!(backwards, (0..file.cut_count()).collect::<Vec<_>>());
    let cut = file.cut(0).unwrap();
    let mut rays = cut.rays();
    assert_eq!(rays.len(), cut.grid().rays);
    assert_eq!(rays.nth(cut.grid().rays - 1), cut.ray(cut.grid().rays - 1).ok());
    assert_eq!((rays.len(), rays.next(), rays.next_back()), (0, None, None));
}
