//! Open and cut against the independent reader: sound files of every shape, and spoiled ones.
use differential::compare::Compared;
use differential::{made, ours};
use reference::maker::{document_sample, set_total, CutPlan, Plan};
use reference::numbers::Numbers;
use reference::published::Product;
use reference::{cases, shapes};

/// Open and every cut, and cuts that are not there.
fn opens(file: &[u8]) {
    let compared = Compared::new(file);
    let _ = compared.open();
    let cuts = compared.verdict.as_ref().map_or(0, |accepted| accepted.cuts.len());
    for cut in (0..=cuts).chain([64, usize::MAX]) {
        compared.cut(cut);
    }
}

#[test]
fn stated_cases() {
    for case in cases::all() {
        let found = ours::open(&case.file).err().map(|r| (r.number, r.place as usize));
        assert_eq!(found, case.verdict, "{}", case.name);
        opens(&case.file);
    }
}

#[test]
fn sound_files_of_every_shape() {
    let mut n = Numbers::new(31);
    for round in 0..4000 {
        let (bins, rays) = n.one_of(&[(1, 1), (3, 2), (40, 12), (1, 60), (60, 1)]);
        let most_cuts = if round % 50 == 0 { 64 } else { 5 };
        let file = shapes::random_plan(most_cuts, bins, rays, &mut n).file();
        assert_eq!(Compared::new(&file).open(), Ok(()));
        opens(&file);
    }
}

#[test]
fn grids_of_every_size_at_the_ends() {
    let mut n = Numbers::new(32);
    for (bins, rays) in [(1, 1), (2048, 1), (1, 1024), (2048, 1024), (2047, 1023)] {
        for product in Product::BOTH {
            let file = Plan::new(product, vec![shapes::random_cut(bins, rays, product, &mut n)]).file();
            assert_eq!(Compared::new(&file).open(), Ok(()));
            opens(&file);
        }
    }
}

/// Two cuts, so that every rule is met somewhere.
fn small_file() -> Vec<u8> {
    let mut later = CutPlan::of_levels(2, 2, &[0, 9, 9, 1]);
    later.own_grid = false;
    Plan::new(Product::Velocity, vec![CutPlan::of_levels(2, 2, &[3, 3, 3, 0]), later]).file()
}

#[test]
fn every_truncation() {
    for file in [document_sample().file(), small_file()] {
        made::truncations(&file, opens);
    }
}

#[test]
fn every_octet_changed() {
    for file in [document_sample().file(), small_file()] {
        made::changed_octets(&file, |changed| {
            let _ = Compared::new(changed).open();
        });
    }
}

#[test]
fn random_spoilings() {
    let mut n = Numbers::new(33);
    for _ in 0..1200 {
        let plan = shapes::random_plan(3, 9, 4, &mut n);
        made::spoilings(&plan.file(), &plan.sections(), 60, &mut n, |file, _| opens(file));
    }
}

/// Noise with a section 0 that is right, so that the walk begins.
#[test]
fn noise_after_section_0() {
    let mut n = Numbers::new(34);
    for _ in 0..20_000 {
        let len = n.within(16, 90);
        let mut file = n.octets(len);
        file[..8].copy_from_slice(b"GRIB\x00\x00\x00\x02");
        set_total(&mut file);
        if len >= 24 && n.once_in(2) {
            let (length, number) = (n.below(len) as u32, n.within(0, 9) as u8);
            file[16..20].copy_from_slice(&length.to_be_bytes());
            file[20] = number;
        }
        opens(&file);
    }
}
