//! Dual-polarisation files: open, cut and bin value against the independent reader, and each format under the other's calls.
use differential::dual::Compared;
use differential::{compare, made, ours};
use reference::dual::maker::{CutPlan, Flags, Plan};
use reference::dual::packing::Packing;
use reference::dual::shapes::{cancelling, random_cut, random_packing, random_plan, single};
use reference::dual::{cases, layout};
use reference::maker::document_sample;
use reference::numbers::Numbers;
use reference::spoil::spoil;

/// Every E and D.
fn scales() -> impl Iterator<Item = (u16, u16)> {
    (0..3).flat_map(|e| (0..5).map(move |d| (e, d)))
}

/// Compares every cell of a file of one ray, without flags: the least that holds these cells.
fn compares(packing: Packing, cells: &[u16]) -> usize {
    let cut = CutPlan { flags: Flags::NONE, tail: vec![], ..CutPlan::new(cells.len(), 1, packing, cells.to_vec()) };
    Compared::new(&Plan::new(vec![cut]).file()).all_bins()
}

#[test]
fn stated_cases() {
    for case in cases::all() {
        let found = ours::dual_open(&case.file).err().map(|r| (r.number, r.place as usize));
        assert_eq!(found, case.verdict, "{}", case.name);
        Compared::new(&case.file).every_call();
    }
}

/// R of both signs and every binary exponent, subnormal ones and zeros among them, with fractions of every kind, under
/// every E and D and in both widths; all ones among the cells.
#[test]
fn r_of_every_exponent() {
    let mut n = Numbers::new(101);
    let mut cells = 0;
    for exponent in 0..255 {
        for (e, d) in scales() {
            for fraction in [0, 1, 0x7F_FFFF, n.word() as u32] {
                let r = single(n.once_in(2), exponent, fraction);
                for (width, ones) in [(8, 255), (16, 65535)] {
                    let z = [0, 1, ones - 1, ones, n.word() as u16 & ones];
                    cells += compares(Packing { r, e, d, width }, &z);
                    cells += compares(Packing { r: r ^ 1 << 31, e, d, width }, &z);
                }
            }
        }
    }
    assert_eq!(cells, 255 * 15 * 4 * 2 * 2 * 5);
}

/// Z about -R/2^E, for R of every exponent that a cell can reach: what is left of the sum may be one bit of R, or nothing.
#[test]
fn cancellation() {
    let mut n = Numbers::new(102);
    for exponent in 126..127 + 19 {
        for (e, d) in scales() {
            for round in 0..12 {
                let fraction = if round < 3 { [0, 1, 0x7F_FFFF][round] } else { n.word() as u32 };
                let r = single(true, exponent, fraction);
                let nearest = (-f32::from_bits(r) / f32::from(1u16 << e)) as u16;
                for (width, ones) in [(8, 255), (16, 65535)] {
                    let z = [nearest, nearest.saturating_add(1), nearest.saturating_sub(1)].map(|z| z.min(ones));
                    compares(Packing { r, e, d, width }, &z);
                }
            }
        }
    }
    // and R made from the cell
    for _ in 0..20_000 {
        let (e, d, width) = (n.below(3) as u16, n.below(5) as u16, n.one_of(&[8, 16]));
        let z = n.below((1 << width) - 1) as u16;
        compares(Packing { r: cancelling(z, e, &mut n), e, d, width }, &[z]);
    }
}

/// Every cell that there is, at some packings: the sum goes through zero among them.
#[test]
fn every_cell_of_both_widths() {
    let all: Vec<u16> = (0..=65535).collect();
    for (k, (e, d)) in scales().enumerate() {
        let r = (-(1500.5f32 * f32::from(k as u16))).to_bits();
        compares(Packing { r, e, d, width: 8 }, &all[..256]);
    }
    for r in [-3200f32, -0.0, 0.001] {
        let cut = CutPlan::new(2048, 32, Packing { r: r.to_bits(), e: 1, d: 2, width: 16 }, all.clone());
        assert_eq!(Compared::new(&Plan::new(vec![cut]).file()).all_bins(), 65536);
    }
}

/// Arguments past every edge.
fn outside(compared: &Compared, cuts: usize) {
    let far = [0, 1, 64, 1 << 16, 1 << 32, (1 << 32) + 1, 1 << 63, usize::MAX - 1, usize::MAX];
    for cut in far.into_iter().chain([cuts - 1, cuts]) {
        compared.cut(cut);
        for ray in far {
            for bin in far {
                compared.bin_value(cut, ray, bin);
            }
        }
    }
}

#[test]
fn sound_files_of_every_shape() {
    let mut n = Numbers::new(103);
    for round in 0..5000 {
        let (bins, rays) = n.one_of(&[(1, 1), (3, 2), (20, 6), (1, 30), (30, 1)]);
        let most_cuts = if round % 50 == 0 { 64 } else { 4 };
        let file = random_plan(most_cuts, bins, rays, &mut n).file();
        let compared = Compared::new(&file);
        let opened = compared.open().expect("a sound file");
        compared.every_call();
        compared.all_bins();
        if round % 60 == 0 {
            outside(&compared, opened.cuts);
        }
    }
}

/// Every flag, with and without octets that nobody reads.
#[test]
fn every_flag() {
    let mut n = Numbers::new(104);
    for flags in Flags::every() {
        for tail in [0, 1, 2, 144] {
            let own = CutPlan { flags, tail: n.octets(tail), ..random_cut(4, 3, &mut n) };
            let shared = CutPlan { own_grid: false, grid: own.grid, flags, tail: n.octets(tail), ..random_cut(4, 3, &mut n) };
            let file = Plan::new(vec![own.clone(), shared, own]).file();
            let compared = Compared::new(&file);
            assert_eq!(compared.all_bins(), 36);
            compared.every_call();
        }
    }
}

/// The greatest grids: some bins of each, the first and last among them.
#[test]
fn grids_at_the_ends() {
    let mut n = Numbers::new(105);
    for (bins, rays) in [(2048, 1), (1, 1024), (2048, 1024), (2047, 1023)] {
        for width in [8, 16] {
            let cells: Vec<u16> = (0..bins * rays).map(|_| n.word() as u16).collect();
            let packing = random_packing(&cells, width, &mut n);
            let file = Plan::new(vec![CutPlan::new(bins, rays, packing, cells)]).file();
            let compared = Compared::new(&file);
            compared.every_call();
            for _ in 0..200 {
                compared.bin_value(0, n.below(rays), n.below(bins));
            }
        }
    }
}

/// Two cuts, so that every rule is met somewhere.
fn small_file() -> Vec<u8> {
    let packing = |width| Packing { r: (-3200f32).to_bits(), e: 1, d: 2, width };
    let first = CutPlan::new(2, 2, packing(16), vec![65535, 1600, 0, 65534]);
    let later = CutPlan { own_grid: false, flags: Flags::NONE, ..CutPlan::new(2, 2, packing(8), vec![255, 3, 254, 0]) };
    Plan::new(vec![first, later]).file()
}

#[test]
fn every_truncation() {
    made::truncations(&small_file(), |part| Compared::new(part).every_call());
}

/// Every octet at every value; each that is refused is so by the same number at the same place.
#[test]
fn every_octet_changed() {
    let file = small_file();
    let mut changed = file.clone();
    let mut refusals = [0; 15];
    for at in 0..file.len() {
        for value in 0..=255 {
            changed[at] = value;
            let compared = Compared::new(&changed);
            refusals[compared.open().map_or_else(|refusal| refusal.number, |_| 0) as usize] += 1;
            compared.bin_value(1, 1, 1);
        }
        changed[at] = file[at];
    }
    let met: Vec<usize> = (0..15).filter(|number| refusals[*number] > 0).collect();
    assert_eq!(met, [0, 2, 3, 4, 5, 6, 14]);
}

#[test]
fn random_spoilings() {
    let mut n = Numbers::new(106);
    for _ in 0..1500 {
        let plan = random_plan(3, 6, 4, &mut n);
        made::spoilings(&plan.file(), &plan.sections(), 60, &mut n, |file, _| Compared::new(file).every_call());
    }
}

/// A file of either format under the calls of the other: refused as the independent readers refuse it.
#[test]
fn each_format_under_the_others_calls() {
    let refused = |found: Option<reference::Refusal>| found.map(|refusal| (refusal.number, refusal.place));
    assert_eq!(refused(ours::dual_open(&document_sample().file()).err()), Some((4, 37)));
    assert_eq!(refused(ours::open(&small_file()).err()), Some((4, 37)));
    let mut n = Numbers::new(107);
    for _ in 0..3000 {
        let (mut base, mut dual) = (reference::shapes::random_plan(3, 5, 4, &mut n).file(), random_plan(3, 5, 4, &mut n).file());
        if n.once_in(2) {
            spoil(&mut base, &mut n);
            spoil(&mut dual, &mut n);
        }
        Compared::new(&base).every_call();
        compare::Compared::new(&dual).every_call();
    }
}

/// A section 3 whose template number alone was exchanged is refused for it, not taken for the other format.
#[test]
fn the_template_number_alone_does_not_make_a_format() {
    let mut base = document_sample().file();
    base[49..51].copy_from_slice(&50121u16.to_be_bytes());
    let mut dual = small_file();
    dual[49..51].copy_from_slice(&50120u16.to_be_bytes());
    for (file, of_base, of_dual) in [(&base, (5, 37), (4, 37)), (&dual, (4, 37), (5, 37))] {
        let found = [ours::open(file).err(), ours::dual_open(file).err()].map(|refusal| refusal.map(|r| (r.number, r.place)));
        assert_eq!(found, [Some(of_base), Some(of_dual)]);
        assert_eq!(layout::verdict(file).err().map(|r| (r.number, r.place)), Some(of_dual));
    }
}
