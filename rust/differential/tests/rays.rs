//! Ray levels, ray values and bin value against the independent reader.
use differential::compare::Compared;
use differential::made;
use reference::maker::{document_sample, Plan};
use reference::numbers::Numbers;
use reference::published::Product;
use reference::shapes::{random_cut, random_plan};
use reference::spoil::spoil;

/// One ray by the two ray calls, at room for its bins, one less and somewhat more.
fn ray(compared: &Compared, cut: usize, ray: usize, bins: usize) {
    let less = bins.saturating_sub(1);
    for room in [bins, less, bins + 5, 0] {
        compared.ray_levels(cut, ray, room);
    }
    for (marks, values) in [(bins, bins), (less, bins), (bins, less), (bins + 5, bins + 2), (0, 0)] {
        compared.ray_values(cut, ray, marks, values);
    }
}

/// Every ray and bin of a file, and what lies one past each.
fn all_rays_and_bins(file: &[u8]) {
    let compared = Compared::new(file);
    let accepted = compared.verdict.as_ref().expect("a sound file");
    for (k, cut) in accepted.cuts.iter().enumerate() {
        let grid = cut.grid;
        for r in 0..=grid.rays {
            ray(&compared, k, r, grid.bins);
            for bin in 0..=grid.bins {
                compared.bin_value(k, r, bin);
            }
        }
    }
    outside(&compared, accepted.cuts.len());
}

/// Arguments past every edge, with room that is too short as well: 10 comes first.
fn outside(compared: &Compared, cuts: usize) {
    for (cut, ray, bin) in
        [(cuts, 0, 0), (usize::MAX, 0, 0), (0, usize::MAX, 0), (0, 0, usize::MAX), (0, 1 << 32, 0), (0, 0, 1 << 32), (1 << 32, 0, 0)]
    {
        compared.bin_value(cut, ray, bin);
        compared.ray_levels(cut, ray, 0);
        compared.ray_values(cut, ray, 0, 9);
    }
}

#[test]
fn the_documents_sample() {
    all_rays_and_bins(&document_sample().file());
}

#[test]
fn every_ray_and_bin_of_made_files() {
    let mut n = Numbers::new(41);
    for _ in 0..700 {
        let (bins, rays) = n.one_of(&[(1, 1), (5, 3), (12, 6), (1, 20), (30, 1)]);
        all_rays_and_bins(&random_plan(3, bins, rays, &mut n).file());
    }
}

#[test]
fn every_level() {
    for file in made::of_every_level(&mut Numbers::new(42)) {
        all_rays_and_bins(&file);
    }
}

/// The greatest grids: some rays and bins of each, the first and last among them.
#[test]
fn grids_at_the_ends() {
    let mut n = Numbers::new(43);
    for (bins, rays) in [(2048, 1), (1, 1024), (2048, 1024), (2047, 1023)] {
        for product in Product::BOTH {
            let file = Plan::new(product, vec![random_cut(bins, rays, product, &mut n)]).file();
            let compared = Compared::new(&file);
            for r in [0, rays / 2, rays - 1, rays] {
                ray(&compared, 0, r, bins);
                for bin in [0, bins / 2, bins - 1, bins] {
                    compared.bin_value(0, r, bin);
                }
            }
        }
    }
}

/// A cut of many cuts: the one asked for and no other.
#[test]
fn sixty_four_cuts() {
    let mut n = Numbers::new(44);
    let cuts = (0..64).map(|_| random_cut(3, 2, Product::Velocity, &mut n)).collect();
    all_rays_and_bins(&Plan::new(Product::Velocity, cuts).file());
}

#[test]
fn spoiled_files_are_refused_with_nothing_changed() {
    let mut n = Numbers::new(45);
    for _ in 0..8000 {
        let mut file = random_plan(2, 6, 3, &mut n).file();
        spoil(&mut file, &mut n);
        let compared = Compared::new(&file);
        let (cut, ray, room) = (n.below(3), n.below(4), n.below(9));
        compared.ray_levels(cut, ray, room);
        compared.ray_values(cut, ray, room, n.below(9));
        compared.bin_value(cut, ray, n.below(7));
    }
}
