//! Octets that the tests of several calls are tried on: each comes as one made from a sound file.
use reference::maker::{set_total, CutPlan, Plan, Section};
use reference::numbers::Numbers;
use reference::published::Product;
use reference::shapes::pack_loosely;
use reference::spoil::{spoil, spoil_sections};

/// Arguments in and past a small file, and at the ends of their types.
pub const FAR: [usize; 7] = [0, 1, 2, 5, 1 << 32, usize::MAX - 1, usize::MAX];

/// A file of each product with each of its levels, packed in order, in runs across ray ends, broken and with zero tails.
pub fn of_every_level(n: &mut Numbers) -> Vec<Vec<u8>> {
    let of_product = |product: Product| {
        let most = product.levels() as u8;
        let mut levels: Vec<u8> = (0..=most).flat_map(|level| [level; 3]).collect();
        levels.resize(levels.len().next_multiple_of(8), 0);
        let rays = levels.len() / 8;
        let packed = CutPlan::of_levels(8, rays, &levels);
        let loose = CutPlan::of_data(8, rays, most.into(), pack_loosely(&levels, most, n));
        Plan::new(product, vec![packed, loose]).file()
    };
    Product::BOTH.map(of_product).into()
}

/// Cut off anywhere: with section 0's total as it was, set to what is left, and with an end that looks right.
pub fn truncations(file: &[u8], mut each: impl FnMut(&[u8])) {
    for len in 0..=file.len() {
        let mut part = file[..len].to_vec();
        each(&part);
        if len >= 16 {
            set_total(&mut part);
            each(&part);
        }
        if len >= 20 {
            part[len - 4..].copy_from_slice(b"7777");
            each(&part);
        }
    }
}

/// Every octet in turn changed to each of some values.
pub fn changed_octets(file: &[u8], mut each: impl FnMut(&[u8])) {
    let mut changed = file.to_vec();
    for at in 0..file.len() {
        let kept = file[at];
        for value in [0, 1, 2, 3, 4, 5, 7, 8, 127, 128, 254, 255, kept ^ 1, kept ^ 128, kept.wrapping_add(1), kept.wrapping_sub(1)] {
            changed[at] = value;
            each(&changed);
        }
        changed[at] = kept;
    }
}

/// So many files with one to three spoilings, and half as many with their sections out of order.
pub fn spoilings(sound: &[u8], sections: &[Section], count: usize, n: &mut Numbers, mut each: impl FnMut(&[u8], &mut Numbers)) {
    for _ in 0..count {
        let mut file = sound.to_vec();
        for _ in 0..n.within(1, 3) {
            if !file.is_empty() {
                spoil(&mut file, n);
            }
        }
        each(&file, n);
    }
    for _ in 0..count / 2 {
        let file = spoil_sections(sections, n);
        each(&file, n);
    }
}
