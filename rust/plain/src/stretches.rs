//! The stretch list straight over the runs: decode and group.
use crate::file::{cut, value, Cut};
use crate::runs::Runs;
use crate::{Answer, Refusal};

pub const HOUSE_THRESHOLD: i32 = 4000;
/// Words to an entry: ray, first bin, length, kind.
const ENTRY_WORDS: usize = 4;

/// The kind of each level.
fn kinds(product: u8, threshold: i32) -> [u8; 256] {
    let mut kinds = [0; 256];
    for level in 1..=252u8 {
        kinds[usize::from(level)] = if value(product, level) < threshold { 1 } else { 2 };
    }
    kinds
}

/// Hands on the stretches in order, as (ray, first bin, length, kind), until told to stop.
pub fn each_stretch(cut: &Cut, product: u8, threshold: i32, mut on_stretch: impl FnMut(usize, usize, usize, u8) -> bool) {
    let bins = cut.grid.bins;
    let kinds = kinds(product, threshold);
    // the stretch that is open: where on which ray it began, how far it goes, its kind
    let (mut ray, mut first, mut next, mut open) = (0, 0, 0, u8::MAX);
    for (level, mut length) in Runs::new(cut.data, cut.v) {
        let kind = kinds[usize::from(level)];
        if kind != open {
            if next > first && !on_stretch(ray, first, next - first, open) {
                return;
            }
            (first, open) = (next, kind);
        }
        // as long as the run reaches the ray's end, the stretch ends there and a new one of its kind begins
        while length >= bins - next {
            length -= bins - next;
            if !on_stretch(ray, first, bins - first, open) {
                return;
            }
            (ray, first, next) = (ray + 1, 0, 0);
        }
        next += length;
    }
}

/// Count of entries and the next point.
pub fn stretches(file: &[u8], at: usize, threshold: i32, point: (usize, usize), words: &mut [u32]) -> Answer<(usize, (usize, usize))> {
    let (product, cut) = cut(file, at)?;
    let grid = cut.grid;
    let inside = point.0 < grid.rays && point.1 < grid.bins || point == (grid.rays, 0);
    if !(-32767..=32767).contains(&threshold) || !inside {
        return Err(Refusal(10, 0));
    }
    if words.len() < ENTRY_WORDS {
        return Err(Refusal(11, 0));
    }
    let (mut count, mut next) = (0, (grid.rays, 0));
    let mut room = words.chunks_exact_mut(ENTRY_WORDS);
    each_stretch(&cut, product, threshold, |ray, first, length, kind| {
        if (ray, first) < point {
            return true;
        }
        match room.next() {
            Some(entry) => {
                entry.copy_from_slice(&[ray as u32, first as u32, length as u32, kind.into()]);
                count += 1;
                true
            }
            None => {
                next = (ray, first);
                false
            }
        }
    });
    Ok((count, next))
}
