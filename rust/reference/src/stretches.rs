//! "Stretches": the list of a cut, and its portions.
use crate::calls::{has_room, in_range};
use crate::layout::{verdict, Accepted, Cut};
use crate::published::Product;
use crate::Refusal;

pub const HOUSE_THRESHOLD: i32 = 4000;
pub const GREATEST_THRESHOLD: i32 = 32767;

/// Ray, first bin, length, kind.
pub type Entry = [u32; ENTRY_WORDS];
pub const ENTRY_WORDS: usize = 4;

#[derive(Debug, Clone, Copy, PartialEq, Eq)]
pub struct Portion {
    pub count: usize,
    /// the next point: ray, bin
    pub next: (usize, usize),
}

/// Every longest stretch of one kind on each ray, by ray and then by first bin.
pub fn list(cut: &Cut, product: Product, threshold: i32) -> Vec<Entry> {
    let mut entries = Vec::new();
    for ray in 0..cut.grid.rays {
        let kinds: Vec<u32> = cut.ray(ray).iter().map(|level| product.kind(*level, threshold)).collect();
        let mut first = 0;
        for stretch in kinds.chunk_by(|a, b| a == b) {
            entries.push([ray as u32, first, stretch.len() as u32, stretch[0]]);
            first += stretch.len() as u32;
        }
    }
    entries
}

/// The entries of `list` that start at or past the point, as many as fit, with the next point.
pub fn portion(list: &[Entry], rays: usize, point: (usize, usize), words: &mut [u32]) -> Portion {
    let start = |entry: &Entry| (entry[0] as usize, entry[1] as usize);
    let from = &list[list.partition_point(|entry| start(entry) < point)..];
    let count = from.len().min(words.len() / ENTRY_WORDS);
    words[..ENTRY_WORDS * count].copy_from_slice(from[..count].as_flattened());
    Portion { count, next: from.get(count).map_or((rays, 0), start) }
}

impl Accepted<'_> {
    /// 10 for the cut, T or the point; 11 under the words of an entry.
    pub fn check_stretches(&self, cut: usize, threshold: i32, point: (usize, usize), room: usize) -> Result<(), Refusal> {
        let grid = self.cut(cut)?.grid;
        in_range((-GREATEST_THRESHOLD..=GREATEST_THRESHOLD).contains(&threshold))?;
        let (ray, bin) = point;
        in_range(ray < grid.rays && bin < grid.bins || point == (grid.rays, 0))?;
        has_room(room >= ENTRY_WORDS)
    }

    pub fn stretches(&self, cut: usize, threshold: i32, point: (usize, usize), words: &mut [u32]) -> Result<Portion, Refusal> {
        self.check_stretches(cut, threshold, point, words.len())?;
        let cut = self.cut(cut)?;
        Ok(portion(&list(cut, self.product, threshold), cut.grid.rays, point, words))
    }
}

pub fn stretches(file: &[u8], cut: usize, threshold: i32, point: (usize, usize), words: &mut [u32]) -> Result<Portion, Refusal> {
    verdict(file)?.stretches(cut, threshold, point, words)
}

pub fn house_stretches(file: &[u8], cut: usize, point: (usize, usize), words: &mut [u32]) -> Result<Portion, Refusal> {
    stretches(file, cut, HOUSE_THRESHOLD, point, words)
}
