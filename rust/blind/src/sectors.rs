//! Sectors: stretches of one kind, joined over neighbouring rays.
//!
//! Two stretches of one kind are joined where their rays are neighbours and they have a bin number in common. A sector is all
//! that is joined so, directly or by others between; each stretch belongs to exactly one. It is told by the smallest ring
//! sector that holds it, and by how many of that ring sector's bins are its own.
use crate::kinds::Kind;
use crate::survey::{Stretch, Survey};

#[derive(Debug, Clone, Copy, PartialEq, Eq)]
pub struct Sector {
    pub kind: Kind,
    /// the ray at which it begins, by the east, and on how many it lies
    pub first_ray: usize,
    pub rays: usize,
    /// its nearest bin, and how many from there to its farthest
    pub first: usize,
    pub length: usize,
    /// the bins that are its own
    pub bins: usize,
}

impl Sector {
    /// The bins of the ring sector that holds it.
    pub fn around(&self) -> usize {
        self.rays * self.length
    }
}

/// Sets that are joined: each entry leads to another of its set, and the last to itself.
struct Sets(Vec<usize>);

impl Sets {
    fn root(&mut self, mut at: usize) -> usize {
        while self.0[at] != at {
            self.0[at] = self.0[self.0[at]];
            at = self.0[at];
        }
        at
    }

    fn join(&mut self, a: usize, b: usize) {
        let (a, b) = (self.root(a), self.root(b));
        self.0[a.max(b)] = a.min(b);
    }
}

/// Joins the stretches `a` of one ray with the stretches `b` of its neighbour where they have a bin in common.
fn join_neighbours(sets: &mut Sets, stretches: &[Stretch], a: std::ops::Range<usize>, b: std::ops::Range<usize>) {
    let (mut i, mut k) = (a.start, b.start);
    while i < a.end && k < b.end {
        let (one, other) = (&stretches[i], &stretches[k]);
        let (one_end, other_end) = (one.first + one.length, other.first + other.length);
        if one.first < other_end && other.first < one_end {
            sets.join(i, k);
        }
        if one_end <= other_end {
            i += 1;
        } else {
            k += 1;
        }
    }
}

/// The ray at which some rays begin that follow each other around, and how many they are. They are given in rising order.
fn arc(taken: &[usize], rays: usize) -> (usize, usize) {
    let over_the_last = taken.first() == Some(&0) && taken.last() == Some(&(rays - 1)) && taken.len() < rays;
    let begins = if over_the_last { taken.windows(2).find(|pair| pair[1] != pair[0] + 1).map(|pair| pair[1]) } else { None };
    (begins.unwrap_or(taken[0]), taken.len())
}

/// The sector of some stretches that are joined, given by rising ray.
fn sector_of(stretches: &[&Stretch], rays: usize) -> Sector {
    let mut taken: Vec<usize> = stretches.iter().map(|stretch| stretch.ray).collect();
    taken.dedup();
    let (first_ray, rays) = arc(&taken, rays);
    let first = stretches.iter().map(|stretch| stretch.first).min().unwrap_or(0);
    let end = stretches.iter().map(|stretch| stretch.first + stretch.length).max().unwrap_or(0);
    let bins = stretches.iter().map(|stretch| stretch.length).sum();
    Sector { kind: stretches[0].kind, first_ray, rays, first, length: end - first, bins }
}

/// The sectors of one kind, those of most bins first; of two of as many, the one of the first ray, then of the nearest bin.
pub fn sectors(survey: &Survey, kind: Kind) -> Vec<Sector> {
    let rays = survey.grid.rays;
    let stretches: Vec<Stretch> = survey.stretches.iter().filter(|stretch| stretch.kind == kind).copied().collect();
    // where each ray's stretches begin among them
    let mut starts = vec![stretches.len(); rays + 1];
    for (at, stretch) in stretches.iter().enumerate().rev() {
        starts[stretch.ray] = at;
    }
    for ray in (0..rays).rev() {
        starts[ray] = starts[ray].min(starts[ray + 1]);
    }
    let of_ray = |ray: usize| starts[ray]..starts[ray + 1];
    let joins_next = |ray: usize| survey.turn.as_ref().map_or(ray + 1 < rays, |turn| turn.joins_next(ray));
    let mut sets = Sets((0..stretches.len()).collect());
    for ray in (0..rays).filter(|ray| joins_next(*ray)) {
        join_neighbours(&mut sets, &stretches, of_ray(ray), of_ray((ray + 1) % rays));
    }
    let mut by_root: Vec<(usize, &Stretch)> = stretches.iter().enumerate().map(|(at, stretch)| (sets.root(at), stretch)).collect();
    by_root.sort_by_key(|(root, stretch)| (*root, stretch.ray, stretch.first));
    let mut found: Vec<Sector> = by_root
        .chunk_by(|a, b| a.0 == b.0)
        .map(|set| sector_of(&set.iter().map(|(_, stretch)| *stretch).collect::<Vec<_>>(), rays))
        .collect();
    found.sort_by_key(|sector| (std::cmp::Reverse(sector.bins), sector.first_ray, sector.first));
    found
}

#[cfg(test)]
mod tests {
    use super::*;
    use crate::survey::Opened;
    use reference::maker::{CutPlan, Plan};
    use reference::published::Product;

    /// A cut whose missing bins are the `x` of these rows, one for each ray.
    fn survey(rows: &[&str]) -> Survey {
        let levels: Vec<u8> = rows.concat().bytes().map(|c| if c == b'x' { 0 } else { 1 }).collect();
        let file = Plan::new(Product::Reflectivity, vec![CutPlan::of_levels(rows[0].len(), rows.len(), &levels)]).file();
        Opened::open(&file).and_then(|opened| opened.survey(0, None, false)).expect("a sound file")
    }

    /// First ray, rays, first bin, length, bins of each.
    fn found(rows: &[&str]) -> Vec<[usize; 5]> {
        sectors(&survey(rows), Kind::Missing).iter().map(|s| [s.first_ray, s.rays, s.first, s.length, s.bins]).collect()
    }

    #[test]
    fn joined_by_a_common_bin() {
        assert_eq!(found(&["..xx.", ".xx..", "x....", "....."]), [[0, 2, 1, 3, 4], [2, 1, 0, 1, 1]]);
        // a corner is not in common, and the kinds between do not matter
        assert_eq!(found(&["xx...", "..xx.", "....."]), [[0, 1, 0, 2, 2], [1, 1, 2, 2, 2]]);
        // two stretches of a ray become one by the next ray
        assert_eq!(found(&["x.x..", "xxx..", "....."]), [[0, 2, 0, 3, 5]]);
    }

    #[test]
    fn over_the_last_ray() {
        assert_eq!(found(&["xx", "..", "..", "xx"]), [[3, 2, 0, 2, 4]]);
        assert_eq!(found(&["xx", "xx", "..", ".x", "xx"]), [[3, 4, 0, 2, 7]]);
        // all around
        assert_eq!(found(&["x.", "x.", "x."]), [[0, 3, 0, 1, 3]]);
        assert_eq!(found(&["x.x"]), [[0, 1, 0, 1, 1], [0, 1, 2, 1, 1]]);
        // around, though the last ray and the first have no bin in common
        assert_eq!(found(&["xx...", ".xx..", "..xx.", "...xx"]), [[0, 4, 0, 5, 8]]);
    }

    /// Where no azimuth is known the last ray and the first are no neighbours, and the rest is joined all the same.
    #[test]
    fn without_azimuths() {
        let mut cut = survey(&["xx", "xx", "..", "xx"]);
        cut.turn = None;
        let found: Vec<[usize; 3]> = sectors(&cut, Kind::Missing).iter().map(|s| [s.first_ray, s.rays, s.bins]).collect();
        assert_eq!(found, [[0, 2, 4], [3, 1, 2]]);
    }

    /// No bin is lost or counted twice, whatever the shape; the largest stand first.
    #[test]
    fn every_bin_is_in_one_sector() {
        let mut n = reference::numbers::Numbers::new(17);
        for _ in 0..200 {
            let (rays, bins) = (n.within(1, 20), n.within(1, 20));
            let rows: Vec<String> = (0..rays).map(|_| (0..bins).map(|_| if n.once_in(2) { 'x' } else { '.' }).collect()).collect();
            let cut = survey(&rows.iter().map(String::as_str).collect::<Vec<_>>());
            let found = sectors(&cut, Kind::Missing);
            assert_eq!(found.iter().map(|sector| sector.bins).sum::<usize>(), cut.bins(Kind::Missing));
            assert!(found.is_sorted_by(|a, b| a.bins >= b.bins));
            assert!(found.iter().all(|s| s.bins <= s.around() && s.rays <= rays && s.first + s.length <= bins && s.first_ray < rays));
        }
    }
}
