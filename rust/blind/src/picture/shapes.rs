//! A cut's bins as shapes, none of which is smaller than a point of the drawing.
//!
//! Bins that are thinner than [`THICK`] are put together along the ray, and rays that are narrower than [`WIDE`] are put
//! together by twos, fours and so on, ring by ring. What is put together shows the kind that weighs most: no number before
//! over, over before under. So a point may show more blind than there is, and never less.
use super::Plane;
use crate::kinds::Kind;
use crate::survey::Survey;
use crate::turn::Turn;

/// The least size of what is drawn apart, along a ray and across it, in units of the drawing.
const THICK: f64 = 0.8;
const WIDE: f64 = 1.6;

/// A piece of a ring: from an azimuth on by the east, over `span` degrees, between two radii.
#[derive(Debug, Clone, Copy, PartialEq)]
pub struct Shape {
    pub kind: Kind,
    pub from: f64,
    pub span: f64,
    pub near: f64,
    pub far: f64,
}

/// What weighs more is shown where a point can show one kind alone.
fn weight(kind: Kind) -> u8 {
    match kind {
        Kind::Missing | Kind::NoValue => 3,
        Kind::Over => 2,
        Kind::Under | Kind::Measured => 1,
    }
}

/// The kind of each bin, ray by ray.
struct Kinds {
    bins: usize,
    cells: Vec<Kind>,
}

impl Kinds {
    fn of(survey: &Survey) -> Kinds {
        let bins = survey.grid.bins;
        // what no stretch says is without a number; there is nothing of this sort
        let mut cells = vec![survey.kinds[0]; survey.grid.points()];
        for stretch in &survey.stretches {
            cells[stretch.ray * bins + stretch.first..][..stretch.length].fill(stretch.kind);
        }
        Kinds { bins, cells }
    }

    /// What weighs most in some bins of some rays.
    fn heaviest(&self, rays: &[usize], bins: &std::ops::Range<usize>) -> Kind {
        let cells = rays.iter().flat_map(|ray| &self.cells[ray * self.bins..][bins.clone()]);
        cells.copied().max_by_key(|kind| weight(*kind)).unwrap_or(self.cells[0])
    }
}

/// A ring of the drawing: which bins it shows, and how many rays are put together in it.
#[derive(Debug, Clone, PartialEq, Eq)]
struct Ring {
    bins: std::ops::Range<usize>,
    together: usize,
}

/// The rings of a cut, from the middle out.
fn rings(survey: &Survey, plane: &Plane, width: f64) -> Vec<Ring> {
    let (bins, rays) = (survey.grid.bins, survey.grid.rays);
    let thickness = f64::from(survey.grid.spacing_mm) * plane.scale;
    // a little less is as good: a bin of just this size stays apart
    let at_once = ((THICK * 0.999 / thickness).ceil() as usize).clamp(1, bins);
    let ring = |first: usize| {
        let end = (first + at_once).min(bins);
        let across = width.to_radians() * plane.radius(survey.distance(end));
        let mut together = 1;
        while together < rays && together as f64 * across < WIDE {
            together *= 2;
        }
        Ring { bins: first..end, together }
    };
    (0..bins).step_by(at_once).map(ring).collect()
}

/// The rays, put together by `together` where they follow each other without a gap.
fn groups(turn: &Turn, rays: usize, together: usize) -> Vec<Vec<usize>> {
    let mut groups: Vec<Vec<usize>> = Vec::new();
    for ray in 0..rays {
        match groups.last_mut() {
            Some(group) if group.len() < together && turn.joins_next(ray - 1) => group.push(ray),
            _ => groups.push(vec![ray]),
        }
    }
    groups
}

/// A run of rings in a group of rays.
#[derive(Debug, Clone, Copy, PartialEq)]
struct Run {
    kind: Kind,
    first: usize,
    end: usize,
    from: f64,
    span: f64,
}

/// The runs of one kind in a group of rays, over rings that put as many rays together.
fn runs(kinds: &Kinds, turn: &Turn, group: &[usize], rings: &[Ring]) -> Vec<Run> {
    let from = turn.ray(group[0]).from;
    let span = group.iter().map(|ray| turn.ray(*ray)).map(|ray| ray.to - ray.from).sum();
    let row: Vec<Kind> = rings.iter().map(|ring| kinds.heaviest(group, &ring.bins)).collect();
    let mut runs = Vec::new();
    let mut at = 0;
    for run in row.chunk_by(|a, b| a == b) {
        let (first, end) = (rings[at].bins.start, rings[at + run.len() - 1].bins.end);
        runs.push(Run { kind: run[0], first, end, from, span });
        at += run.len();
    }
    runs
}

/// The shapes of a cut. Like runs of neighbouring groups of rays are one.
pub fn shapes(survey: &Survey, turn: &Turn, plane: &Plane) -> Vec<Shape> {
    let kinds = Kinds::of(survey);
    let rings = rings(survey, plane, turn.width());
    let mut done: Vec<Run> = Vec::new();
    for band in rings.chunk_by(|a, b| a.together == b.together) {
        // the runs that reach to the last ray seen
        let mut open: Vec<Run> = Vec::new();
        for group in groups(turn, survey.grid.rays, band[0].together) {
            let follows = group[0] > 0 && turn.joins_next(group[0] - 1);
            let mut next = runs(&kinds, turn, &group, band);
            let mut before = open.iter().peekable();
            for run in &mut next {
                while let Some(old) = before.next_if(|old| old.first < run.first) {
                    done.push(*old);
                }
                let same = |old: &&Run| follows && (old.kind, old.first, old.end) == (run.kind, run.first, run.end);
                if let Some(old) = before.next_if(same) {
                    (run.from, run.span) = (old.from, old.span + run.span);
                }
            }
            done.extend(before);
            open = next;
        }
        done.append(&mut open);
    }
    let radius = |bin| plane.radius(survey.distance(bin));
    done.iter().map(|run| Shape { kind: run.kind, from: run.from, span: run.span, near: radius(run.first), far: radius(run.end) }).collect()
}
