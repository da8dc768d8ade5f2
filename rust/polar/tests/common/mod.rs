//! What the tests of both formats share.
use polar::{Grid, Refusal};
use reference::frame::Circle;

/// A refusal as the independent reader says it.
pub fn told(refusal: Refusal) -> reference::Refusal {
    reference::Refusal { number: refusal.number(), place: refusal.place() }
}

/// A time as it is shown.
pub fn shown([year, month, day, hour, minute, second]: [u64; 6]) -> String {
    format!("{year}-{month:02}-{day:02}T{hour:02}:{minute:02}:{second:02}Z")
}

pub fn agree_on_grid(ours: Grid, theirs: Circle) {
    assert_eq!((ours.bins, ours.rays, ours.points()), (theirs.bins, theirs.rays, theirs.bins * theirs.rays));
    assert_eq!((ours.latitude_microdegrees, ours.longitude_microdegrees), (theirs.latitude, theirs.longitude as i64));
    assert_eq!((u64::from(ours.spacing_mm), u64::from(ours.start_mm)), (theirs.dx, theirs.dstart));
    assert_eq!(ours.distance_mm(ours.bins), theirs.dstart + ours.bins as u64 * theirs.dx);
}
