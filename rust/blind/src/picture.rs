//! A cut as the radar sees it, drawn: rays by azimuth, bins by distance.
pub mod file;
mod path;
mod shapes;

use crate::kinds::Kind;
use crate::numbers::{Distance, Millionths};
use crate::survey::{Heading, Survey};
use crate::turn::Turn;
use path::Paths;
use shapes::shapes;
use std::fmt::Write;

/// The drawing's size, and the radar's place and reach in it.
const WIDTH: f64 = 1140.0;
const HEIGHT: f64 = 1300.0;
const MIDDLE: (f64, f64) = (570.0, 660.0);
const REACH: f64 = 500.0;

const PAPER: &str = "#ffffff";
const INK: &str = "#222222";

fn colour(kind: Kind) -> &'static str {
    match kind {
        Kind::Missing => "#9a9a9a",
        Kind::Under => "#a9cdf0",
        Kind::Over => "#d62728",
        Kind::NoValue => "#dcd6c8",
        Kind::Measured => "#5b9bd5",
    }
}

/// What a kind is, in words.
fn meaning(heading: &Heading, kind: Kind) -> String {
    match kind {
        Kind::Missing | Kind::NoValue => format!("{}: {}", heading.absence, heading.absence_means),
        Kind::Under => "under the threshold".into(),
        Kind::Over => "at or over the threshold".into(),
        Kind::Measured => "measured".into(),
    }
}

/// The kinds in the order in which they are painted: what has no number comes last, so that nothing covers it.
fn painted(survey: &Survey) -> impl Iterator<Item = Kind> {
    let kinds = survey.kinds;
    let absences = kinds.iter().filter(|kind| kind.is_absence());
    kinds.iter().filter(|kind| !kind.is_absence()).chain(absences).copied()
}

/// Where distances and azimuths lie in the drawing.
struct Plane {
    /// units of the drawing to a millimetre
    scale: f64,
}

impl Plane {
    fn of(survey: &Survey) -> Plane {
        Plane { scale: REACH / survey.reach().0 as f64 }
    }

    fn radius(&self, distance: Distance) -> f64 {
        distance.0 as f64 * self.scale
    }
}

/// A point of the drawing, by azimuth and by units from the middle.
fn point(azimuth: f64, radius: f64) -> (f64, f64) {
    let (east, north) = azimuth.to_radians().sin_cos();
    (MIDDLE.0 + radius * east, MIDDLE.1 - radius * north)
}

/// Text as it stands in a drawing.
fn escaped(text: &str) -> String {
    text.replace('&', "&amp;").replace('<', "&lt;").replace('>', "&gt;").replace('"', "&quot;")
}

fn add_text(svg: &mut String, (x, y): (f64, f64), size: u32, anchor: &str, text: &str) {
    let text = escaped(text);
    let _ = writeln!(svg, "<text x=\"{x:.1}\" y=\"{y:.1}\" font-size=\"{size}\" text-anchor=\"{anchor}\" fill=\"{INK}\">{text}</text>");
}

/// The spacing of the range rings in millimetres: 1, 2 or 5 times a power of ten, three to seven rings.
fn ring_spacing(reach: u64) -> u64 {
    let powers = (0..20).rev().map(|power| 10u64.pow(power));
    powers.flat_map(|power| [5, 2, 1].map(|step| power.saturating_mul(step))).find(|spacing| reach / spacing >= 3).unwrap_or(1)
}

fn add_rings(svg: &mut String, plane: &Plane, reach: Distance) {
    let spacing = ring_spacing(reach.0);
    for at in (1..=reach.0 / spacing).map(|ring| Distance(ring * spacing)) {
        let radius = plane.radius(at);
        let (x, y) = MIDDLE;
        let _ = writeln!(
            svg,
            "<circle cx=\"{x}\" cy=\"{y}\" r=\"{radius:.1}\" fill=\"none\" stroke=\"{INK}\" stroke-width=\"0.6\" stroke-opacity=\"0.45\"/>"
        );
        add_text(svg, (x + 3.0, y - radius + 13.0), 12, "start", &format!("{} km", at.kilometres()));
    }
}

/// A tick at every 10 degrees, a number at every 30, and the four winds.
fn add_ticks(svg: &mut String) {
    for azimuth in (0..360).step_by(10) {
        let named = azimuth % 30 == 0;
        let angle = f64::from(azimuth);
        let ((x0, y0), (x1, y1)) = (point(angle, REACH), point(angle, REACH + if named { 10.0 } else { 5.0 }));
        let _ = writeln!(svg, "<path stroke=\"{INK}\" d=\"M{x0:.1} {y0:.1}L{x1:.1} {y1:.1}\"/>");
        let (x, y) = point(angle, REACH + 28.0);
        match azimuth {
            0 => add_text(svg, (x, y + 6.0), 18, "middle", "N"),
            90 => add_text(svg, (x, y + 6.0), 18, "middle", "E"),
            180 => add_text(svg, (x, y + 6.0), 18, "middle", "S"),
            270 => add_text(svg, (x, y + 6.0), 18, "middle", "W"),
            azimuth if named => add_text(svg, (x, y + 5.0), 13, "middle", &format!("{azimuth}°")),
            _ => (),
        }
    }
}

/// What is drawn, in two lines and the notes.
fn head(heading: &Heading, survey: &Survey) -> Vec<String> {
    let unit = heading.unit.unwrap_or("");
    let elevation = survey.elevation.map_or("elevation unknown".into(), |angle| format!("elevation {angle}°"));
    let threshold = survey.threshold.map_or(String::new(), |t| format!(", threshold {t} {unit}"));
    let place =
        format!("latitude {}, longitude {}", Millionths(survey.grid.latitude_microdegrees), Millionths(survey.grid.longitude_microdegrees));
    let mut lines = vec![
        format!("site {}, {}, {}", heading.site, heading.product, heading.time),
        format!("cut {}, {elevation}{threshold}, {place}, reach {} km", survey.index, survey.reach().kilometres()),
    ];
    lines.extend(survey.notes.iter().map(|note| format!("note: {note}")));
    lines
}

/// How many bins are of each kind.
fn legend(heading: &Heading, survey: &Survey) -> Vec<(Kind, String)> {
    let line = |(kind, bins, percent): (Kind, usize, String)| (kind, format!("{}, {bins} bins, {percent} %", meaning(heading, kind)));
    survey.totals().into_iter().map(line).collect()
}

/// What is shown where a point can show one kind alone.
fn precedence(heading: &Heading, survey: &Survey) -> String {
    let rest = if survey.kinds.contains(&Kind::Over) { "over before under" } else { "measured" };
    format!("Where bins are smaller than a point of the drawing the point shows {} before {rest}.", heading.absence)
}

/// What the drawing is, for those who do not see it.
fn description(heading: &Heading, survey: &Survey) -> String {
    let lines: Vec<String> = head(heading, survey).into_iter().chain(legend(heading, survey).into_iter().map(|(_, line)| line)).collect();
    format!("{}. North is up. {}", lines.join(". "), precedence(heading, survey))
}

/// The whole drawing, of a cut whose azimuths are known.
pub fn drawing(heading: &Heading, survey: &Survey, turn: &Turn) -> String {
    let plane = Plane::of(survey);
    let shapes = shapes(survey, turn, &plane);
    let lines = head(heading, survey);
    let mut svg = String::new();
    let _ = writeln!(
        svg,
        "<svg xmlns=\"http://www.w3.org/2000/svg\" viewBox=\"0 0 {WIDTH} {HEIGHT}\" font-family=\"sans-serif\" role=\"img\" \
         aria-labelledby=\"title desc\">"
    );
    let _ = writeln!(svg, "<title id=\"title\">{}</title>", escaped(&lines[0]));
    let _ = writeln!(svg, "<desc id=\"desc\">{}</desc>", escaped(&description(heading, survey)));
    let _ = writeln!(svg, "<rect width=\"{WIDTH}\" height=\"{HEIGHT}\" fill=\"{PAPER}\"/>");
    for kind in painted(survey) {
        let mut paths = Paths::new(colour(kind));
        for shape in shapes.iter().filter(|shape| shape.kind == kind) {
            paths.add(shape);
        }
        svg.push_str(&paths.svg());
    }
    add_rings(&mut svg, &plane, survey.reach());
    add_ticks(&mut svg);
    for (at, line) in lines.iter().enumerate() {
        let (y, size) = if at == 0 { (40.0, 20) } else { (44.0 + 22.0 * at as f64, 15) };
        add_text(&mut svg, (30.0, y), size, "start", line);
    }
    for (at, (kind, line)) in legend(heading, survey).iter().enumerate() {
        let y = 1222.0 + 24.0 * at as f64;
        let _ = writeln!(svg, "<rect x=\"30\" y=\"{y}\" width=\"16\" height=\"16\" fill=\"{}\"/>", colour(*kind));
        add_text(&mut svg, (54.0, y + 13.0), 15, "start", line);
    }
    add_text(&mut svg, (WIDTH - 30.0, 1283.0), 12, "end", &precedence(heading, survey));
    svg + "</svg>\n"
}

#[cfg(test)]
mod tests {
    use super::*;

    #[test]
    fn rings_are_few_and_round() {
        for (reach, spacing) in [(60_000_000, 20_000_000), (250_000_000, 50_000_000), (150_000_000, 50_000_000), (7, 2), (2, 1), (1, 1)] {
            assert_eq!(ring_spacing(reach), spacing, "{reach}");
        }
        for reach in [3, 10, 11, 99, 12_345_678, u64::from(u32::MAX) * 2049] {
            assert!((3..=7).contains(&(reach / ring_spacing(reach))), "{reach}");
        }
    }
}
