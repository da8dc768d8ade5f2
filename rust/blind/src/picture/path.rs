//! Shapes as paths, in few octets: whole tenths of a unit, each point told from the one before.
use super::{point, shapes::Shape};
use std::fmt::Write;

/// The most octets of one path, as a rule: viewers have limits to an attribute's length, and work a path as a whole.
const MOST_OCTETS: usize = 60_000;
/// How far an arc may lie from the straight lines that are drawn for it, in units of the drawing, and the widest of these, in
/// degrees.
const TOLERANCE: f64 = 0.05;
const WIDEST: f64 = 30.0;

/// Paths of one colour. Their outline closes the hairlines between neighbours.
pub struct Paths {
    colour: &'static str,
    done: String,
    path: String,
    /// where the path stands
    at: (i64, i64),
}

fn tenths((x, y): (f64, f64)) -> (i64, i64) {
    ((x * 10.0).round() as i64, (y * 10.0).round() as i64)
}

/// Two whole numbers, with a space between where nothing else parts them.
fn add_pair(path: &mut String, x: i64, y: i64) {
    let parted = path.ends_with(|c: char| !c.is_ascii_digit());
    let _ = write!(path, "{}{x}", if parted || x < 0 { "" } else { " " });
    let _ = write!(path, "{}{y}", if y < 0 { "" } else { " " });
}

/// The points of an arc from one azimuth to another, which may lie before it.
fn arc(from: f64, span: f64, radius: f64) -> Vec<(i64, i64)> {
    if radius < TOLERANCE {
        return vec![tenths(point(from, 0.0))];
    }
    let step = (2.0 * (1.0 - TOLERANCE / radius).acos().to_degrees()).min(WIDEST);
    let steps = (span.abs() / step).ceil().max(1.0);
    (0..=steps as usize).map(|at| tenths(point(from + span * at as f64 / steps, radius))).collect()
}

impl Paths {
    pub fn new(colour: &'static str) -> Paths {
        Paths { colour, done: String::new(), path: String::new(), at: (0, 0) }
    }

    /// Adds a shape: round its far edge, and back by its near one.
    pub fn add(&mut self, shape: &Shape) {
        let mut points = arc(shape.from, shape.span, shape.far);
        points.extend(arc(shape.from + shape.span, -shape.span, shape.near));
        let start = points[0];
        if self.path.is_empty() {
            let _ = write!(self.path, "M{} {}", start.0, start.1);
        } else {
            self.path.push('m');
            add_pair(&mut self.path, start.0 - self.at.0, start.1 - self.at.1);
        }
        self.path.push('l');
        let mut last = start;
        for (x, y) in points.into_iter().skip(1) {
            add_pair(&mut self.path, x - last.0, y - last.1);
            last = (x, y);
        }
        self.path.push('z');
        // a closed path goes on from where it was begun
        self.at = start;
        if self.path.len() > MOST_OCTETS {
            self.end_path();
        }
    }

    fn end_path(&mut self) {
        if !self.path.is_empty() {
            let path = std::mem::take(&mut self.path);
            let _ = writeln!(self.done, "<path d=\"{path}\"/>");
        }
    }

    /// All of them; nothing where no shape was added.
    pub fn svg(mut self) -> String {
        self.end_path();
        if self.done.is_empty() {
            return String::new();
        }
        let colour = self.colour;
        format!(
            "<g transform=\"scale(0.1)\" fill=\"{colour}\" stroke=\"{colour}\" stroke-width=\"4\" stroke-linejoin=\"bevel\">\n{}</g>\n",
            self.done
        )
    }
}
