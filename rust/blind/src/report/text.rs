//! For people.
use super::Report;
use crate::arguments::{Arguments, List};
use crate::kinds::Kind;
use crate::names::on_one_line;
use crate::numbers::{trimmed, Distance, Millionths};
use crate::problem::Problem;
use crate::sectors::{sectors, Sector};
use crate::survey::{Heading, Stretch, Survey};
use crate::turn::shown;
use crate::values::{cell, Found, Values};
use polar::Format;
use std::io::{self, Write};

/// The most sectors of a kind and a cut that are told one by one. The rest is told in one line.
const MOST_SECTORS: usize = 10;

pub struct Text<'a, W> {
    out: W,
    asked: &'a Arguments,
    /// whether a file was told of before
    before: bool,
    /// what stands below the totals of all cuts
    below: String,
    /// the notes that this file has had
    notes: Vec<String>,
}

/// What a kind is called where it is said where it lies.
fn called(heading: &Heading, kind: Kind) -> &'static str {
    if kind.is_absence() {
        heading.absence
    } else {
        kind.words()
    }
}

/// The azimuths of a sector, or its rays where there are none.
fn azimuths(survey: &Survey, sector: &Sector) -> String {
    let last = (sector.first_ray + sector.rays - 1) % survey.grid.rays;
    let degrees = |angle: f64| trimmed(&shown(angle).to_string());
    match &survey.turn {
        None => format!("rays {} to {last}", sector.first_ray),
        Some(turn) if sector.rays == survey.grid.rays && turn.is_whole() => "all around".into(),
        Some(turn) => format!("{} to {} degrees", degrees(turn.ray(sector.first_ray).from), degrees(turn.ray(last).to)),
    }
}

fn sector_line(heading: &Heading, survey: &Survey, sector: &Sector) -> String {
    let (near, far) = (survey.distance(sector.first), survey.distance(sector.first + sector.length));
    let (azimuths, called) = (azimuths(survey, sector), called(heading, sector.kind));
    let (near, far) = (near.kilometres(), far.kilometres());
    format!("  {azimuths}, {near} to {far} km: {called}, {} of {} bins\n", sector.bins, sector.around())
}

/// Every sector of a kind: the largest one by one, the rest together.
fn sector_lines(heading: &Heading, survey: &Survey, kind: Kind) -> String {
    let found = sectors(survey, kind);
    let (index, called) = (survey.index, called(heading, kind));
    if found.is_empty() {
        return format!("cut {index}, where {called}: nowhere\n");
    }
    let (told, rest) = found.split_at(found.len().min(MOST_SECTORS));
    let mut lines = format!("cut {index}, where {called}, largest first:\n");
    lines.extend(told.iter().map(|sector| sector_line(heading, survey, sector)));
    if !rest.is_empty() {
        let bins: usize = rest.iter().map(|sector| sector.bins).sum();
        lines.push_str(&format!("  and {} smaller, {bins} bins in all\n", rest.len()));
    }
    lines
}

impl<'a, W: Write> Text<'a, W> {
    pub fn new(out: W, asked: &'a Arguments) -> Self {
        Text { out, asked, before: false, below: String::new(), notes: vec![] }
    }

    /// A line between files.
    fn next_file(&mut self) -> io::Result<()> {
        if self.before {
            writeln!(self.out)?;
        }
        self.before = true;
        Ok(())
    }

    fn cut_head(&mut self, heading: &Heading, survey: &Survey) -> io::Result<()> {
        let grid = &survey.grid;
        let elevation = survey.elevation.map_or("elevation unknown".into(), |angle| format!("elevation {angle} degrees"));
        let unit = heading.unit.unwrap_or("");
        let threshold = survey.threshold.map_or(String::new(), |t| format!(", threshold {t} {unit}"));
        writeln!(self.out, "cut {}: {elevation}{threshold}", survey.index)?;
        writeln!(
            self.out,
            "  {} rays of {} bins of {} m from {} m, reach {} km, centre at latitude {}, longitude {}",
            grid.rays,
            grid.bins,
            Distance(grid.spacing_mm.into()).short_metres(),
            Distance(grid.start_mm.into()).short_metres(),
            survey.reach().kilometres(),
            Millionths(grid.latitude_microdegrees),
            Millionths(grid.longitude_microdegrees)
        )?;
        for note in survey.notes.iter().filter(|note| !self.notes.contains(note)) {
            writeln!(self.out, "  note: {note}")?;
        }
        self.notes.extend_from_slice(&survey.notes);
        Ok(())
    }

    fn stretches(&mut self, survey: &Survey) -> io::Result<()> {
        let kinds = self.asked.wanted(survey.kinds);
        writeln!(self.out, "  ray  azimuth  first  bins   from km     to km  kind")?;
        for stretch in survey.stretches.iter().filter(|stretch| kinds.contains(&stretch.kind)) {
            let Stretch { ray, first, length, kind } = *stretch;
            let kilometres = |bin| survey.distance(bin).0 as f64 / 1e6;
            let azimuth = survey.azimuth(ray).map_or("-".into(), |azimuth| azimuth.to_string());
            let (from, to, kind) = (kilometres(first), kilometres(first + length), kind.words());
            writeln!(self.out, "{ray:>5} {azimuth:>8} {first:>6} {length:>5} {from:>9.3} {to:>9.3}  {kind}")?;
        }
        Ok(())
    }

    /// A line for each ray, in columns.
    fn values(&mut self, heading: &Heading, values: &Values) -> io::Result<()> {
        let decimals = values.decimals();
        let rays: Vec<Vec<String>> = values.rays().map(|ray| ray.iter().map(|value| cell(*value, decimals)).collect()).collect();
        let width = rays.iter().flatten().map(String::len).max().unwrap_or(1);
        let unit = heading.unit.map_or(String::new(), |unit| format!(" in {unit}"));
        let absence = if heading.format == Format::Dual { "where there is no value" } else { "where missing" };
        writeln!(self.out, "  ray  values{unit} of bins 0 to {}, - {absence}", values.bins - 1)?;
        for (ray, cells) in rays.iter().enumerate() {
            write!(self.out, "{ray:>5} ")?;
            for cell in cells {
                write!(self.out, " {cell:>width$}")?;
            }
            writeln!(self.out)?;
        }
        Ok(())
    }

    fn totals(&mut self, heading: &Heading, survey: &Survey) -> io::Result<()> {
        for (kind, bins, percent) in survey.totals() {
            let means = if kind == Kind::NoValue { format!("  ({})", heading.absence_means) } else { String::new() };
            writeln!(self.out, "total {:<8}{bins:>8} bins {percent:>6} %{means}", kind.words())?;
        }
        Ok(())
    }

    /// Where the least and the greatest value stand.
    fn ends(&mut self, heading: &Heading, values: &Values) -> io::Result<()> {
        let decimals = values.decimals();
        let unit = heading.unit.map_or(String::new(), |unit| format!(" {unit}"));
        for (name, end) in [("least", values.least()), ("greatest", values.greatest())] {
            let shown = cell(end.map(|found| found.value), decimals);
            let place = end.map_or(String::new(), |Found { ray, bin, .. }| format!("{unit} at ray {ray}, bin {bin}"));
            writeln!(self.out, "{name:<14} {shown:>7}{place}")?;
        }
        Ok(())
    }
}

impl<W: Write> Report for Text<'_, W> {
    fn begin(&mut self) -> io::Result<()> {
        Ok(())
    }

    fn file(&mut self, name: &str, heading: &Heading) -> io::Result<()> {
        self.next_file()?;
        self.notes.clear();
        let Heading { format, product_in_full, time, site, cuts, .. } = heading;
        let cuts = if *cuts == 1 { "1 cut".into() } else { format!("{cuts} cuts") };
        writeln!(self.out, "{}: {format} format, {product_in_full}, {time}, site {site}, {cuts}", on_one_line(name))
    }

    fn cut(&mut self, _: &str, heading: &Heading, survey: &Survey) -> io::Result<()> {
        self.cut_head(heading, survey)?;
        match (self.asked.list, &survey.values) {
            (List::Stretches, _) => self.stretches(survey)?,
            (List::Values, Some(values)) => self.values(heading, values)?,
            (List::Sectors, _) => {
                for kind in self.asked.wanted(survey.kinds) {
                    self.below.push_str(&sector_lines(heading, survey, kind));
                }
            }
            _ => (),
        }
        self.totals(heading, survey)?;
        match &survey.values {
            Some(values) if heading.format == Format::Dual => self.ends(heading, values),
            _ => Ok(()),
        }
    }

    fn file_end(&mut self) -> io::Result<()> {
        let below = std::mem::take(&mut self.below);
        self.out.write_all(below.as_bytes())
    }

    fn problem(&mut self, name: &str, problem: &Problem) -> io::Result<()> {
        self.next_file()?;
        writeln!(self.out, "{}: {}", on_one_line(name), on_one_line(&problem.to_string()))
    }

    fn end(&mut self) -> io::Result<()> {
        self.out.flush()
    }

    fn flush(&mut self) -> io::Result<()> {
        self.out.flush()
    }

    fn has_notes(&self) -> bool {
        true
    }
}
