//! JSON: an object for each file, in one array or a line for each.
use super::Report;
use crate::arguments::{Arguments, List};
use crate::kinds::Kind;
use crate::numbers::{Distance, Millionths};
use crate::problem::Problem;
use crate::sectors::sectors;
use crate::survey::{Heading, Stretch, Survey};
use crate::turn::shown;
use crate::values::{Found, Number, Values};
use polar::Format;
use std::fmt::Display;
use std::io::{self, Write};

/// What stands before the first object, between two and behind the last, and within one before a cut and before its parts.
pub struct Frame {
    before: &'static str,
    between: &'static str,
    behind: &'static str,
    cut: &'static str,
    part: &'static str,
}

pub const ARRAY: Frame = Frame { before: "[\n", between: ",\n", behind: "\n]\n", cut: "\n ", part: "\n  " };
pub const LINES: Frame = Frame { before: "", between: "\n", behind: "\n", cut: "", part: "" };

pub struct Json<'a, W> {
    out: W,
    asked: &'a Arguments,
    frame: Frame,
    /// whether a file, and a cut of the file, was written before
    files_before: bool,
    cuts_before: bool,
}

fn string(text: &str) -> String {
    let escaped = |c: char| match c {
        '"' => "\\\"".into(),
        '\\' => "\\\\".into(),
        c if c.is_control() => format!("\\u{:04x}", u32::from(c)),
        c => c.to_string(),
    };
    format!("\"{}\"", text.chars().map(escaped).collect::<String>())
}

fn or_null(value: Option<impl Display>) -> String {
    value.map_or("null".into(), |value| value.to_string())
}

impl<'a, W: Write> Json<'a, W> {
    pub fn new(out: W, asked: &'a Arguments, frame: Frame) -> Self {
        Json { out, asked, frame, files_before: false, cuts_before: false }
    }

    fn next_file(&mut self) -> io::Result<()> {
        let between = if self.files_before { self.frame.between } else { "" };
        (self.files_before, self.cuts_before) = (true, false);
        write!(self.out, "{between}")
    }

    /// An array of objects that are written already.
    fn array(&mut self, name: &str, objects: impl Iterator<Item = String>) -> io::Result<()> {
        let part = self.frame.part;
        write!(self.out, ",{part}\"{name}\":[")?;
        for (at, object) in objects.enumerate() {
            let comma = if at == 0 { "" } else { "," };
            write!(self.out, "{comma}{part}{object}")?;
        }
        write!(self.out, "]")
    }

    /// The kinds that are listed, so that an empty list says of what there is none.
    fn kinds(&mut self, survey: &Survey) -> io::Result<()> {
        let names: Vec<String> = self.asked.wanted(survey.kinds).iter().map(|kind| string(kind.name())).collect();
        write!(self.out, ",\"kinds\":[{}]", names.join(","))
    }

    fn stretches(&mut self, survey: &Survey) -> io::Result<()> {
        self.kinds(survey)?;
        let kinds = self.asked.wanted(survey.kinds);
        let object = |stretch: &Stretch| {
            let Stretch { ray, first, length, kind } = *stretch;
            let [from, to] = [first, first + length].map(|bin| survey.distance(bin).metres());
            let (azimuth, kind) = (or_null(survey.azimuth(ray)), kind.name());
            let bins = format!("\"first\":{first},\"length\":{length},\"from_m\":{from},\"to_m\":{to}");
            format!("{{\"ray\":{ray},\"azimuth\":{azimuth},{bins},\"kind\":\"{kind}\"}}")
        };
        self.array("stretches", survey.stretches.iter().filter(|stretch| kinds.contains(&stretch.kind)).map(object))
    }

    fn sectors(&mut self, survey: &Survey) -> io::Result<()> {
        self.kinds(survey)?;
        let found = self.asked.wanted(survey.kinds).into_iter().flat_map(|kind| sectors(survey, kind));
        let objects = found.map(|sector| {
            let last = (sector.first_ray + sector.rays - 1) % survey.grid.rays;
            let turn = survey.turn.as_ref();
            let from = or_null(turn.map(|turn| shown(turn.ray(sector.first_ray).from)));
            let to = or_null(turn.map(|turn| shown(turn.ray(last).to)));
            let [near, far] = [sector.first, sector.first + sector.length].map(|bin| survey.distance(bin).metres());
            let rays = format!("\"first_ray\":{},\"rays\":{},\"from_azimuth\":{from},\"to_azimuth\":{to}", sector.first_ray, sector.rays);
            let bins = format!("\"first\":{},\"length\":{},\"from_m\":{near},\"to_m\":{far}", sector.first, sector.length);
            format!("{{{rays},{bins},\"kind\":\"{}\",\"bins\":{}}}", sector.kind.name(), sector.bins)
        });
        self.array("sectors", objects)
    }

    /// An array for each ray; null where there is no value.
    fn values(&mut self, values: &Values) -> io::Result<()> {
        let of_ray = |ray: &[Option<f64>]| {
            let cells: Vec<String> = ray.iter().map(|value| or_null(value.map(Number))).collect();
            format!("[{}]", cells.join(","))
        };
        self.array("values", values.rays().map(of_ray))
    }

    fn totals(&mut self, survey: &Survey) -> io::Result<()> {
        let total = |(kind, bins, percent): (Kind, usize, String)| format!("\"{}\":{{\"bins\":{bins},\"percent\":{percent}}}", kind.name());
        let totals: Vec<String> = survey.totals().into_iter().map(total).collect();
        write!(self.out, ",{}\"totals\":{{{}}}", self.frame.part, totals.join(","))
    }

    fn ends(&mut self, values: &Values) -> io::Result<()> {
        for (name, end) in [("least", values.least()), ("greatest", values.greatest())] {
            let object = end.map(|Found { value, ray, bin }| format!("{{\"value\":{},\"ray\":{ray},\"bin\":{bin}}}", Number(value)));
            write!(self.out, ",\"{name}\":{}", or_null(object))?;
        }
        Ok(())
    }
}

impl<W: Write> Report for Json<'_, W> {
    fn begin(&mut self) -> io::Result<()> {
        write!(self.out, "{}", self.frame.before)
    }

    fn file(&mut self, name: &str, heading: &Heading) -> io::Result<()> {
        self.next_file()?;
        let Heading { format, parameter, time, site, .. } = heading;
        let (product, unit) = (string(&heading.product), or_null(heading.unit.map(string)));
        write!(self.out, "{{\"file\":{},\"status\":\"ok\",\"format\":\"{format}\",\"product\":{product},", string(name))?;
        write!(self.out, "\"parameter\":{parameter},\"unit\":{unit},\"time\":\"{time}\",\"site\":{site},\"cuts\":[")
    }

    fn cut(&mut self, _: &str, heading: &Heading, survey: &Survey) -> io::Result<()> {
        let comma = if self.cuts_before { "," } else { "" };
        self.cuts_before = true;
        let grid = &survey.grid;
        let (elevation, threshold) = (or_null(survey.elevation), or_null(survey.threshold));
        let start = or_null(survey.start_azimuth.map(|start| shown(start.to_f64())));
        write!(self.out, "{comma}{}{{\"cut\":{},\"elevation\":{elevation},", self.frame.cut, survey.index)?;
        write!(self.out, "\"threshold\":{threshold},\"rays\":{},\"bins\":{},\"start_azimuth\":{start},", grid.rays, grid.bins)?;
        write!(
            self.out,
            "\"latitude\":{},\"longitude\":{},",
            Millionths(grid.latitude_microdegrees),
            Millionths(grid.longitude_microdegrees)
        )?;
        let [spacing, from, reach] = [u64::from(grid.spacing_mm), grid.start_mm.into(), survey.reach().0].map(|mm| Distance(mm).metres());
        write!(self.out, "\"spacing_m\":{spacing},\"start_m\":{from},\"reach_m\":{reach},")?;
        let notes: Vec<String> = survey.notes.iter().map(|note| string(note)).collect();
        write!(self.out, "\"notes\":[{}]", notes.join(","))?;
        self.totals(survey)?;
        if let (Format::Dual, Some(values)) = (heading.format, &survey.values) {
            self.ends(values)?;
        }
        match (self.asked.list, &survey.values) {
            (List::Stretches, _) => self.stretches(survey)?,
            (List::Sectors, _) => self.sectors(survey)?,
            (List::Values, Some(values)) => self.values(values)?,
            _ => (),
        }
        write!(self.out, "}}")
    }

    fn file_end(&mut self) -> io::Result<()> {
        write!(self.out, "]}}")
    }

    fn problem(&mut self, name: &str, problem: &Problem) -> io::Result<()> {
        self.next_file()?;
        let meaning = string(&problem.meaning());
        let why = match problem {
            Problem::Refused(refusal, _) => {
                format!("\"refused\":{{\"number\":{},\"place\":{},\"meaning\":{meaning}}}", refusal.number(), refusal.place())
            }
            Problem::Unread(_) => format!("\"unread\":{meaning}"),
            Problem::NotListed(_) => format!("\"not_listed\":{meaning}"),
        };
        write!(self.out, "{{\"file\":{},\"status\":{},{why}}}", string(name), string(&problem.status()))
    }

    fn end(&mut self) -> io::Result<()> {
        write!(self.out, "{}", self.frame.behind)?;
        self.out.flush()
    }

    fn flush(&mut self) -> io::Result<()> {
        self.out.flush()
    }

    fn has_notes(&self) -> bool {
        true
    }
}

#[cfg(test)]
mod tests {
    use super::*;

    #[test]
    fn strings() {
        assert_eq!(string("a\\\"\n"), "\"a\\\\\\\"\\u000a\"");
    }
}
