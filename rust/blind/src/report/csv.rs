//! Comma-separated values: a line of names, then rows. Every row begins with the same fields.
use super::Report;
use crate::arguments::{Arguments, List};
use crate::numbers::Distance;
use crate::problem::Problem;
use crate::sectors::sectors;
use crate::survey::{Heading, Stretch, Survey};
use crate::turn::shown;
use crate::values::Number;
use std::fmt::Display;
use std::io::{self, Write};

/// The fields that every row begins with.
const FIRST: &str = "file,status,time,site,product,unit,cut,elevation,threshold";

/// The fields that follow.
fn further(list: List) -> &'static str {
    match list {
        List::Stretches => "ray,azimuth,first,length,from_m,to_m,kind",
        List::Sectors => "first_ray,rays,from_azimuth,to_azimuth,first,length,from_m,to_m,kind,bins",
        List::Values => "ray,azimuth,bin,from_m,to_m,mark,value",
        List::Totals => "kind,bins,percent",
    }
}

pub struct Csv<'a, W> {
    out: W,
    asked: &'a Arguments,
}

/// A field, in quotes where it needs them.
fn field(text: &str) -> String {
    if text.contains([',', '"', '\n', '\r']) {
        format!("\"{}\"", text.replace('"', "\"\""))
    } else {
        text.into()
    }
}

/// A field that is empty where there is nothing to tell.
fn or_empty(value: Option<impl Display>) -> String {
    value.map_or(String::new(), |value| value.to_string())
}

/// The first fields of a cut's rows.
fn front(name: &str, status: &str, heading: &Heading, survey: &Survey) -> String {
    let Heading { time, site, product, unit, .. } = heading;
    let (elevation, threshold) = (or_empty(survey.elevation), or_empty(survey.threshold));
    format!("{},{status},{time},{site},{},{},{},{elevation},{threshold}", field(name), field(product), or_empty(*unit), survey.index)
}

/// As many fields as these names, all empty.
fn empty(names: &str) -> String {
    ",".repeat(names.matches(',').count())
}

/// From where to where some bins lie, in metres.
fn metres(survey: &Survey, first: usize, length: usize) -> String {
    let [from, to] = [first, first + length].map(|bin| survey.distance(bin)).map(Distance::metres);
    format!("{from},{to}")
}

impl<'a, W: Write> Csv<'a, W> {
    pub fn new(out: W, asked: &'a Arguments) -> Self {
        Csv { out, asked }
    }

    fn stretches(&mut self, front: &str, survey: &Survey) -> io::Result<bool> {
        let kinds = self.asked.wanted(survey.kinds);
        let mut any = false;
        for stretch in survey.stretches.iter().filter(|stretch| kinds.contains(&stretch.kind)) {
            let Stretch { ray, first, length, kind } = *stretch;
            let (azimuth, metres) = (or_empty(survey.azimuth(ray)), metres(survey, first, length));
            writeln!(self.out, "{front},{ray},{azimuth},{first},{length},{metres},{}", kind.name())?;
            any = true;
        }
        Ok(any)
    }

    fn sectors(&mut self, front: &str, survey: &Survey) -> io::Result<bool> {
        let mut any = false;
        for sector in self.asked.wanted(survey.kinds).into_iter().flat_map(|kind| sectors(survey, kind)) {
            let last = (sector.first_ray + sector.rays - 1) % survey.grid.rays;
            let from = or_empty(survey.turn.as_ref().map(|turn| shown(turn.ray(sector.first_ray).from)));
            let to = or_empty(survey.turn.as_ref().map(|turn| shown(turn.ray(last).to)));
            let metres = metres(survey, sector.first, sector.length);
            write!(self.out, "{front},{},{},{from},{to},", sector.first_ray, sector.rays)?;
            writeln!(self.out, "{},{},{metres},{},{}", sector.first, sector.length, sector.kind.name(), sector.bins)?;
            any = true;
        }
        Ok(any)
    }

    fn values(&mut self, front: &str, survey: &Survey) -> io::Result<()> {
        let Some(values) = &survey.values else { return Ok(()) };
        let absence = survey.kinds[0].name();
        for (ray, cells) in values.rays().enumerate() {
            let azimuth = or_empty(survey.azimuth(ray));
            for (bin, value) in cells.iter().enumerate() {
                write!(self.out, "{front},{ray},{azimuth},{bin},{},", metres(survey, bin, 1))?;
                match value {
                    Some(value) => writeln!(self.out, "measured,{}", Number(*value))?,
                    None => writeln!(self.out, "{absence},")?,
                }
            }
        }
        Ok(())
    }

    fn totals(&mut self, front: &str, survey: &Survey) -> io::Result<()> {
        for (kind, bins, percent) in survey.totals() {
            writeln!(self.out, "{front},{},{bins},{percent}", kind.name())?;
        }
        Ok(())
    }
}

impl<W: Write> Report for Csv<'_, W> {
    fn begin(&mut self) -> io::Result<()> {
        writeln!(self.out, "{FIRST},{}", further(self.asked.list))
    }

    fn file(&mut self, _: &str, _: &Heading) -> io::Result<()> {
        Ok(())
    }

    fn cut(&mut self, name: &str, heading: &Heading, survey: &Survey) -> io::Result<()> {
        let ok = front(name, "ok", heading, survey);
        let any = match self.asked.list {
            List::Stretches => self.stretches(&ok, survey)?,
            List::Sectors => self.sectors(&ok, survey)?,
            List::Values => self.values(&ok, survey).map(|_| true)?,
            List::Totals => self.totals(&ok, survey).map(|_| true)?,
        };
        if any {
            return Ok(());
        }
        // a cut that has nothing of the kinds asked for has a row all the same
        writeln!(self.out, "{},{}", front(name, "none", heading, survey), empty(further(self.asked.list)))
    }

    fn file_end(&mut self) -> io::Result<()> {
        Ok(())
    }

    fn problem(&mut self, name: &str, problem: &Problem) -> io::Result<()> {
        let after_status = FIRST.split_once("status,").map_or("", |(_, after)| after);
        writeln!(self.out, "{},{},{},{}", field(name), problem.status(), empty(after_status), empty(further(self.asked.list)))
    }

    fn end(&mut self) -> io::Result<()> {
        self.out.flush()
    }

    fn flush(&mut self) -> io::Result<()> {
        self.out.flush()
    }

    fn has_notes(&self) -> bool {
        false
    }
}

#[cfg(test)]
mod tests {
    use super::*;

    #[test]
    fn fields() {
        assert_eq!(field("a b"), "a b");
        assert_eq!(field("a,\"b\""), "\"a,\"\"b\"\"\"");
        assert_eq!((empty("a"), empty("a,b,c")), ("".into(), ",,".into()));
    }
}
