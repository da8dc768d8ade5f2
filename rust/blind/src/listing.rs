//! Lists the files one after the other, and draws the cut that is wanted.
use crate::arguments::{Arguments, List};
use crate::input::{advice, read};
use crate::names::{on_one_line, printable};
use crate::picture;
use crate::problem::Problem;
use crate::progress::Progress;
use crate::report::{report, Report};
use crate::survey::{Heading, Opened, Survey};
use polar::Format;
use std::ffi::OsStr;
use std::io::{self, BufWriter, ErrorKind, Write};

/// Says something on standard error. Where that cannot be written to, the exit status says it.
pub fn say(text: &str) {
    let _ = writeln!(io::stderr(), "blind: {}", on_one_line(text));
}

pub struct Listing<'a> {
    asked: &'a Arguments,
    /// none once it can no more be written
    report: Option<Box<dyn Report + 'a>>,
    fault: Option<io::Error>,
    all_well: bool,
    progress: Progress,
    /// the notes that were said of this file
    notes: Vec<String>,
}

impl<'a> Listing<'a> {
    pub fn new(asked: &'a Arguments) -> Listing<'a> {
        let report = report(BufWriter::new(io::stdout().lock()), asked);
        Listing { asked, report: Some(report), fault: None, all_well: true, progress: Progress::new(), notes: vec![] }
    }

    /// Goes on with the report. What is left after a fault of it is whether all files are sound, and the picture.
    fn tell(&mut self, part: impl FnOnce(&mut dyn Report) -> io::Result<()>) {
        self.progress.clear();
        let Some(report) = &mut self.report else { return };
        if let Err(why) = part(report.as_mut()) {
            (self.fault, self.report) = (Some(why), None);
        }
    }

    /// Says what is wrong.
    fn complain(&mut self, text: &str) {
        self.all_well = false;
        self.tell(|report| report.flush());
        say(text);
    }

    /// The cuts that are wanted, where there is nothing asked that the file has not.
    fn wanted_cuts(&self, opened: &Opened, heading: &Heading) -> Result<Vec<usize>, Problem> {
        let asked = self.asked;
        if asked.threshold.is_some() && heading.format == Format::Dual {
            return Err(Problem::no_threshold());
        }
        if asked.wanted(heading.kinds).is_empty() {
            return Err(Problem::no_kind(&asked.kinds, heading.format, heading.kinds));
        }
        match asked.cut {
            None => Ok((0..heading.cuts).collect()),
            Some(index) => match opened.has_cut(index) {
                Ok(()) => Ok(vec![index]),
                Err(refusal) => Err(Problem::no_cut(refusal, index, heading.cuts)),
            },
        }
    }

    fn draw(&mut self, heading: &Heading, survey: &Survey) {
        let Some(out) = &self.asked.svg else { return };
        let written = match &survey.turn {
            None => Err(io::Error::other(format!("cut {} has rays without an azimuth", survey.index))),
            Some(turn) => {
                let drawing = picture::drawing(heading, survey, turn);
                picture::file::write(out, &drawing, &self.asked.files, self.asked.force)
            }
        };
        if let Err(why) = written {
            self.complain(&format!("{} was not drawn: {why}", printable(out)));
        }
    }

    fn cut(&mut self, name: &str, heading: &Heading, survey: &Survey, draw: bool) {
        self.tell(|report| report.cut(name, heading, survey));
        let has_notes = self.report.as_ref().is_none_or(|report| report.has_notes());
        if !has_notes {
            for note in survey.notes.iter().filter(|note| !self.notes.contains(note)) {
                say(&format!("{name}: cut {}: note: {note}", survey.index));
            }
            self.notes.extend_from_slice(&survey.notes);
        }
        if draw {
            self.draw(heading, survey);
        }
    }

    /// Lists the file that is the `file`th, counted from 1.
    fn file(&mut self, file: usize, path: &OsStr, name: &str) -> Result<(), Problem> {
        let octets = read(path).map_err(Problem::Unread)?;
        let opened = Opened::open(&octets).map_err(|refusal| Problem::Refused(refusal, advice(path, &octets)))?;
        let heading = opened.heading();
        let cuts = self.wanted_cuts(&opened, &heading)?;
        self.notes.clear();
        self.tell(|report| report.file(name, &heading));
        let with_values = self.asked.list == List::Values;
        let mut outcome = Ok(());
        for (at, index) in cuts.iter().enumerate() {
            let draw = at == 0 && self.asked.svg.is_some();
            if self.report.is_none() && !draw {
                break;
            }
            self.progress.tell(|| {
                format!("blind: {}: cut {index} of {}, file {file} of {}", on_one_line(name), heading.cuts, self.asked.files.len())
            });
            match opened.survey(*index, self.asked.threshold, with_values) {
                Ok(survey) => self.cut(name, &heading, &survey, draw),
                Err(refusal) => {
                    outcome = Err(Problem::Refused(refusal, None));
                    break;
                }
            }
        }
        self.tell(|report| report.file_end());
        outcome
    }

    /// Lists every file; answers whether all went well.
    pub fn run(mut self) -> bool {
        self.tell(|report| report.begin());
        for (at, path) in self.asked.files.iter().enumerate() {
            let name = printable(path);
            if let Err(problem) = self.file(at + 1, path, &name) {
                self.tell(|report| report.problem(&name, &problem));
                self.complain(&format!("{name}: {problem}"));
                if let Some(out) = &self.asked.svg {
                    self.complain(&format!("{} was not drawn", printable(out)));
                }
            }
            // who reads along sees each file when it is done
            self.tell(|report| report.flush());
        }
        self.tell(|report| report.end());
        match &self.fault {
            // a reader that has seen enough, as `head`, is no fault
            Some(why) if why.kind() != ErrorKind::BrokenPipe => {
                say(&format!("standard output: {why}"));
                false
            }
            _ => self.all_well,
        }
    }
}
