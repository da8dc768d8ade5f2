//! The listing in its forms. docs/OUTPUT.md says what stands in each.
mod csv;
mod json;
mod text;

use crate::arguments::{Arguments, Form};
use crate::problem::Problem;
use crate::survey::{Heading, Survey};
use std::io::{self, Write};

/// A listing: `begin`, then for each file `file`, its cuts and `file_end`, or `problem`; then `end`.
pub trait Report {
    fn begin(&mut self) -> io::Result<()>;
    fn file(&mut self, name: &str, heading: &Heading) -> io::Result<()>;
    fn cut(&mut self, name: &str, heading: &Heading, survey: &Survey) -> io::Result<()>;
    fn file_end(&mut self) -> io::Result<()>;
    /// A file that was not listed.
    fn problem(&mut self, name: &str, problem: &Problem) -> io::Result<()>;
    fn end(&mut self) -> io::Result<()>;
    /// Hands on what is written so far.
    fn flush(&mut self) -> io::Result<()>;
    /// Whether what a reader of the numbers should know has a place in it.
    fn has_notes(&self) -> bool;
}

pub fn report<'a>(out: impl Write + 'a, asked: &'a Arguments) -> Box<dyn Report + 'a> {
    match asked.form {
        Form::Text => Box::new(text::Text::new(out, asked)),
        Form::Csv => Box::new(csv::Csv::new(out, asked)),
        Form::Json => Box::new(json::Json::new(out, asked, json::ARRAY)),
        Form::JsonLines => Box::new(json::Json::new(out, asked, json::LINES)),
    }
}
