//! What is asked for on the command line.
use crate::kinds::Kind;
use crate::names::printable;
use polar::Threshold;
use std::ffi::{OsStr, OsString};
use std::os::unix::ffi::{OsStrExt, OsStringExt};

pub const VERSION: &str = concat!("blind ", env!("CARGO_PKG_VERSION"), "\n");

pub const HELP: &str = "\
blind [OPTION]... FILE...: what a radar saw, and where it was blind

Says of each FILE (up to 8 MiB; - is standard input) which format it has, what it holds, when and where it was made; then,
for each cut, how many bins are of each kind; then where it was blind, in sectors of neighbouring rays, largest first.
Kinds of the base format (reflectivity, velocity): missing, under the threshold, at or over it. Kinds of the dual-polarisation
format: no_value (invalid, or nothing was detected), measured.

What is listed:
  --sectors       sectors: what is joined over neighbouring rays (as text the default)
  --stretches     every longest stretch of one kind on each ray (the default of --csv, --json and --json-lines)
  --values        the value of every bin
  --totals        the totals alone
  --kind KIND     only sectors or stretches of this kind; may be given more than once
  --cut N         only this cut, counted from 0
  --threshold V   for files of the base format: in the file's own unit, dBZ or m/s, -327.67 to 327.67
                  (default: the house threshold, 40.00, which is meant in dBZ)

How it is written:
  --csv           comma-separated values
  --json          one JSON array, an object for each file
  --json-lines    the same objects, a line for each file
  --svg OUT       also draw the cut (--cut N, else cut 0) as the radar sees it. OUT is never one of the files that are read,
                  and nothing that is no SVG is overwritten
  --force         let --svg overwrite what is no SVG

  --version       the version
  --help          this text

A number is digits, for V with up to two more behind a point and a minus in front: 40, 0.5, -7.25; not 40., .5 or +4.
A file that is refused or cannot be read has its line, row or object in every listing.
Exit status: 0 all listed; 1 a file was refused or could not be read, listed or drawn, or the listing could not be written;
2 wrong options. docs/OUTPUT.md has every field.
";

#[derive(Debug, Clone, Copy, PartialEq, Eq)]
pub enum Form {
    Text,
    Csv,
    Json,
    JsonLines,
}

#[derive(Debug, Clone, Copy, PartialEq, Eq)]
pub enum List {
    Sectors,
    Stretches,
    Values,
    Totals,
}

#[derive(Debug, PartialEq, Eq)]
pub struct Arguments {
    pub files: Vec<OsString>,
    /// none where none was given
    pub threshold: Option<Threshold>,
    /// those asked for; none named is all that the listing has
    pub kinds: Vec<Kind>,
    pub cut: Option<usize>,
    pub list: List,
    pub form: Form,
    pub svg: Option<OsString>,
    /// overwrite what is no SVG
    pub force: bool,
}

impl Arguments {
    /// Of a format's kinds those that are to be listed; none where none of the kinds asked for is the format's.
    pub fn wanted(&self, kinds: &'static [Kind]) -> Vec<Kind> {
        match self.list {
            _ if !self.kinds.is_empty() => kinds.iter().copied().filter(|kind| self.kinds.contains(kind)).collect(),
            List::Sectors => kinds.iter().copied().filter(|kind| kind.is_absence()).collect(),
            _ => kinds.to_vec(),
        }
    }
}

#[derive(Debug, PartialEq, Eq)]
pub enum Asked {
    Help,
    Version,
    List(Arguments),
}

fn are_digits(text: &str) -> bool {
    !text.is_empty() && text.bytes().all(|octet| octet.is_ascii_digit())
}

/// A whole number, in digits alone.
fn whole(text: &str) -> Option<usize> {
    are_digits(text).then(|| text.parse().ok()).flatten()
}

/// A threshold: digits, one or two more behind a point, a minus in front.
fn threshold(text: &str) -> Option<Threshold> {
    let size = text.strip_prefix('-').unwrap_or(text);
    let (before, behind) = size.split_once('.').unwrap_or((size, "0"));
    if !are_digits(before) || !are_digits(behind) || behind.len() > 2 {
        return None;
    }
    let number: i32 = format!("{before}{behind:0<2}").parse().ok()?;
    Threshold::from_hundredths(if text.starts_with('-') { -number } else { number }).ok()
}

/// Sets what may be said once.
fn once<T: PartialEq>(slot: &mut Option<T>, value: T, names: &str) -> Result<(), String> {
    match slot {
        Some(before) if *before != value => Err(format!("{names} exclude each other")),
        _ => {
            *slot = Some(value);
            Ok(())
        }
    }
}

/// An option's name, and what stands behind its `=`.
fn split(word: &OsStr) -> (String, Option<OsString>) {
    let octets = word.as_bytes();
    match octets.iter().position(|octet| *octet == b'=') {
        Some(at) => (printable(OsStr::from_bytes(&octets[..at])), Some(OsString::from_vec(octets[at + 1..].to_vec()))),
        None => (printable(word), None),
    }
}

#[derive(Default)]
struct Given {
    files: Vec<OsString>,
    threshold: Option<Threshold>,
    kinds: Vec<Kind>,
    cut: Option<usize>,
    list: Option<List>,
    form: Option<Form>,
    svg: Option<OsString>,
    force: bool,
}

const LISTS: &str = "--sectors, --stretches, --values and --totals";
const FORMS: &str = "--csv, --json and --json-lines";

impl Given {
    /// Takes an option that has a value.
    fn take_with(&mut self, name: &str, value: OsString) -> Result<(), String> {
        let text = printable(&value);
        match name {
            "--threshold" => {
                let number = threshold(&text)
                    .ok_or(format!("{text}: a threshold is a number from -327.67 to 327.67 with up to two decimals, as 40 or -0.5"))?;
                once(&mut self.threshold, number, "two thresholds")
            }
            "--kind" => {
                self.kinds.push(Kind::named(&text).ok_or(format!("{text}: a kind is missing, under, over, no_value or measured"))?);
                Ok(())
            }
            "--cut" => {
                let number = whole(&text).ok_or(format!("{text}: a cut is a whole number from 0 on, in digits alone"))?;
                once(&mut self.cut, number, "two cuts")
            }
            _ if value == "-" || value.is_empty() => Err("--svg wants the name of a file".into()),
            _ => once(&mut self.svg, value, "two pictures"),
        }
    }

    /// Takes an option that has none.
    fn take(&mut self, name: &str) -> Result<(), String> {
        match name {
            "--sectors" => once(&mut self.list, List::Sectors, LISTS),
            "--stretches" => once(&mut self.list, List::Stretches, LISTS),
            "--values" => once(&mut self.list, List::Values, LISTS),
            "--totals" => once(&mut self.list, List::Totals, LISTS),
            "--csv" => once(&mut self.form, Form::Csv, FORMS),
            "--json" => once(&mut self.form, Form::Json, FORMS),
            "--json-lines" => once(&mut self.form, Form::JsonLines, FORMS),
            "--force" => {
                self.force = true;
                Ok(())
            }
            _ => Err(format!("{name}: no such option")),
        }
    }

    fn asked(self) -> Result<Arguments, String> {
        let form = self.form.unwrap_or(Form::Text);
        let by_form = if form == Form::Text { List::Sectors } else { List::Stretches };
        let list = self.list.unwrap_or(by_form);
        if self.files.is_empty() {
            return Err("no file named".into());
        }
        if self.files.iter().filter(|file| *file == "-").count() > 1 {
            return Err("standard input can be read once".into());
        }
        if self.svg.is_some() && self.files.len() > 1 {
            return Err("--svg draws one cut of one file".into());
        }
        if self.force && self.svg.is_none() {
            return Err("--force is for --svg".into());
        }
        if !self.kinds.is_empty() && matches!(list, List::Values | List::Totals) {
            return Err("--kind chooses sectors or stretches, and --values and --totals list none".into());
        }
        let Given { files, threshold, kinds, cut, svg, force, .. } = self;
        Ok(Arguments { files, threshold, kinds, cut, list, form, svg, force })
    }
}

pub fn parse(mut words: impl Iterator<Item = OsString>) -> Result<Asked, String> {
    let mut given = Given::default();
    while let Some(word) = words.next() {
        if word == "-" || !word.as_bytes().starts_with(b"-") {
            given.files.push(word);
            continue;
        }
        let (name, value) = split(&word);
        match (name.as_str(), value) {
            ("--help" | "-h", None) => return Ok(Asked::Help),
            ("--version" | "-V", None) => return Ok(Asked::Version),
            ("--", None) => {
                given.files.extend(words);
                break;
            }
            ("--threshold" | "--kind" | "--cut" | "--svg", value) => {
                let value = value.or_else(|| words.next()).ok_or(format!("{name} wants a value"))?;
                given.take_with(&name, value)?;
            }
            (_, None) => given.take(&name)?,
            (_, Some(_)) => return Err(format!("{name}: no such option, or it takes no value")),
        }
    }
    Ok(Asked::List(given.asked()?))
}

#[cfg(test)]
mod tests {
    use super::*;

    fn parsed(line: &str) -> Result<Asked, String> {
        parse(line.split_whitespace().map(OsString::from))
    }

    fn listed(line: &str) -> Arguments {
        match parsed(line) {
            Ok(Asked::List(asked)) => asked,
            other => panic!("{line}: {other:?}"),
        }
    }

    /// One rule for numbers: digits on both sides of a point, no plus.
    #[test]
    fn numbers() {
        for (text, expected) in [
            ("40.00", Some(4000)),
            ("40", Some(4000)),
            ("0.5", Some(50)),
            ("-7.25", Some(-725)),
            ("-0", Some(0)),
            ("007", Some(700)),
            ("327.67", Some(32767)),
            ("-327.67", Some(-32767)),
        ] {
            assert_eq!(threshold(text).map(|t| t.hundredths().0), expected, "{text}");
        }
        for text in
            ["", "-", ".5", "40.", "1.234", "327.68", "1e3", "+4", "4,0", "--4", "4.-1", "9999", "99999999999", " 4", "4.+1", "\u{664}"]
        {
            assert_eq!(threshold(text), None, "{text}");
        }
        assert_eq!((whole("0"), whole("63"), whole("007")), (Some(0), Some(63), Some(7)));
        for text in ["", "+0", "-0", "1.", "1.0", " 1", "x", "99999999999999999999"] {
            assert_eq!(whole(text), None, "{text}");
        }
    }

    #[test]
    fn options() {
        let asked = listed("--threshold=-5 --kind missing --kind over --cut 2 --json a -");
        assert_eq!((asked.threshold, asked.cut, asked.form, asked.list), (threshold("-5.00"), Some(2), Form::Json, List::Stretches));
        assert_eq!((asked.kinds, asked.files), (vec![Kind::Missing, Kind::Over], vec![OsString::from("a"), "-".into()]));
        let asked = listed("-- --csv");
        assert_eq!((asked.files, asked.form, asked.list), (vec![OsString::from("--csv")], Form::Text, List::Sectors));
        assert_eq!((parsed("--help x"), parsed("a --version")), (Ok(Asked::Help), Ok(Asked::Version)));
        assert_eq!((listed("--csv --csv a").form, listed("--cut 1 --cut 1 a").cut), (Form::Csv, Some(1)));
        let asked = listed("--svg o --force --json-lines --totals a");
        assert_eq!((asked.svg, asked.force, asked.form, asked.list), (Some("o".into()), true, Form::JsonLines, List::Totals));
    }

    #[test]
    fn wrong_options() {
        for wrong in ["", "--json", "--cut x a", "--cut", "--kind clear a", "--loud a", "--json=1 a", "--svg o a b", "--threshold 1000 a"] {
            assert!(parsed(wrong).is_err(), "{wrong}");
        }
        for wrong in ["--values=1 a", "--values --totals a", "--values --kind missing a", "--csv --json a", "--json --json-lines a"] {
            assert!(parsed(wrong).is_err(), "{wrong}");
        }
        for wrong in ["--force a", "- -", "--svg - a", "--cut 1 --cut 2 a", "--threshold 1 --threshold 2 a", "--help=1 a", "--svg= a"] {
            assert!(parsed(wrong).is_err(), "{wrong}");
        }
    }

    #[test]
    fn kinds_of_a_format() {
        assert_eq!(listed("a").wanted(&Kind::BASE), [Kind::Missing]);
        assert_eq!(listed("--stretches a").wanted(&Kind::DUAL), Kind::DUAL);
        assert_eq!(listed("--kind over --kind measured a").wanted(&Kind::DUAL), [Kind::Measured]);
        assert_eq!(listed("--kind over a").wanted(&Kind::DUAL), []);
    }

    #[test]
    fn names_of_any_octets() {
        let words = [&b"--svg=\xff.svg"[..], b"\xfe"].map(|octets| OsString::from_vec(octets.to_vec()));
        let Ok(Asked::List(asked)) = parse(words.clone().into_iter()) else { panic!("sound names") };
        assert_eq!((asked.svg, asked.files), (Some(OsString::from_vec(b"\xff.svg".to_vec())), vec![words[1].clone()]));
        let wrong = OsString::from_vec(b"--\xff".to_vec());
        assert_eq!(parse([wrong].into_iter()), Err("--\\xff: no such option".into()));
    }
}
