//! Why a file was not listed, or not drawn.
use crate::kinds::Kind;
use polar::Refusal;
use std::fmt;
use std::io;

pub enum Problem {
    /// the library's refusal, with what is said of it in place of its meaning
    Refused(Refusal, Option<String>),
    Unread(io::Error),
    /// what was asked for is none of this file's
    NotListed(String),
}

impl Problem {
    /// A cut that is not there.
    pub fn no_cut(refusal: Refusal, index: usize, cuts: usize) -> Problem {
        let has = if cuts == 1 { "cut 0 alone".into() } else { format!("cuts 0 to {}", cuts - 1) };
        Problem::Refused(refusal, Some(format!("there is no cut {index}: the file has {has}")))
    }

    pub fn no_kind(asked: &[Kind], format: polar::Format, kinds: &[Kind]) -> Problem {
        let names = |kinds: &[Kind], last: &str| kinds.iter().map(|kind| kind.name()).collect::<Vec<_>>().join(last);
        Problem::NotListed(format!("no bin is {}: the kinds of the {format} format are {}", names(asked, " or "), names(kinds, ", ")))
    }

    pub fn no_threshold() -> Problem {
        Problem::NotListed("this is a dual-polarisation file, and --threshold is for files of the base format".into())
    }

    /// The word of the field `status`.
    pub fn status(&self) -> String {
        match self {
            Problem::Refused(refusal, _) => format!("refused {} at {}", refusal.number(), refusal.place()),
            Problem::Unread(_) => "unread".into(),
            Problem::NotListed(_) => "not listed".into(),
        }
    }

    /// What it means, in a plain sentence.
    pub fn meaning(&self) -> String {
        match self {
            Problem::Refused(_, Some(instead)) => instead.clone(),
            Problem::Refused(refusal, None) => refusal.meaning(),
            Problem::Unread(why) => format!("could not be read: {why}"),
            Problem::NotListed(why) => why.clone(),
        }
    }
}

impl fmt::Display for Problem {
    fn fmt(&self, f: &mut fmt::Formatter<'_>) -> fmt::Result {
        match self {
            Problem::Unread(_) => f.write_str(&self.meaning()),
            _ => write!(f, "{}: {}", self.status(), self.meaning()),
        }
    }
}
