//! `blind FILE...`: what a radar saw, and where it was blind.
mod arguments;
mod dual_angles;
mod input;
mod kinds;
mod listing;
mod names;
mod numbers;
mod picture;
mod problem;
mod progress;
mod report;
mod sectors;
mod survey;
mod turn;
mod values;

use arguments::{Asked, HELP, VERSION};
use listing::{say, Listing};
use std::io::{self, ErrorKind, Write};
use std::process::ExitCode;

/// Wrong options.
const USAGE: u8 = 2;

/// Prints a text; answers whether it could be.
fn print(text: &str) -> bool {
    let mut out = io::stdout().lock();
    match out.write_all(text.as_bytes()).and_then(|()| out.flush()) {
        Err(why) if why.kind() != ErrorKind::BrokenPipe => {
            say(&format!("standard output: {why}"));
            false
        }
        _ => true,
    }
}

fn main() -> ExitCode {
    let well = match arguments::parse(std::env::args_os().skip(1)) {
        Ok(Asked::Help) => print(HELP),
        Ok(Asked::Version) => print(VERSION),
        Ok(Asked::List(asked)) => Listing::new(&asked).run(),
        Err(why) => {
            say(&format!("{why}; try: blind --help"));
            return ExitCode::from(USAGE);
        }
    };
    if well {
        ExitCode::SUCCESS
    } else {
        ExitCode::FAILURE
    }
}
