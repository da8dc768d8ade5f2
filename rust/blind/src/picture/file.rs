//! Where a picture is written: never over a file that is read, and over nothing that is no picture unless that is wished.
use std::ffi::{OsStr, OsString};
use std::fs::{self, File, Metadata, OpenOptions};
use std::io::{self, Read, Seek, Write};
use std::os::fd::AsFd;
use std::os::unix::fs::{FileTypeExt, MetadataExt};

/// As much of a file as it takes to tell whether it is an SVG.
const FRONT: u64 = 4096;

fn fault(text: &str) -> io::Error {
    io::Error::other(text)
}

/// Device and number: the same for every name of one file.
fn identity(metadata: &Metadata) -> (u64, u64) {
    (metadata.dev(), metadata.ino())
}

/// Whether this is one of the files that are read.
fn is_input(metadata: &Metadata, inputs: &[OsString]) -> bool {
    let of_input = |input: &OsString| {
        if input == "-" {
            File::from(io::stdin().as_fd().try_clone_to_owned().ok()?).metadata().ok()
        } else {
            fs::metadata(input).ok()
        }
    };
    inputs.iter().filter_map(of_input).any(|input| identity(&input) == identity(metadata))
}

/// What follows the first `<svg`, if that is what the text begins with but for what may stand before it.
fn after_svg(text: &str) -> Option<&str> {
    let mut rest = text.trim_start_matches('\u{feff}').trim_start();
    loop {
        if let Some(after) = rest.strip_prefix("<svg") {
            return Some(after);
        }
        let end = ["<?", "<!--", "<!"].into_iter().zip(["?>", "-->", ">"]).find(|(begin, _)| rest.starts_with(begin))?.1;
        rest = rest.split_once(end)?.1.trim_start();
    }
}

/// Whether a file's first octets are those of an SVG.
fn is_svg(front: &[u8]) -> bool {
    // a character may be cut off at the end
    let text = String::from_utf8_lossy(front);
    after_svg(&text).is_some_and(|after| after.starts_with(|c: char| c == '>' || c == '/' || c.is_whitespace()))
}

/// Whether a file may be written over: an SVG, or one that holds nothing.
fn may_be_lost(file: &mut File, metadata: &Metadata) -> io::Result<bool> {
    if !metadata.is_file() {
        return Ok(false);
    }
    let mut front = Vec::new();
    Read::by_ref(file).take(FRONT).read_to_end(&mut front)?;
    file.rewind()?;
    Ok(front.is_empty() || is_svg(&front))
}

/// Writes to what keeps nothing: a pipe or a terminal.
fn hand_on(out: &OsStr, drawing: &str) -> io::Result<()> {
    OpenOptions::new().write(true).open(out)?.write_all(drawing.as_bytes())
}

/// Writes a picture. What is tested is the file that is opened, not its name.
pub fn write(out: &OsStr, drawing: &str, inputs: &[OsString], force: bool) -> io::Result<()> {
    let kind = fs::metadata(out).map(|metadata| metadata.file_type());
    if kind.is_ok_and(|kind| kind.is_fifo() || kind.is_char_device()) {
        return hand_on(out, drawing);
    }
    let mut file = OpenOptions::new().read(true).write(true).create(true).truncate(false).open(out)?;
    let metadata = file.metadata()?;
    if is_input(&metadata, inputs) {
        return Err(fault("it is a file that is read"));
    }
    if !force && !may_be_lost(&mut file, &metadata)? {
        return Err(fault("it is there and is no SVG; --force overwrites it"));
    }
    file.set_len(0)?;
    file.write_all(drawing.as_bytes())
}

#[cfg(test)]
mod tests {
    use super::*;

    #[test]
    fn what_is_an_svg() {
        for yes in [
            "<svg xmlns=\"x\">",
            "\u{feff} <svg>",
            "<?xml version=\"1.0\"?>\n<!-- a > b -->\n<!DOCTYPE svg PUBLIC \"x\">\n<svg\n",
            "<svg/>",
        ] {
            assert!(is_svg(yes.as_bytes()), "{yes}");
        }
        for no in ["", "svg", "<svgx>", "<html><svg>", "GRIB<svg>", "<?xml version=\"1.0\"?><html>", "<!-- <svg >", "<svg"] {
            assert!(!is_svg(no.as_bytes()), "{no}");
        }
    }
}
