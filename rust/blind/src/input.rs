//! Reading files, and what they are where they are none of a radar's.
use crate::names::{path_for_shell, word_for_shell};
use std::ffi::OsStr;
use std::fs::File;
use std::io::{self, Read};
use std::os::unix::ffi::OsStrExt;

/// One octet more than the largest file: whatever is longer is refused all the same.
const MOST_OCTETS: u64 = 8_388_609;

pub fn read(path: &OsStr) -> io::Result<Vec<u8>> {
    let mut octets = Vec::new();
    if path == "-" {
        io::stdin().lock().take(MOST_OCTETS).read_to_end(&mut octets)?;
    } else {
        File::open(path)?.take(MOST_OCTETS).read_to_end(&mut octets)?;
    }
    Ok(octets)
}

/// The octets of a tar archive's block.
const BLOCK: usize = 512;
/// Where a block's sum stands, in octal digits; for the sum these octets count as spaces.
const SUM: std::ops::Range<usize> = 148..156;

/// An octal number that spaces or zero octets end.
fn octal(field: &[u8]) -> Option<u64> {
    let text = std::str::from_utf8(field).ok()?.trim_matches([' ', '\0']);
    u64::from_str_radix(text, 8).ok()
}

/// The first block of a tar archive, told by its own sum.
fn tar_block(octets: &[u8]) -> Option<&[u8]> {
    let block = octets.get(..BLOCK)?;
    let sum: u64 = block.iter().enumerate().map(|(at, octet)| if SUM.contains(&at) { b' '.into() } else { u64::from(*octet) }).sum();
    (block[0] != 0 && octal(&block[SUM])? == sum).then_some(block)
}

/// The name of the archive's first file; none where the first block is of another kind, or the name is a longer one's part.
fn first_name(block: &[u8]) -> Option<&[u8]> {
    let name = block[..100].split(|octet| *octet == 0).next()?;
    let whole = name.len() < 100 && block[345] == 0 && matches!(block[156], b'0' | 0);
    (whole && !name.starts_with(b"-")).then_some(name)
}

/// Whether gunzip takes a file of this name; another it takes from its standard input.
fn is_gunzips(path: &OsStr) -> bool {
    [&b".gz"[..], b".tgz"].iter().any(|end| path.as_bytes().ends_with(end))
}

/// What to do with octets that are packed as the agency delivers them.
pub fn advice(path: &OsStr, octets: &[u8]) -> Option<String> {
    let from_pipe = path == "-";
    let file = path_for_shell(path);
    if octets.starts_with(&[0x1f, 0x8b]) {
        let how = match from_pipe {
            true => "... | gunzip -c | blind -".into(),
            false => format!("gunzip -c {}{file} | blind -", if is_gunzips(path) { "" } else { "<" }),
        };
        return Some(format!("this is a gzip file, and blind reads what is in it: {how}"));
    }
    let block = tar_block(octets)?;
    let name = first_name(block).map_or("NAME".into(), word_for_shell);
    let how = if from_pipe {
        format!("... | tar -xOf - {name} | blind -")
    } else {
        format!("tar -tf {file} lists them, and: tar -xOf {file} {name} | blind -")
    };
    Some(format!("this is a tar archive, and blind reads the files in it: {how}"))
}

#[cfg(test)]
mod tests {
    use super::*;

    #[test]
    fn what_is_no_archive_has_no_advice() {
        for octets in [&b""[..], b"GRIB", &[0; 1024], &[b'0'; 1024]] {
            assert_eq!(advice(OsStr::new("f"), octets), None);
        }
    }
}
