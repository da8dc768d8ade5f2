//! Names of files, which may be any octets, as they are shown.
use std::ffi::OsStr;
use std::fmt::Write;
use std::os::unix::ffi::OsStrExt;

/// A name with each octet that is no part of a character shown as `\xNN`.
pub fn printable(name: &OsStr) -> String {
    let mut shown = String::new();
    for chunk in name.as_bytes().utf8_chunks() {
        shown.push_str(chunk.valid());
        for octet in chunk.invalid() {
            let _ = write!(shown, "\\x{octet:02x}");
        }
    }
    shown
}

/// Text that stays on its line: control characters are shown as `\xNN`, so that no name can forge a line.
pub fn on_one_line(text: &str) -> String {
    let mut shown = String::new();
    for c in text.chars() {
        if c.is_control() {
            let mut octets = [0; 4];
            for octet in c.encode_utf8(&mut octets).bytes() {
                let _ = write!(shown, "\\x{octet:02x}");
            }
        } else {
            shown.push(c);
        }
    }
    shown
}

/// A path for a shell: one word, which is no option, and nothing on another machine, as `tar` takes what has a colon.
pub fn path_for_shell(path: &OsStr) -> String {
    let octets = path.as_bytes();
    let before_slash = octets.split(|octet| *octet == b'/').next().unwrap_or_default();
    if octets.starts_with(b"-") || before_slash.contains(&b':') {
        word_for_shell(&[b"./", octets].concat())
    } else {
        word_for_shell(octets)
    }
}

/// Octets as one word of a shell.
pub fn word_for_shell(octets: &[u8]) -> String {
    let plain = |octet: &u8| octet.is_ascii_alphanumeric() || b"_./,:=@%+-".contains(octet);
    let text = String::from_utf8_lossy(octets);
    if octets.iter().all(plain) {
        text.into()
    } else if std::str::from_utf8(octets).is_ok_and(|text| !text.contains(char::is_control)) {
        format!("'{}'", text.replace('\'', "'\\''"))
    } else {
        let quoted = |octet: &u8| match octet {
            b'\'' | b'\\' => format!("\\{}", char::from(*octet)),
            0x20..0x7f => char::from(*octet).to_string(),
            octet => format!("\\x{octet:02x}"),
        };
        format!("$'{}'", octets.iter().map(quoted).collect::<String>())
    }
}

#[cfg(test)]
mod tests {
    use super::*;

    #[test]
    fn any_octets_are_shown() {
        assert_eq!(printable(OsStr::from_bytes(b"a\xff\xc3\xa9b\xc3")), "a\\xff\u{e9}b\\xc3");
        assert_eq!(on_one_line("a\nb\u{85}"), "a\\x0ab\\xc2\\x85");
    }

    #[test]
    fn words_of_a_shell() {
        for (name, word) in [
            (&b"a/b-1.bin"[..], "a/b-1.bin"),
            (b"-x.gz", "./-x.gz"),
            (b"a:b", "./a:b"),
            (b"a/b:c", "a/b:c"),
            (b"a b's", "'a b'\\''s'"),
            (b"a\xff'\n", "$'a\\xff\\'\\x0a'"),
            (b"", ""),
        ] {
            assert_eq!(path_for_shell(OsStr::from_bytes(name)), word);
        }
    }
}
