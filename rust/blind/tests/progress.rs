//! Long work is told of on standard error where that is a terminal, and nowhere else.
mod common;

use common::{all, command};
use std::ffi::{c_char, c_int, CStr};
use std::fs::File;
use std::io::{ErrorKind, Read};
use std::os::fd::FromRawFd;
use std::process::Stdio;

extern "C" {
    fn posix_openpt(flags: c_int) -> c_int;
    fn grantpt(fd: c_int) -> c_int;
    fn unlockpt(fd: c_int) -> c_int;
    fn ptsname(fd: c_int) -> *mut c_char;
}

/// O_RDWR and O_NOCTTY, as Linux has them.
const OPEN: c_int = 0o2 | 0o400;

/// The two ends of a terminal: what is written into the second is read from the first.
fn terminal() -> (File, File) {
    // the calls are lent no memory, and the name is copied before another call could change it
    let (near, name) = unsafe {
        let fd = posix_openpt(OPEN);
        assert!(fd >= 0 && grantpt(fd) == 0 && unlockpt(fd) == 0, "a terminal");
        let name = ptsname(fd);
        assert!(!name.is_null(), "its name");
        (File::from_raw_fd(fd), CStr::from_ptr(name).to_str().expect("a name").to_owned())
    };
    (near, File::options().read(true).write(true).open(name).expect("its other end"))
}

/// What the command writes on a terminal as its standard error, and its status.
fn on_terminal(words: &[&str]) -> (String, Option<i32>) {
    let (mut near, far) = terminal();
    let mut child = command().args(words).stdout(Stdio::null()).stderr(Stdio::from(far)).spawn().expect("the command");
    let (mut told, mut some) = (Vec::new(), [0; 4096]);
    loop {
        match near.read(&mut some) {
            Ok(count) if count > 0 => told.extend_from_slice(&some[..count]),
            Err(why) if why.kind() == ErrorKind::Interrupted => (),
            // nobody has the other end any more
            _ => break,
        }
    }
    (String::from_utf8(told).expect("text"), child.wait().expect("the command").code())
}

#[test]
fn long_work() {
    // as many files as it takes on this machine
    let mut count = 16;
    let told = loop {
        let (told, status) = on_terminal(&["--totals"].into_iter().chain(vec!["dual-full.bin"; count]).collect::<Vec<_>>());
        assert_eq!(status, Some(0));
        if !told.is_empty() {
            break told;
        }
        count *= 2;
        assert!(count < 5000, "{count} files, and not a word");
    };
    assert!(told.contains("\rblind: dual-full.bin: cut 0 of 1, file "), "{told:?}");
    // and it is wiped out in the end
    assert!(told.ends_with("\r\x1b[K"), "{told:?}");
    let output = command().arg("--totals").args(vec!["dual-full.bin"; count]).stdout(Stdio::null()).output().expect("the command");
    assert_eq!(all(&output).1, "");
}

/// Short work is not told of, and an error stands alone on its line.
#[test]
fn short_work() {
    assert_eq!(on_terminal(&["document01.bin"]), (String::new(), Some(0)));
    let (told, status) = on_terminal(&["no-such-file"]);
    assert_eq!((told.as_str(), status), ("blind: no-such-file: could not be read: No such file or directory (os error 2)\r\n", Some(1)));
}
