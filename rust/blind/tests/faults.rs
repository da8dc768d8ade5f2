//! No panic, whatever the names are and wherever the output goes.
mod common;

use common::{all, blind, command, sample, told, Folder};
use std::ffi::{OsStr, OsString};
use std::fs::{self, File};
use std::os::unix::ffi::{OsStrExt, OsStringExt};
use std::process::{Output, Stdio};

/// Whatever is written there is refused: the device is full.
fn full() -> File {
    File::options().write(true).open("/dev/full").expect("/dev/full")
}

fn no_panic(output: &Output) {
    assert!(!String::from_utf8_lossy(&output.stderr).contains("panicked"), "{}", String::from_utf8_lossy(&output.stderr));
    assert!(output.status.code().is_some_and(|code| code <= 2), "{:?}", output.status);
}

#[test]
fn names_that_are_no_text() {
    let folder = Folder::new();
    let name = OsStr::from_bytes(b"a\xff\n.bin");
    fs::copy(sample("document01.bin"), folder.path().join(name)).expect("a copy");
    let picture = OsStr::from_bytes(b"\xfe.svg");
    for (words, shown) in [
        (&["--totals"][..], "a\\xff\\x0a.bin: base format, "),
        (&["--csv"], "\n\"a\\xff\n.bin\",ok,"),
        (&["--json"], "{\"file\":\"a\\\\xff\\u000a.bin\",\"status\":\"ok\","),
    ] {
        let output = command().args(words).arg("--svg").arg(picture).arg(name).current_dir(folder.path()).output().expect("the command");
        no_panic(&output);
        assert!(told(&output.stdout).contains(shown), "{}", told(&output.stdout));
        assert_eq!((told(&output.stderr).as_str(), output.status.code()), ("", Some(0)));
        assert!(fs::read(folder.path().join(picture)).expect("the picture").starts_with(b"<svg "));
    }
    // one that is not there, and a picture that cannot be made
    let mut glued = OsString::from("--svg=");
    glued.push(OsStr::from_bytes(b"no/\xff.svg"));
    let output = command().arg(glued).arg(name).current_dir(folder.path()).output().expect("the command");
    no_panic(&output);
    assert_eq!(told(&output.stderr), "blind: no/\\xff.svg was not drawn: No such file or directory (os error 2)\n");
    let output = command().arg(OsString::from_vec(b"\xff".to_vec())).output().expect("the command");
    assert_eq!(
        all(&output),
        (
            "\\xff: could not be read: No such file or directory (os error 2)\n".into(),
            "blind: \\xff: could not be read: No such file or directory (os error 2)\n".into(),
            Some(1)
        )
    );
    let output = command().arg(OsString::from_vec(b"--\xff".to_vec())).output().expect("the command");
    assert_eq!(all(&output), (String::new(), "blind: --\\xff: no such option; try: blind --help\n".into(), Some(2)));
}

/// What could not be written is a fault, said where that is possible; a pipe that nobody reads is none.
#[test]
fn output_that_cannot_be_written() {
    for words in [&["--help"][..], &["--version"], &["ridge.bin"], &["--csv", "ridge.bin"], &["--json", "ridge.bin"]] {
        let output = command().args(words).stdout(full()).stderr(Stdio::piped()).output().expect("the command");
        no_panic(&output);
        assert_eq!(output.status.code(), Some(1), "{words:?}");
        assert_eq!(told(&output.stderr), "blind: standard output: No space left on device (os error 28)\n");
        let mut child = command().args(words).stdout(Stdio::piped()).stderr(Stdio::piped()).spawn().expect("the command");
        drop(child.stdout.take());
        let output = child.wait_with_output().expect("the command");
        assert_eq!((output.status.code(), told(&output.stderr).as_str()), (Some(0), ""), "{words:?}");
    }
}

/// With nowhere to say it the status still does, and the listing too.
#[test]
fn errors_that_cannot_be_written() {
    for (words, status) in [
        (&["cut-short.bin"][..], 1),
        (&["--no-such-option"], 2),
        (&["--csv", "--totals", "wind.bin"], 0),
        (&["--svg", "/no/such/folder/a.svg", "dark.bin"], 1),
    ] {
        let output = command().args(words).stdout(Stdio::piped()).stderr(full()).output().expect("the command");
        assert_eq!(output.status.code(), Some(status), "{words:?}");
    }
    let output = command().args(["cut-short.bin"]).stdout(Stdio::piped()).stderr(full()).output().expect("the command");
    assert!(told(&output.stdout).starts_with("cut-short.bin: refused 2 at 0: "));
    let output = command().args(["--help"]).stdout(full()).stderr(full()).output().expect("the command");
    assert_eq!(output.status.code(), Some(1));
}

/// A link to a file is as good as the file.
#[test]
fn a_link() {
    let folder = Folder::new();
    std::os::unix::fs::symlink(sample("document01.bin"), folder.join("link")).expect("a link");
    let output = command().arg("link").current_dir(folder.path()).output().expect("the command");
    assert!(told(&output.stdout).starts_with("link: base format, reflectivity, "));
    assert_eq!(output.status.code(), Some(0));
}

/// Files that are none: a folder, a device without an end, an empty one.
#[test]
fn odd_files() {
    let output = blind(&["--csv", ".", "/dev/zero", "/dev/null"]);
    no_panic(&output);
    let listing = told(&output.stdout);
    let rows: Vec<&str> = listing.lines().skip(1).map(|row| row.split(",,").next().unwrap()).collect();
    assert_eq!((rows, output.status.code()), (vec![".,unread", "/dev/zero,refused 1 at 0", "/dev/null,refused 1 at 0"], Some(1)));
}

/// Sound files of any shape are listed and drawn, with distances from one millimetre to thousands of kilometres.
#[test]
fn sound_files_of_any_shape() {
    let folder = Folder::new();
    let out = folder.join("a.svg");
    let mut n = reference::numbers::Numbers::new(171);
    for at in 0..40 {
        let file = if at % 2 == 0 {
            let mut plan = reference::shapes::random_plan(3, 40, 12, &mut n);
            for cut in plan.cuts.iter_mut().filter(|cut| cut.own_grid) {
                (cut.grid.dx, cut.grid.dstart) = (n.one_of(&[1, 500_000, 0xFFFF_FFFF]), n.one_of(&[0, 1, 0xFFFF_FFFF]));
            }
            plan.file()
        } else {
            reference::dual::shapes::random_plan(4, 6, 5, &mut n).file()
        };
        for form in ["--sectors", "--csv", "--json", "--values", "--stretches"] {
            let output = common::blind_on(&[form, "--svg", out.to_str().expect("a path"), "-"], &file);
            no_panic(&output);
            // rays of the second format may have no azimuth, and then there is no picture
            let undrawn = told(&output.stderr).contains("was not drawn: cut 0 has rays without an azimuth");
            assert_eq!(output.status.code(), Some(i32::from(undrawn)), "{}", told(&output.stderr));
            assert!(undrawn || fs::read_to_string(&out).is_ok_and(|svg| !svg.contains("NaN") && !svg.contains("inf,")));
        }
    }
}

/// Spoiled files of both formats get an answer in every form.
#[test]
fn spoiled_files() {
    let mut n = reference::numbers::Numbers::new(170);
    for name in ["document01.bin", "dual.bin"] {
        let whole = fs::read(sample(name)).expect("the sample");
        for _ in 0..40 {
            let mut file = whole.clone();
            reference::spoil::spoil(&mut file, &mut n);
            for words in [["--sectors", "-"], ["--csv", "-"], ["--json", "-"], ["--values", "-"]] {
                let output = common::blind_on(&words, &file);
                no_panic(&output);
                assert!(!output.stdout.is_empty());
            }
        }
    }
}
