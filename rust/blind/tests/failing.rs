//! Files that are not listed: each has its line, row or object, its word on standard error, and its mark on the status.
mod common;

use common::{all, blind, blind_on, command, told, Folder};
use reference::maker::{document_sample, CutPlan, Plan};
use reference::published::Product;
use std::path::Path;
use std::process::{Command, Stdio};

const CUT_SHORT: &str =
    "refused 2 at 0: this is no radar file, or it was cut short: its first 16 octets are not as they should be, or say another length";

#[test]
fn as_text() {
    let (listing, errors, status) = all(&blind(&["--totals", "cut-short.bin", "no-such-file", "document01.bin"]));
    let lines: Vec<&str> = listing.lines().collect();
    let unread = "no-such-file: could not be read: No such file or directory (os error 2)";
    assert_eq!(lines[..4], [&format!("cut-short.bin: {CUT_SHORT}"), "", unread, ""]);
    assert!(lines[4].starts_with("document01.bin: base format, reflectivity, "));
    assert_eq!((errors, status), (format!("blind: cut-short.bin: {CUT_SHORT}\nblind: {unread}\n"), Some(1)));
}

/// A row for each, whatever is listed, with as many fields as the others.
#[test]
fn as_comma_separated_values() {
    for list in ["--stretches", "--sectors", "--values", "--totals"] {
        let (listing, _, status) = all(&blind(&["--csv", list, "cut-short.bin", "no-such-file", "document01.bin"]));
        let rows: Vec<Vec<&str>> = listing.lines().map(|row| row.split(',').collect()).collect();
        assert_eq!((&rows[0][..2], &rows[1][..2]), (&["file", "status"][..], &["cut-short.bin", "refused 2 at 0"][..]));
        assert_eq!((&rows[2][..2], &rows[3][..2]), (&["no-such-file", "unread"][..], &["document01.bin", "ok"][..]));
        assert!(rows[1][2..].iter().chain(&rows[2][2..]).all(|field| field.is_empty()));
        assert!(rows.iter().all(|row| row.len() == rows[0].len()), "{listing}");
        assert_eq!(status, Some(1));
    }
}

#[test]
fn as_json() {
    let (listing, _, status) = all(&blind(&["--json-lines", "no-such-file", "cut-short.bin"]));
    let lines: Vec<&str> = listing.lines().collect();
    let unread = r#"{"file":"no-such-file","status":"unread","unread":"could not be read: No such file or directory (os error 2)"}"#;
    assert_eq!((lines[0], status), (unread, Some(1)));
    assert!(lines[1].starts_with(r#"{"file":"cut-short.bin","status":"refused 2 at 0","refused":{"number":2,"place":0,"meaning":"#));
}

/// The place is the section's: here the one behind section 1.
#[test]
fn the_place_of_a_refusal() {
    let mut file = document_sample().file();
    file[37] = 1;
    let (listing, _, status) = all(&blind_on(&["--csv", "-"], &file));
    assert!(listing.contains("\n-,refused 3 at 37,,"), "{listing}");
    assert_eq!(status, Some(1));
}

/// Bad data is told with the octet at fault, in every form.
fn tells_octet(file: &[u8], place: u64, octet: &str) {
    let meaning = format!(
        "the packed data does not give exactly the bins that it should give; at fault is octet {octet} of the file, counted from 0"
    );
    let why = format!("-: refused 8 at {place}: {meaning}\n");
    assert_eq!(all(&blind_on(&["-"], file)), (why.clone(), format!("blind: {why}"), Some(1)));
    let (rows, errors, status) = all(&blind_on(&["--csv", "-"], file));
    assert!(rows.ends_with(&format!("\n-,refused 8 at {place},,,,,,,,,,,,,,\n")), "{rows}");
    assert_eq!((errors, status), (format!("blind: {why}"), Some(1)));
    let (lines, errors, status) = all(&blind_on(&["--json-lines", "-"], file));
    let refused = format!(r#"{{"number":8,"place":{place},"meaning":"{meaning}"}}"#);
    assert_eq!(lines, format!("{{\"file\":\"-\",\"status\":\"refused 8 at {place}\",\"refused\":{refused}}}\n"));
    assert_eq!((errors, status), (format!("blind: {why}"), Some(1)));
}

#[test]
fn the_octet_at_fault() {
    // the data begins at 678: its fourth octet, a digit, makes a run longer than the bins that are left
    let mut file = document_sample().file();
    file[681] = 141;
    tells_octet(&file, 681, "681");
    // sections 0 to 6 have 16, 21, 41, 2108, 521 and 6 octets: behind 255,999 bins of 256,000 the file's last four stand
    let short = CutPlan::of_data(500, 512, 1, vec![1; 255_999]);
    tells_octet(&Plan::new(Product::Reflectivity, vec![short]).file(), 2713 + 5 + 255_999, "258,717");
}

#[test]
fn a_cut_that_is_not_there() {
    for (file, has) in [("ridge.bin", "cuts 0 to 2"), ("dark.bin", "cut 0 alone"), ("dual.bin", "cuts 0 to 1")] {
        let (listing, errors, status) = all(&blind(&["--cut", "3", file]));
        let why = format!("{file}: refused 10 at 0: there is no cut 3: the file has {has}\n");
        assert_eq!((&listing, errors, status), (&why, format!("blind: {why}"), Some(1)));
    }
}

/// gzip's octets of some file, by gzip itself.
fn packed(program: &str, words: &[&str], folder: &Path) -> Vec<u8> {
    let output = Command::new(program).args(words).current_dir(folder).output().unwrap_or_else(|why| panic!("{program}: {why}"));
    assert!(output.status.success(), "{program}: {}", told(&output.stderr));
    output.stdout
}

/// Runs the last part of an advice by a shell that knows the command as `blind`.
fn follow(advice: &str, folder: &Path) -> (String, Option<i32>) {
    let program = Path::new(env!("CARGO_BIN_EXE_blind"));
    let path = format!("{}:{}", program.parent().expect("a folder").display(), std::env::var("PATH").expect("a path"));
    let (_, line) = advice.trim_end().rsplit_once(": ").expect("an advice");
    let output = Command::new("bash").args(["-c", line]).env("PATH", path).current_dir(folder).output().expect("a shell");
    (told(&output.stdout), output.status.code())
}

/// What the agency delivers is told for what it is, and the advice works.
#[test]
fn gzip_and_tar() {
    let folder = Folder::new();
    let name = "Z__C_RJTD_20260614034000_RDR_JMAGPV_RS47695_Gar0p5km0p7deg_Pze_ANAL_grib2.bin";
    folder.put(name, &document_sample().file());
    folder.put("filler", &[0; 9_000_000]);
    let gzip = packed("gzip", &["-c", name], folder.path());
    for (file, octets) in [
        ("a.gz", gzip),
        ("it's a.gz", packed("gzip", &["-c", name], folder.path())),
        ("no-suffix", packed("gzip", &["-c", name], folder.path())),
        ("03:40.tar", packed("tar", &["-cf", "-", name], folder.path())),
        ("large.tar", packed("tar", &["-cf", "-", name, "filler"], folder.path())),
        ("ustar.tar", packed("tar", &["--format=ustar", "-cf", "-", name], folder.path())),
        ("gnu.tar", packed("tar", &["--format=gnu", "-cf", "-", name], folder.path())),
        ("v7.tar", packed("tar", &["--format=v7", "-cf", "-", name], folder.path())),
    ] {
        folder.put(file, &octets);
        let (listing, errors, status) = all(&command().arg(file).current_dir(folder.path()).output().expect("the command"));
        let kind = if octets.starts_with(&[0x1f, 0x8b]) { "gzip file" } else { "tar archive" };
        let number = if file == "large.tar" { 1 } else { 2 };
        assert!(
            errors.contains(&format!(": this is a {kind}, and blind reads ")) && errors.contains(&format!(": refused {number} at 0: ")),
            "{errors}"
        );
        assert_eq!((format!("blind: {listing}"), status), (errors.clone(), Some(1)));
        let (followed, status) = follow(&errors, folder.path());
        assert!(followed.starts_with("-: base format, reflectivity, "), "{errors} gave {followed}");
        assert_eq!(status, Some(0));
    }
    // an archive in a gzip file: one advice leads to the other
    let tar = packed("tar", &["-czf", "-", name], folder.path());
    folder.put("a.tar.gz", &tar);
    let first = told(&command().arg("a.tar.gz").current_dir(folder.path()).output().expect("the command").stderr);
    let (second, status) = follow(&first, folder.path());
    assert!(second.contains(&format!(": ... | tar -xOf - {name} | blind -\n")), "{second}");
    assert_eq!(status, Some(1));
    let line = format!("a: gunzip -c a.tar.gz | tar -xOf - {name} | blind -");
    assert!(follow(&line, folder.path()).0.starts_with("-: base format, "));
}

/// A reader that goes away does not hide that a file failed, and the picture is drawn all the same.
#[test]
fn a_closed_pipe() {
    let folder = Folder::new();
    let many = ["--stretches", "ridge-full.bin", "ridge-full.bin"];
    for (words, status) in [
        ([&many[..], &["cut-short.bin"]].concat(), Some(1)),
        (many.to_vec(), Some(0)),
        (vec!["--csv", "--stretches", "cut-short.bin", "ridge-full.bin"], Some(1)),
    ] {
        let mut child = command().args(&words).stdout(Stdio::piped()).stderr(Stdio::null()).spawn().expect("the command");
        drop(child.stdout.take());
        assert_eq!(child.wait().expect("the command").code(), status, "{words:?}");
    }
    let out = folder.join("out.svg");
    let mut child =
        command().args(["--stretches", "ridge-full.bin", "--cut", "1", "--svg"]).arg(&out).stdout(Stdio::piped()).spawn().expect("it");
    drop(child.stdout.take());
    assert_eq!(child.wait().expect("the command").code(), Some(0));
    assert!(std::fs::read_to_string(&out).expect("the picture").ends_with("</svg>\n"));
}
