//! The command as it is run: in samples/, so that names are short.
#![allow(dead_code)]
use std::fs;
use std::io::Write;
use std::path::{Path, PathBuf};
use std::process::{Command, Output, Stdio};
use std::sync::atomic::{AtomicU32, Ordering};

pub fn sample(name: &str) -> PathBuf {
    Path::new(env!("CARGO_MANIFEST_DIR")).join("../../samples").join(name)
}

/// The command, with nothing on its standard input.
pub fn command() -> Command {
    let mut command = Command::new(env!("CARGO_BIN_EXE_blind"));
    command.current_dir(sample("")).stdin(Stdio::null());
    command
}

pub fn blind(words: &[&str]) -> Output {
    command().args(words).output().expect("the command")
}

/// Runs it with these octets as its standard input.
pub fn blind_on(words: &[&str], input: &[u8]) -> Output {
    let mut child = command().args(words).stdin(Stdio::piped()).stdout(Stdio::piped()).stderr(Stdio::piped()).spawn().expect("the command");
    let (mut stdin, input) = (child.stdin.take().expect("its input"), input.to_vec());
    // a command that reads none of it is no fault
    let writer = std::thread::spawn(move || stdin.write_all(&input).is_ok());
    let output = child.wait_with_output().expect("the command");
    let _ = writer.join();
    output
}

pub fn told(octets: &[u8]) -> String {
    String::from_utf8(octets.to_vec()).expect("text")
}

/// What is listed and said, and the status.
pub fn all(output: &Output) -> (String, String, Option<i32>) {
    (told(&output.stdout), told(&output.stderr), output.status.code())
}

/// What the command lists, which must go well.
pub fn listed(words: &[&str], input: &[u8]) -> String {
    let (listing, errors, status) = all(&blind_on(words, input));
    assert_eq!((status, errors.as_str()), (Some(0), ""), "{words:?}");
    listing
}

/// A folder of a test's own, which goes when it is done.
pub struct Folder(PathBuf);

impl Folder {
    pub fn new() -> Folder {
        static NEXT: AtomicU32 = AtomicU32::new(0);
        let name = format!("blind-{}-{}", std::process::id(), NEXT.fetch_add(1, Ordering::Relaxed));
        let path = std::env::temp_dir().join(name);
        fs::create_dir(&path).expect("a folder");
        Folder(path)
    }

    pub fn path(&self) -> &Path {
        &self.0
    }

    pub fn join(&self, name: &str) -> PathBuf {
        self.0.join(name)
    }

    /// Writes a file into it.
    pub fn put(&self, name: &str, octets: &[u8]) -> PathBuf {
        let path = self.join(name);
        fs::write(&path, octets).expect("a file");
        path
    }
}

impl Drop for Folder {
    fn drop(&mut self) {
        let _ = fs::remove_dir_all(&self.0);
    }
}
