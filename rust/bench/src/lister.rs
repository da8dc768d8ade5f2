//! The program `lister` against a plain Rust program, each a process of its own, on files up to its limit.
use crate::timing::Table;
use reference::maker::{document_sample, CutPlan, Plan};
use reference::numbers::Numbers;
use reference::published::Product;
use std::fs::{self, File};
use std::path::{Path, PathBuf};
use std::process::Command;

fn output(program: &mut Command, input: &Path) -> Vec<u8> {
    let output = program.stdin(File::open(input).expect("the input")).output().expect("the program");
    assert!(output.status.success());
    output.stdout
}

/// The command that runs the proved program: found once, so that finding it is not timed.
fn ours(words: &[String]) -> Command {
    let mut command = Command::new(&words[0]);
    command.args(&words[1..]);
    command
}

pub fn rows() {
    let tool = Path::new(env!("CARGO_MANIFEST_DIR")).join("../../tools/run-program");
    let found = Command::new(&tool).args(["--command", "lister"]).output().expect("tools/run-program");
    let words: Vec<String> = String::from_utf8(found.stdout).expect("words").lines().map(String::from).collect();
    let plain: PathBuf = std::env::current_exe().expect("a path").with_file_name("plain-lister");
    if !plain.is_file() {
        println!("\nthe lister: build {} first (cargo build --release -p bench)", plain.display());
        return;
    }
    let mut n = Numbers::new(3);
    let noise = CutPlan::of_levels(600, 105, &n.levels(63_000, 0, 251, 1));
    let cuts = (0..64).map(|_| CutPlan::of_levels(100, 3, &n.levels(300, 0, 200, 4))).collect();
    let input = std::env::temp_dir().join(format!("bench-lister-{}", std::process::id()));
    for (name, file) in [
        ("small", document_sample().file()),
        ("a cut of noise", Plan::new(Product::Reflectivity, vec![noise]).file()),
        ("64 cuts", Plan::new(Product::Reflectivity, cuts).file()),
    ] {
        fs::write(&input, &file).expect("a folder for files of a while");
        assert!(output(&mut ours(&words), &input) == output(&mut Command::new(&plain), &input));
        Table::new(&format!("lister, {name}"), file.len()).row(
            "with the time to start a program",
            || output(&mut ours(&words), &input),
            || output(&mut Command::new(&plain), &input),
        );
    }
    fs::remove_file(&input).expect("the input");
}
