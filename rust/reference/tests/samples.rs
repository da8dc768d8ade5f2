//! What is stored is what this reader makes. Where it is not: `cargo run --bin make-samples`.
use reference::samples::{all, top};
use std::collections::BTreeSet;
use std::fs;
use std::path::PathBuf;

#[test]
fn stored_files_are_those_made_here() {
    let top = top();
    let made = all();
    for (path, octets) in &made {
        let stored = fs::read(top.join(path)).unwrap_or_else(|why| panic!("{}: {why}", path.display()));
        assert!(stored == *octets, "{} differs: cargo run --bin make-samples", path.display());
    }
    // and nothing else stands in their folders
    for folder in ["samples", "crates/samples/data"] {
        let Ok(entries) = fs::read_dir(top.join(folder)) else { continue };
        let stored: BTreeSet<PathBuf> = entries.map(|entry| PathBuf::from(folder).join(entry.unwrap().file_name())).collect();
        let made: BTreeSet<PathBuf> = made.keys().filter(|path| path.starts_with(folder)).cloned().collect();
        let unknown: Vec<_> = stored.difference(&made).filter(|path| !path.ends_with("README.md")).collect();
        assert!(unknown.is_empty(), "{unknown:?}");
    }
}
