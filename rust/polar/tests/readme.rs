//! README.md shows examples/list.rs, and it runs.
use std::path::Path;
use std::{env, fs};

mod list {
    include!("../examples/list.rs");

    pub fn run() -> Result<(), Box<dyn std::error::Error>> {
        main()
    }
}

#[test]
fn the_program_of_the_readme() {
    let top = Path::new(env!("CARGO_MANIFEST_DIR")).join("../..");
    let readme = fs::read_to_string(top.join("README.md")).expect("README.md");
    let shown = readme.split("```rust\n").nth(1).expect("a program in Rust").split("```").next().expect("its end");
    assert_eq!(shown, include_str!("../examples/list.rs"));
    env::set_current_dir(top).expect("the tree");
    list::run().expect("a list");
}
