//! The lister as a plain Rust program, for the benchmark.
use std::io::{self, Read, Write};

fn main() -> io::Result<()> {
    let mut input = Vec::new();
    io::stdin().take(65_537).read_to_end(&mut input)?;
    io::stdout().write_all(&plain::lister::text(&input))
}
