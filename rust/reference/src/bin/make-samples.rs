//! Writes samples/ and what the programs' crates store.
fn main() -> std::io::Result<()> {
    reference::samples::write()
}
