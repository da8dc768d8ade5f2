fn main() -> Result<(), Box<dyn std::error::Error>> {
    let octets = std::fs::read("samples/ridge.bin")?;
    let file = polar::File::open(&octets)?; // every check of the file is made
    for cut in file.cuts() {
        for stretch in cut.stretches(polar::Threshold::from_dbz(40.0)?) {
            println!("{} {} {} {}", stretch.ray, stretch.first, stretch.length, stretch.kind);
        }
    }
    Ok(())
}
