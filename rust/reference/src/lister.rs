//! "The lister": the whole text that it writes of its standard input.
use crate::layout::verdict;
use crate::stretches::{list, HOUSE_THRESHOLD};
use std::fmt::Write;

pub const GREATEST_INPUT: usize = 65_536;
pub const KINDS: [&str; 3] = ["missing", "under", "over"];

pub fn text(input: &[u8]) -> String {
    if input.len() > GREATEST_INPUT {
        return "refused 1 at 0\n".into();
    }
    let file = match verdict(input) {
        Err(refusal) => return format!("refused {} at {}\n", refusal.number, refusal.place),
        Ok(file) => file,
    };
    let mut text = String::new();
    let mut entries = 0;
    for (k, cut) in file.cuts.iter().enumerate() {
        let (product, bins, rays) = (file.product.parameter(), cut.grid.bins, cut.grid.rays);
        writeln!(text, "cut {k} product {product} bins {bins} rays {rays} threshold {HOUSE_THRESHOLD}").unwrap();
        for [ray, first, length, kind] in list(cut, file.product, HOUSE_THRESHOLD) {
            writeln!(text, "{ray} {first} {length} {}", KINDS[kind as usize]).unwrap();
            entries += 1;
        }
    }
    writeln!(text, "end {entries}").unwrap();
    text
}
