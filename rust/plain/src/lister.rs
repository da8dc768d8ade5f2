//! The lister's text.
use crate::file::{cut, open};
use crate::stretches::{each_stretch, HOUSE_THRESHOLD};
use crate::{Answer, Refusal};
use std::io::Write;

const KINDS: [&str; 3] = ["missing", "under", "over"];

fn list(input: &[u8], text: &mut Vec<u8>) -> Answer<()> {
    if input.len() > 65_536 {
        return Err(Refusal(1, 0));
    }
    let mut entries = 0;
    for k in 0..open(input)?.cuts {
        let (product, cut) = cut(input, k)?;
        let (bins, rays) = (cut.grid.bins, cut.grid.rays);
        let _ = writeln!(text, "cut {k} product {product} bins {bins} rays {rays} threshold {HOUSE_THRESHOLD}");
        each_stretch(&cut, product, HOUSE_THRESHOLD, |ray, first, length, kind| {
            let _ = writeln!(text, "{ray} {first} {length} {}", KINDS[usize::from(kind)]);
            entries += 1;
            true
        });
    }
    let _ = writeln!(text, "end {entries}");
    Ok(())
}

pub fn text(input: &[u8]) -> Vec<u8> {
    let mut text = Vec::new();
    if let Err(Refusal(number, place)) = list(input, &mut text) {
        let _ = writeln!(text, "refused {number} at {place}");
    }
    text
}
