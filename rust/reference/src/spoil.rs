//! Spoiled files: sound ones with octets changed, dropped, doubled or cut off.
use crate::maker::{assemble, set_total, Section};
use crate::numbers::Numbers;

/// Octets that stand at the edge of some rule.
const EDGES: [u8; 12] = [0, 1, 2, 3, 4, 5, 6, 7, 127, 128, 254, 255];

/// One random change to a file's octets.
pub fn spoil(file: &mut Vec<u8>, n: &mut Numbers) {
    match n.below(12) {
        0 => file.truncate(n.below(file.len() + 1)),
        1 => file.push(n.octet()),
        2 => {
            let at = n.below(file.len());
            file.remove(at);
            set_total_if_there(file);
        }
        3 => {
            let at = n.below(file.len() + 1);
            file.insert(at, n.octet());
            set_total_if_there(file);
        }
        4 => {
            let keep = n.below(file.len() + 1);
            file.truncate(keep);
            set_total_if_there(file);
        }
        5 => {
            let at = n.below(file.len());
            file[at] ^= 1 << n.below(8);
        }
        6 => {
            let at = n.below(file.len());
            file[at] = file[at].wrapping_add(n.one_of(&[1, 255]));
        }
        // the header of a file is where most rules stand
        7 => {
            let at = n.below(file.len().min(160));
            file[at] = n.one_of(&EDGES);
        }
        _ => {
            let at = n.below(file.len());
            file[at] = if n.once_in(2) { n.one_of(&EDGES) } else { n.octet() };
        }
    }
}

fn set_total_if_there(file: &mut [u8]) {
    if file.len() >= 16 {
        set_total(file);
    }
}

/// A file of these sections with one of them dropped, doubled, moved, resized, renumbered or given a wrong length.
pub fn spoil_sections(sections: &[Section], n: &mut Numbers) -> Vec<u8> {
    let mut sections = sections.to_vec();
    let at = n.below(sections.len());
    let len = sections[at].octets.len();
    match n.below(8) {
        0 => drop(sections.remove(at)),
        1 => sections.insert(at, sections[at].clone()),
        2 => {
            let other = n.below(sections.len());
            sections.swap(at, other);
        }
        3 => sections[at].resize((len + n.within(0, 4)).saturating_sub(2).max(5)),
        4 => sections[at].put(5, 1, n.within(0, 9) as u64),
        5 => sections[at].put(1, 4, n.one_of(&[0, 1, 4, 5, 6, len - 1, len + 1, len + 4, len + 5, 0xFFFF_FFFF]) as u64),
        6 => {
            let from = n.below(len.min(64));
            sections[at].octets[from] = n.one_of(&EDGES);
        }
        _ => {
            let other = sections[n.below(sections.len())].clone();
            let place = n.below(sections.len() + 1);
            sections.insert(place, other);
        }
    }
    assemble(&sections)
}
