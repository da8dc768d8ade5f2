//! Records of every kind, and files whose data no check has passed.
use super::Record;
use crate::layout::UncheckedCut;
use crate::maker::{CutPlan, Plan};
use crate::numbers::Numbers;
use crate::shapes::random_plan;

/// A run of any length at all, given as that length less 1, its digits ended with a non-zero one.
pub fn long_run(level: u8, mut length_less_1: u128, v: u8) -> Vec<u8> {
    let base = u128::from(255 - v);
    let mut octets = vec![level];
    while length_less_1 > 0 {
        octets.push(v + 1 + (length_less_1 % base) as u8);
        length_less_1 /= base;
    }
    octets
}

/// A record for a cut: any two numbers, often at an edge of the data and of the run there.
pub fn random_record(cut: &UncheckedCut, n: &mut Numbers) -> Record {
    let (len, ahead) = (cut.data.len() as u32, cut.place as u32 + 5);
    let offset = match n.below(10) {
        0 => n.word() as u32,
        // the ends of the data, of the type, and where a sum with the data's place would come round to the file's start
        1 | 2 => n.one_of(&[0, 1, len - 1, len, len + 1, len + 4, u32::MAX, u32::MAX - 1, ahead.wrapping_neg(), len.wrapping_sub(ahead)]),
        3 | 4 => n.below(cut.data.len()) as u32,
        // a run's level octet, more often an early one
        _ => {
            let upto = n.within(1, cut.data.len());
            let at = n.below(upto);
            cut.data[..=at].iter().rposition(|octet| *octet <= cut.v).unwrap_or(at) as u32
        }
    };
    let length = cut.runs_from(offset as usize).map_or(1, |(run, _)| run.length);
    let before = match n.below(12) {
        0 => n.word() as u32,
        1 => n.one_of(&[0, 1, u32::MAX, u32::MAX - 1, 1 << 31]),
        // about the run's length, which may be past every record
        2 => (length - 1) as u32,
        3 => length as u32,
        4 => length.wrapping_add(1) as u32,
        5..8 => 0,
        _ => n.below(length.min(1 << 32) as usize) as u32,
    };
    Record { offset, before }
}

/// Other data for a cut, which need not give its bins.
fn random_data(cut: &CutPlan, n: &mut Numbers) -> Vec<u8> {
    let mut data = cut.data.clone();
    match n.below(7) {
        0 => {
            let len = n.within(1, 3 * cut.grid.bins);
            data = n.octets(len);
        }
        1 => data.truncate(n.within(1, data.len())),
        2 => {
            let len = n.within(1, 9);
            data.extend(n.octets(len));
        }
        3 => data.insert(0, 255),
        4 => {
            let at = n.below(data.len());
            data[at] = n.octet();
        }
        // digits that go on, in the midst of it
        5 => {
            let digit = n.within(usize::from(cut.v) + 1, 255) as u8;
            let (at, len) = (n.within(1, data.len()), n.one_of(&[1, 3, 5, 9, 21, 41, 90, 300]));
            data.splice(at..at, vec![digit; len]);
        }
        // a run about the greatest number of a record or of a machine word
        _ => {
            let (bits, more) = (n.one_of(&[31, 32, 33, 63, 64, 65, 96, 127]), n.below(8) as u128);
            let (at, v) = (n.within(1, data.len()), cut.v as u8);
            data.splice(at..at, long_run(v, (1u128 << bits) - 4 + more, v));
        }
    }
    data
}

/// A file that every check but 8 passes, and of some cuts that one too.
pub fn random_unchecked_plan(most_cuts: usize, most_bins: usize, most_rays: usize, n: &mut Numbers) -> Plan {
    let mut plan = random_plan(most_cuts, most_bins, most_rays, n);
    for cut in &mut plan.cuts {
        if n.once_in(4) {
            cut.v = n.within(0, plan.product.levels().into()) as u16;
        }
        if n.once_in(2) {
            cut.data = random_data(cut, n);
        }
    }
    plan
}
