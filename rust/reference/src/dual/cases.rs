//! Files of the second format with the verdict that the rules give each, said by hand: every named field one below, at and one
//! past each end of its range, every flag and length, the order of checks, the limits.
use super::maker::{CutPlan, Flags, Plan};
use super::packing::Packing;
use crate::cases::{field, Case, Cases, Field, MINUS16, MINUS32, ONES16, ONES32, SHARED_FIELDS};
use crate::frame::GREATEST_FILE;
use crate::maker::{document_sample, Section};

/// Fields of this format whose rule stands alone: refusal 5. Those with nothing outside are not judged.
const FIELDS: [Field; 29] = [
    field(3, 13, 2, &[50121], &[0, 50120, 50122, ONES16]),
    field(3, 41, 8, &[0, u64::MAX], &[]),
    field(3, 49, 4, &[0, ONES32], &[]),
    field(3, 55, 4, &[0, ONES32], &[]),
    field(3, 59, 8, &[0, u64::MAX], &[]),
    field(4, 6, 2, &[0], &[1, 256, ONES16]),
    field(4, 8, 2, &[51123], &[0, 51122, 51124, 51022, ONES16]),
    field(4, 10, 1, &[15], &[14, 16, 192, 255]),
    field(4, 11, 1, &[0, 1, 2, 3, 195, 255], &[]),
    field(4, 12, 1, &[8], &[7, 9, 255]),
    field(4, 13, 1, &[1], &[0, 2, 255]),
    // where the base format has its 13
    field(4, 14, 1, &[0, 13, 14, 255], &[]),
    field(4, 15, 8, &[0, u64::MAX], &[]),
    field(4, 23, 5, &[0, 0xFF_FFFF_FFFF], &[]),
    field(4, 28, 2, &[0, ONES16], &[]),
    field(4, 30, 2, &[0, ONES16], &[]),
    field(4, 32, 1, &[13], &[0, 12, 14, 255]),
    field(4, 33, 8, &[0, u64::MAX], &[]),
    // where the base format has its mode of operation
    field(4, 38, 1, &[3], &[]),
    field(4, 41, 1, &[0, 255], &[]),
    field(4, 42, 1, &[0, 1, 2, 255], &[3, 128, 254]),
    field(4, 43, 8, &[0, u64::MAX], &[]),
    field(4, 51, 5, &[0, 0xFF_FFFF_FFFF], &[]),
    field(4, 58, 4, &[0, ONES32], &[]),
    field(4, 62, 8, &[0, u64::MAX], &[]),
    field(5, 10, 2, &[0], &[1, 200, 256, ONES16]),
    field(5, 16, 2, &[0, 1, 2], &[3, 256, MINUS16, MINUS16 + 1, ONES16]),
    field(5, 18, 2, &[0, 1, 2, 3, 4], &[5, 256, MINUS16, MINUS16 + 1, ONES16]),
    field(5, 21, 1, &[0, 1, 2, 255], &[]),
];

/// Fields that refusal 14 is for: scan modes, R, width.
const UNREAD: [Field; 4] = [
    field(3, 39, 1, &[0], &[1, 64, 128, 255]),
    field(3, 40, 1, &[255], &[0, 1, 128, 254]),
    field(
        5,
        12,
        4,
        &[0, MINUS32, 1, 0x7F_FFFF, 0x80_0000, 0x7F7F_FFFF, 0xFF7F_FFFF],
        &[0x7F80_0000, 0xFF80_0000, 0x7F80_0001, 0x7FC0_0000, 0xFFBF_FFFF, ONES32],
    ),
    field(5, 20, 1, &[16], &[0, 1, 7, 9, 15, 17, 24, 32, 64, 128, 255]),
];

/// Hundredths about minus 32.
fn packing(width: u8) -> Packing {
    Packing { r: (-3200f32).to_bits(), e: 0, d: 2, width }
}

/// A cut of this grid: cells of every kind.
fn cut(bins: usize, rays: usize, width: u8) -> CutPlan {
    let cells = (0..bins * rays).map(|k| [u16::MAX, 0, 1, 254, u16::MAX - 1][k % 5]).collect();
    CutPlan::new(bins, rays, packing(width), cells)
}

fn without_flags(bins: usize, rays: usize, width: u8) -> CutPlan {
    CutPlan { flags: Flags::NONE, tail: vec![], ..cut(bins, rays, width) }
}

fn sections(cuts: Vec<CutPlan>) -> Vec<Section> {
    Plan::new(cuts).sections()
}

fn lengths(cases: &mut Cases, sound: &[Section]) {
    cases.lengths(sound, &[1, 3, 5, 6, 7]);
    cases.lengths_that_do_not_fit(sound);
    for (number, lengths) in [(3, &[5, 41, 52, 53, 54, 57, 58][..]), (4, &[5, 55, 56, 57, 60, 61]), (5, &[5, 17, 19]), (7, &[5, 6, 15])] {
        for len in lengths {
            cases.change(format!("section {number} of {len} octets"), sound, number, Some(4), |s| s.resize(*len));
        }
    }
    // two octets at its end are not read, as any number of them
    for (more, refusal) in [(-3, Some(4)), (-2, None), (-1, None), (1, None), (1000, None)] {
        cases.change(format!("section 4 with {more} octets more"), sound, 4, refusal, |s| {
            s.resize(s.octets.len().saturating_add_signed(more))
        });
    }
}

/// Every flag on and off, and what happens where the length does not say the same.
fn flags(cases: &mut Cases) {
    for flags in Flags::every() {
        let sound = sections(vec![CutPlan { flags, tail: vec![], ..cut(3, 2, 16) }]);
        cases.sections(format!("{flags:?}"), &sound, None);
        for (octet, set) in [(53, flags.azimuth), (54, flags.elevation)] {
            let name = format!("{flags:?}, but octet {octet}");
            cases.change(name, &sound, 3, Some(4), |s| s.put(octet, 1, (!set).into()));
        }
        // section 4 may be longer than its flags ask for
        for (octet, set) in [(56, flags.frequency), (57, flags.time)] {
            let name = format!("{flags:?}, but octet {octet}");
            cases.change(name, &sound, 4, if set { None } else { Some(4) }, |s| s.put(octet, 1, (!set).into()));
        }
    }
}

/// Flags above 1 are taken as read for the length, and then refused.
fn flags_above_one(cases: &mut Cases) {
    let rays = 3;
    for (number, first, fixed) in [(3, 53, 58), (4, 56, 61)] {
        let sound = sections(vec![CutPlan { tail: vec![], ..cut(2, rays, 8) }]);
        for (one, other) in [(2u64, 0u64), (0, 2), (2, 1), (255, 0), (0, 255), (255, 255), (128, 1)] {
            let put = |s: &mut Section| s.put(first, 2, one << 8 | other);
            let len = fixed + 2 * (one + other) as usize * rays;
            let name = format!("section {number} with flags {one} and {other}");
            cases.change(&name, &sound, number, Some(5), |s| {
                s.resize(len);
                put(s);
            });
            cases.change(format!("{name}, an octet too short"), &sound, number, Some(4), |s| {
                s.resize(len - 1);
                put(s);
            });
            let longer = if number == 3 { 4 } else { 5 };
            cases.change(format!("{name}, an octet too long"), &sound, number, Some(longer), |s| {
                s.resize(len + 1);
                put(s);
            });
        }
    }
}

fn grids(cases: &mut Cases) {
    for (bins, rays) in [(1, 1), (1, 1024), (2048, 1), (2048, 1024)] {
        for width in [8, 16] {
            cases.sections(format!("{bins} bins of {rays} rays, {width} bits"), &sections(vec![cut(bins, rays, width)]), None);
        }
    }
    cases.grids_past_the_ends(&sections(vec![without_flags(1, 1, 8)]));
    let ten = sections(vec![cut(5, 2, 16)]);
    cases.counts_of_points(&ten);
    // the length follows Nr as read, whatever it is
    let sound = sections(vec![cut(1, 1, 8)]);
    for rays in [0, 1025, 65536] {
        let name = format!("{rays} rays, with the length of one");
        cases.change(name, &sound, 3, Some(4), |s| s.put(19, 4, rays));
        cases.change(format!("{rays} rays, with their length"), &sound, 3, Some(5), |s| {
            s.resize(58 + 4 * rays as usize);
            s.put(19, 4, rays);
            s.put(7, 4, rays);
        });
    }
    cases.change("a length of 2^32 and more by the flags", &sound, 3, Some(4), |s| {
        // 58 + 2 x 2 x 2^30 is 58 for a machine that drops the carry
        s.resize(58);
        s.put(19, 4, 1 << 30);
    });
    // five rays of two: nothing of a file without flags hangs on which is which
    for (plan, refusal) in [(cut(5, 2, 8), Some((4, 1))), (without_flags(5, 2, 8), None)] {
        let mut sections = sections(vec![plan]);
        sections[1].put(15, 4, 2);
        sections[1].put(19, 4, 5);
        cases.sections("bins and rays exchanged", &sections, refusal);
    }
}

/// The length of the data is that of the width.
fn widths(cases: &mut Cases) {
    for (width, other) in [(8, 16), (16, 8)] {
        let mut sections = sections(vec![cut(5, 2, width)]);
        cases.sections(format!("{width} bits"), &sections, None);
        sections[3].put(20, 1, other);
        cases.sections(format!("{width} bits, said to be {other}"), &sections, Some((4, 5)));
    }
    let mut sections = sections(vec![cut(5, 2, 8)]);
    sections[3].put(20, 1, 64);
    sections[5].resize(5 + 80);
    cases.sections("64 bits, as many as it says", &sections, Some((14, 3)));
}

/// The second cut's parameter and site are those of the first; all else may differ.
fn later_cuts(cases: &mut Cases) {
    let own = cut(3, 2, 16);
    let shared = CutPlan { own_grid: false, packing: Packing { r: 1, e: 2, d: 4, width: 8 }, mode: 255, ..own.clone() };
    let sound = sections(vec![own.clone(), shared.clone(), own.clone(), shared.clone()]);
    cases.sections("cuts with and without a section 3", &sound, None);
    for (at, first, width, value) in [(6, 11, 1, 194), (6, 28, 2, 0), (11, 11, 1, 1), (11, 28, 2, 47696), (15, 28, 2, ONES16)] {
        let mut sections = sound.clone();
        assert_eq!(sections[at].number(), 4);
        sections[at].put(first, width, value);
        cases.sections(format!("section {at} octet {first} is {value}"), &sections, Some((5, at)));
    }
    let wide = cut(7, 1, 8);
    cases.sections("two grids", &sections(vec![own.clone(), wide.clone()]), None);
    cases.sections("two grids, the other first", &sections(vec![wide.clone(), own.clone()]), None);
    let under = CutPlan { own_grid: false, ..own };
    cases.sections("a cut under a grid of fewer rays", &sections(vec![wide.clone(), under]), Some((6, 7)));
    let under = CutPlan { own_grid: false, tail: vec![], ..wide };
    cases.sections("a cut under a grid of more rays", &sections(vec![cut(3, 2, 8), under]), Some((4, 6)));
}

/// Where one section breaks several rules, the first by the order 3, 9, 4, 5, 14, 6 counts.
fn order_of_checks(cases: &mut Cases) {
    let sound = sections(vec![cut(2, 1, 16)]);
    cases.change("3 before 4", &sound, 3, Some(3), |s| {
        s.resize(57);
        s.put(5, 1, 4);
    });
    cases.change("4 before 5 and 14", &sound, 3, Some(4), |s| {
        s.put(6, 1, 1);
        s.put(39, 1, 255);
        s.resize(57);
    });
    cases.change("5 before 14", &sound, 3, Some(5), |s| {
        s.put(31, 4, 0);
        s.put(39, 2, 0xFF00);
    });
    cases.change("5 for a flag before 14", &sound, 3, Some(5), |s| {
        s.put(53, 2, 0x0200);
        s.put(40, 1, 0);
    });
    cases.change("14 before 6", &sound, 3, Some(14), |s| {
        s.put(7, 4, 0);
        s.put(39, 2, 0xFF00);
    });
    cases.change("5 before 14 and 6 in section 5", &sound, 5, Some(5), |s| {
        s.put(6, 4, 0);
        s.put(12, 4, 0x7F80_0000);
        s.put(18, 2, 5);
    });
    cases.change("14 for R before 6", &sound, 5, Some(14), |s| {
        s.put(6, 4, 0);
        s.put(12, 4, 0x7F80_0000);
    });
    cases.change("14 for the width before 6", &sound, 5, Some(14), |s| {
        s.put(6, 4, 0);
        s.put(20, 1, 64);
    });
    // a section passes before the next is looked at
    let mut sections = sound;
    sections[3].put(6, 4, 0);
    sections[2].put(57, 1, 255);
    cases.sections("section 4 before section 5", &sections, Some((4, 2)));
}

/// Files at the limit of 8,388,608 octets and one past it, by octets of section 4 that nobody reads.
fn largest(cases: &mut Cases) {
    let of_tail = |tail: usize| Plan::new(vec![CutPlan { tail: vec![7; tail], ..cut(2, 1, 16) }]).file();
    let most = GREATEST_FILE - of_tail(0).len();
    cases.add("8,388,608 octets", of_tail(most), None);
    cases.add("8,388,609 octets", of_tail(most + 1), Some((1, 0)));
}

/// Every case.
pub fn all() -> Vec<Case> {
    let small = sections(vec![cut(5, 2, 16)]);
    let two_bins = sections(vec![cut(2, 1, 8)]);
    let mut cases = Cases::default();
    cases.fields(&small, &SHARED_FIELDS, 5);
    cases.fields(&small, &FIELDS, 5);
    cases.fields(&small, &UNREAD, 14);
    lengths(&mut cases, &small);
    flags(&mut cases);
    flags_above_one(&mut cases);
    grids(&mut cases);
    widths(&mut cases);
    later_cuts(&mut cases);
    cases.orders(&two_bins);
    order_of_checks(&mut cases);
    cases.ends(Plan::new(vec![cut(2, 1, 8)]).file());
    cases.many_cuts(&two_bins);
    largest(&mut cases);
    // the section 3 of the base format is too short for this one
    cases.add("a file of the base format", document_sample().file(), Some((4, 37)));
    cases.0
}
