//! Scan, run read and run write over 2,097,152 levels.
use crate::timing::Table;
use reference::numbers::Numbers;
use reference::runs::{encode, MOST_LEVELS};
use std::hint::black_box;

pub fn rows() {
    let mut n = Numbers::new(1);
    let kinds = [("noise", 1), ("short runs, 1 to 6", 6), ("long runs, 1 to 400", 400), ("one run", MOST_LEVELS)];
    for (kind, longest) in kinds {
        // noise has no two neighbours alike, so that every run is one bin
        let levels = match longest {
            1 => (0..MOST_LEVELS).map(|i| (i % 2 * 126 + n.below(126)) as u8).collect(),
            MOST_LEVELS => vec![200; MOST_LEVELS],
            _ => n.levels(MOST_LEVELS, 0, 251, longest),
        };
        let (v, octets) = encode(&levels);
        let table = Table::new(&format!("2,097,152 levels, {kind}"), octets.len());
        let (mut ours, mut plain) = (vec![0u8; MOST_LEVELS], vec![0u8; MOST_LEVELS]);
        table.row(
            "scan",
            || assert_eq!(polar_sys::run_check(black_box(&octets), v.into(), MOST_LEVELS), 0),
            || assert_eq!(plain::runs::check(black_box(&octets), v, MOST_LEVELS), Ok(())),
        );
        table.row(
            "read",
            || assert_eq!(polar_sys::run_read(black_box(&octets), v.into(), MOST_LEVELS, &mut ours), 0),
            || assert_eq!(plain::runs::read(black_box(&octets), v, MOST_LEVELS, &mut plain), Ok(())),
        );
        assert!(ours == levels && plain == levels);
        table.row(
            "write",
            || assert_eq!(polar_sys::run_write(black_box(&levels), &mut ours, &mut [0; 2]), 0),
            || assert_eq!(plain::runs::write(black_box(&levels), &mut plain), Ok((v, octets.len()))),
        );
        assert!(ours[..octets.len()] == octets && plain[..octets.len()] == octets);
    }
}
