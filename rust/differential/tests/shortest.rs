//! No octets that read back as the levels that run write was handed are fewer than it wrote, under its V or any other.
use differential::compare::run_write;
use differential::ours;
use reference::layout::verdict;
use reference::numbers::Numbers;
use reference::runs::{fewest_octets, levels_of, pack, runs, GREATEST_LEVEL, MOST_LEVELS};
use reference::samples;
use reference::shapes::{pack_loosely, random_plan};

/// The levels that run read gives of octets that it takes under V, if there are no more than so many.
fn read(octets: &[u8], v: u8, most: usize) -> Option<Vec<u8>> {
    let bins = usize::try_from(levels_of(&runs(octets, v)?)).ok().filter(|bins| *bins <= most)?;
    let mut levels = vec![0; bins];
    ours::run_read(octets, v.into(), bins, &mut levels).expect("the levels that they give");
    Some(levels)
}

/// How many octets run write writes for levels, which then read back.
fn written(levels: &[u8]) -> usize {
    let mut octets = vec![0; levels.len()];
    let written = ours::run_write(levels, &mut octets).expect("levels up to 252");
    let back = read(&octets[..written.octets], written.v, levels.len());
    assert!(back.as_deref() == Some(levels), "written levels read back as others");
    written.octets
}

/// Octets that give levels which run write takes are no fewer than it writes. Whether they were held against it is told.
fn no_shorter(octets: &[u8], v: u8) -> bool {
    let levels = read(octets, v, MOST_LEVELS).filter(|levels| levels.iter().all(|level| *level <= GREATEST_LEVEL));
    let Some(levels) = levels else { return false };
    let written = written(&levels);
    assert!(written <= octets.len(), "{written} octets written, V {v}, {octets:?}");
    true
}

#[test]
fn checked_examples() {
    assert_eq!(run_write(&[7; 2], 2).map(|written| (written.v, written.octets)), Ok((7, 2)));
    for octets in [[7, 9], [7, 7]] {
        assert_eq!(read(&octets, 7, 9), Some(vec![7; 2]));
    }
    // a zero digit at the end, a run cut in two, a V over the greatest level: the same levels in more octets
    assert_eq!(written(&[7; 10]), 2);
    for (octets, v) in [(&[7, 17, 8][..], 7), (&[7, 7, 16], 7), (&[7, 253, 253, 254], 252)] {
        assert_eq!(read(octets, v, 10), Some(vec![7; 10]));
    }
}

#[test]
fn every_row_of_two_octets_under_every_v() {
    for v in 0..=253u8 {
        let mut held = 0;
        for one in 0..=255 {
            held += usize::from(no_shorter(&[one], v));
            for two in 0..=255 {
                held += usize::from(no_shorter(&[one, two], v));
            }
        }
        // all that open with a level up to 252, and have no other
        let levels = usize::from(v.min(GREATEST_LEVEL)) + 1;
        let others = usize::from(v == 253);
        assert_eq!(held, levels + levels * (256 - others), "V {v}");
    }
}

#[test]
fn made_octets_under_every_v() {
    let mut n = Numbers::new(81);
    for v in 0..=253u8 {
        for _ in 0..200 {
            let (len, longest, high) = (n.below(400), n.one_of(&[1, 2, 9, 300]), n.within(0, v.min(GREATEST_LEVEL).into()) as u8);
            let levels = n.levels(len, 0, high, longest);
            assert!(no_shorter(&pack(&levels, v), v));
            assert!(no_shorter(&pack_loosely(&levels, v, &mut n), v));
        }
    }
}

/// Of all ways to cut levels into runs, under the writer's V and each greater one.
#[test]
fn of_all_ways_to_cut_levels_into_runs() {
    let mut n = Numbers::new(82);
    for greatest in 0..=GREATEST_LEVEL {
        for _ in 0..4 {
            let (len, longest) = (n.below(120), n.one_of(&[1, 2, 5, 40, 120]));
            let mut levels = n.levels(len, 0, greatest, longest);
            levels.push(greatest);
            let written = written(&levels);
            assert_eq!(written, fewest_octets(&levels, greatest), "{levels:?}");
            for v in greatest..=253 {
                assert!(written <= fewest_octets(&levels, v), "V {v}, {levels:?}");
            }
        }
    }
}

/// One run of each length at which a digit more is taken, and about it.
#[test]
fn lengths_about_every_power_of_the_base() {
    for greatest in 0..=GREATEST_LEVEL {
        let base = 255 - usize::from(greatest);
        let powers = std::iter::successors(Some(base), |power| Some(power * base)).take_while(|power| *power <= 800);
        for length in powers.flat_map(|power| [power - 1, power, power + 1, power + 2]) {
            let levels = vec![greatest; length];
            assert_eq!(written(&levels), fewest_octets(&levels, greatest), "{length} of {greatest}");
        }
    }
}

/// Every cut of a file that is accepted, handed to run write with as much room as its data takes; how many they are.
fn no_shorter_cuts(file: &[u8]) -> usize {
    let Ok(accepted) = verdict(file) else { return 0 };
    for cut in &accepted.cuts {
        let written = run_write(cut.levels(), cut.data.len()).expect("room for what is written");
        assert!(written.octets <= cut.data.len() && written.v <= cut.v);
    }
    accepted.cuts.len()
}

#[test]
fn no_cut_of_a_made_file_is_shorter() {
    let mut n = Numbers::new(83);
    for _ in 0..500 {
        let (bins, rays) = n.one_of(&[(1, 1), (6, 4), (30, 10), (1, 30), (200, 40)]);
        assert!(no_shorter_cuts(&random_plan(4, bins, rays, &mut n).file()) > 0);
    }
}

/// Among them one of a radar's size.
#[test]
fn no_cut_of_a_stored_file_is_shorter() {
    let cuts: usize = samples::all().values().map(|file| no_shorter_cuts(file)).sum();
    assert!(cuts > 50, "{cuts}");
}
