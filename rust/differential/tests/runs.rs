//! Run check, run read and run write against the independent reader.
use differential::compare::{run_check, run_read, run_write};
use differential::ours;
use reference::numbers::Numbers;
use reference::runs::{levels_of, runs, write_run, MOST_LEVELS};
use reference::shapes::pack_loosely;
use reference::Refusal;

/// Run check and run read at room for what is wanted, one less and somewhat more; answers a refusal's number and place.
fn reads(octets: &[u8], v: u8, n: usize) -> Result<(), (u32, u64)> {
    let checked = run_check(octets, v, n);
    if n <= MOST_LEVELS {
        assert_eq!(run_read(octets, v, n, n), checked);
        let _ = run_read(octets, v, n, n.saturating_sub(1));
        let _ = run_read(octets, v, n, n + 3);
    } else {
        assert_eq!(run_read(octets, v, n, 9), checked);
    }
    checked.map_err(|refusal| (refusal.number, refusal.place))
}

/// With the octet at fault where one level less is wanted; where one more is, that is one past the last.
#[test]
fn checked_examples_of_reading() {
    for (v, octets, n, passed) in [
        (10, &[3, 11][..], 1, 0),
        (10, &[3, 255], 245, 1),
        (10, &[3, 11, 12], 246, 2),
        (252, &[7, 255, 255], 9, 2),
        (252, &[7, 253, 253, 254], 10, 3),
    ] {
        assert_eq!(reads(octets, v, n), Ok(()));
        assert_eq!(reads(octets, v, n - 1), Err((8, passed)));
        assert_eq!(reads(octets, v, n + 1), Err((8, octets.len() as u64)));
    }
    assert_eq!(reads(&[11, 3], 10, 2), Err((8, 0)));
    assert_eq!(reads(&[], 10, 0), Ok(()));
    assert_eq!(reads(&[3], 10, 0), Err((8, 0)));
    assert_eq!(reads(&[3], 253, 1), Ok(()));
    assert_eq!(reads(&[3], 254, 1), Err((12, 0)));
    assert_eq!(reads(&[3], 255, 1), Err((12, 0)));
}

#[test]
fn checked_examples_of_writing() {
    for (levels, v, octets) in [(&[7; 10][..], 7, &[7, 17][..]), (&[252; 10], 252, &[252, 253, 253, 254]), (&[], 0, &[])] {
        let written = run_write(levels, octets.len()).unwrap();
        assert_eq!((written.v, written.octets), (v, octets.len()));
        let mut room = vec![0; octets.len()];
        differential::ours::run_write(levels, &mut room).unwrap();
        assert_eq!(room, octets);
    }
    assert_eq!(run_write(&[7; 10], 1).map_err(|r| r.number), Err(11));
    assert_eq!(run_write(&[1, 253, 1], 9).map_err(|r| r.number), Err(10));
    assert_eq!(run_write(&[253], 0).map_err(|r| r.number), Err(10));
    assert_eq!(run_write(&[], 0).map(|written| written.octets), Ok(0));
}

/// V comes in with 64 bits: one that an octet would hold as another number is refused, and nothing lent changes.
#[test]
fn a_v_of_more_bits_is_no_other_v() {
    let octets = [3, 11, 12];
    assert_eq!(ours::run_check(&octets, 10, 246), Ok(()));
    for v in [254, 256, 256 + 10, 1 << 32, (1 << 32) + 10, u64::MAX] {
        let refused = Err(Refusal { number: 12, place: 0 });
        assert_eq!(ours::run_check(&octets, v, 246), refused, "V {v}");
        let mut levels = [7; 246];
        assert_eq!(ours::run_read(&octets, v, 246, &mut levels), refused, "V {v}");
        assert_eq!(levels, [7; 246], "V {v}");
    }
}

/// The order 12, 10, 11, 8: each with all that come after it.
#[test]
fn the_order_of_refusals() {
    for (v, n, room, number) in [
        (254, MOST_LEVELS + 1, 0, 12),
        (253, MOST_LEVELS + 1, 0, 10),
        (253, MOST_LEVELS, 0, 11),
        (253, 2, 2, 8),
        (255, usize::MAX, 5, 12),
        (10, usize::MAX, 5, 10),
    ] {
        assert_eq!(run_read(&[255, 1], v, n, room).map_err(|r| (r.number, r.place)), Err((number, 0)));
    }
    let mut levels = vec![0; MOST_LEVELS + 1];
    assert_eq!(run_write(&levels, 0).map_err(|r| r.number), Err(10));
    levels.pop();
    assert_eq!(run_write(&levels, 0).map_err(|r| r.number), Err(11));
    levels[MOST_LEVELS - 1] = 253;
    assert_eq!(run_write(&levels, 0).map_err(|r| r.number), Err(10));
}

/// Octets of any kind under V: sound runs, broken ones, tails of zero digits, noise.
fn made_octets(v: u8, n: &mut Numbers) -> Vec<u8> {
    let len = n.below(14);
    let mut octets = match n.below(4) {
        0 => n.octets(len),
        _ => {
            let (longest, high) = (n.one_of(&[1, 2, 9, 300]), n.within(0, v.into()) as u8);
            let levels = n.levels(len * 3, 0, high, longest);
            if v < 254 {
                pack_loosely(&levels, v, n)
            } else {
                levels
            }
        }
    };
    if n.once_in(4) {
        let tail = n.one_of(&[1, 8, 70, 300]);
        octets.resize(octets.len() + tail, v.saturating_add(1));
    }
    if n.once_in(8) {
        octets.push(n.octet());
    }
    octets
}

#[test]
fn made_inputs_for_every_v() {
    let mut n = Numbers::new(71);
    for v in 0..=255u8 {
        for _ in 0..400 {
            let octets = made_octets(v, &mut n);
            // what the octets give, if they give anything that can be asked for, and numbers about it
            let bins = runs(&octets, v).map_or(0, |runs| levels_of(&runs));
            let bins = usize::try_from(bins).unwrap_or(usize::MAX);
            let wanted = match n.below(6) {
                0 => bins.saturating_add(1),
                1 => bins.saturating_sub(1),
                2 => n.below(40),
                _ => bins,
            };
            let wanted = if wanted > 50_000 && !n.once_in(50) { n.below(5000) } else { wanted };
            run_check(&octets, v, wanted).ok();
            let room = match n.below(6) {
                0 => wanted.saturating_sub(1),
                1 => 0,
                2 => wanted.saturating_add(n.below(30)),
                _ => wanted,
            };
            run_read(&octets, v, wanted, room.min(MOST_LEVELS + 9)).ok();
        }
    }
}

#[test]
fn lengths_near_the_most_that_is_taken() {
    for v in 0..=253 {
        for length in [MOST_LEVELS - 1, MOST_LEVELS, MOST_LEVELS + 1] {
            let mut octets = Vec::new();
            write_run(&mut octets, v, length, v);
            for wanted in [MOST_LEVELS - 1, MOST_LEVELS, MOST_LEVELS + 1] {
                run_check(&octets, v, wanted).ok();
            }
            octets.resize(octets.len() + 40, v + 1);
            run_check(&octets, v, MOST_LEVELS).ok();
            octets.push(v + 2);
            run_check(&octets, v, MOST_LEVELS).ok();
            if v % 50 == 3 {
                octets.pop();
                for room in [MOST_LEVELS - 1, MOST_LEVELS, MOST_LEVELS + 1] {
                    run_read(&octets, v, MOST_LEVELS, room).ok();
                }
            }
        }
    }
}

/// A digit whose weight is past every machine number must not come round to a small one.
#[test]
fn weights_past_every_machine_number() {
    for v in 0..=253u8 {
        for zeros in (0..140).chain([255, 256, 257, 1023, 1024, 65_536]) {
            let mut octets = vec![v; 1];
            octets.resize(1 + zeros, v + 1);
            assert_eq!(run_check(&octets, v, 1), Ok(()));
            octets.push(v + 2);
            assert_eq!(run_check(&octets, v, 1), Err(Refusal { number: 8, place: 1 + zeros as u64 }));
            if zeros < 140 {
                run_check(&octets, v, MOST_LEVELS).ok();
                run_read(&octets, v, 40, 40).ok();
                octets.extend([v + 1, 255, v, 0]);
                run_check(&octets, v, 40).ok();
            }
        }
    }
}

#[test]
fn a_megabyte_of_zero_digits() {
    let mut octets = vec![0; 1 << 20];
    octets[1..].fill(1);
    assert_eq!(reads(&octets, 0, 1), Ok(()));
    *octets.last_mut().unwrap() = 2;
    assert_eq!(reads(&octets, 0, 1), Err((8, (1 << 20) - 1)));
}

/// What is written reads back as the same levels; room one too short is refused.
fn written_and_read(levels: &[u8]) {
    let Ok(written) = run_write(levels, levels.len() + 9) else { panic!("levels up to 252") };
    run_write(levels, written.octets).unwrap();
    if written.octets > 0 {
        assert_eq!(run_write(levels, written.octets - 1).map_err(|r| r.number), Err(11));
    }
    let mut octets = vec![0; written.octets];
    differential::ours::run_write(levels, &mut octets).unwrap();
    let mut back = vec![0xEE; levels.len()];
    differential::ours::run_read(&octets, written.v.into(), levels.len(), &mut back).unwrap();
    assert!(back == levels, "written levels read back as others");
}

#[test]
fn made_levels_for_every_greatest_level() {
    let mut n = Numbers::new(72);
    for greatest in 0..=255u8 {
        for _ in 0..120 {
            let base = 255 - usize::from(greatest.min(252));
            let longest = n.one_of(&[1, 2, 6, base, base + 1, base * base + 1, 400]).max(1);
            let len = n.one_of(&[0, 1, 2, 30, 300, 2000]);
            let len = n.within(0, len);
            let levels = n.levels(len, 0, greatest, longest);
            if greatest <= 252 {
                written_and_read(&levels);
            } else {
                let room = n.below(len + 5);
                run_write(&levels, room).ok();
            }
        }
    }
}

/// Lengths at each power of the base, where a digit is added.
#[test]
fn run_lengths_at_every_power_of_the_base() {
    for v in 0..=252u8 {
        let base = 255 - usize::from(v);
        let mut power = 1usize;
        while power <= 40_000 {
            for length in [power.saturating_sub(1), power, power + 1, power + 2] {
                let mut levels = vec![v; length];
                levels.push(v / 2);
                written_and_read(&levels);
            }
            power *= base;
        }
    }
}

#[test]
fn two_million_levels() {
    let mut n = Numbers::new(73);
    for (longest, high) in [(1, 252), (6, 252), (400, 251), (MOST_LEVELS, 3), (70_000, 0)] {
        written_and_read(&n.levels(MOST_LEVELS, 0, high, longest));
    }
    assert_eq!(run_write(&vec![1; MOST_LEVELS + 1], 100).map_err(|r| r.number), Err(10));
}
