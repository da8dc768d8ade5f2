//! Data of some hundred octets and more, of which the scan takes 256 at a time: sound, and with the octet at fault at every place about
//! the ends of those blocks.
use differential::compare::{run_check, run_read, Compared};
use reference::maker::{CutPlan, Plan};
use reference::numbers::Numbers;
use reference::published::Product;
use reference::runs::{levels_of, pack, runs, MOST_LEVELS};
use reference::scene::rainy_day;
use reference::shapes::pack_loosely;

/// The octets of a block.
const BLOCK: usize = 256;

fn bins(octets: &[u8], v: u8) -> u128 {
    levels_of(&runs(octets, v).expect("opens with a level"))
}

/// Both bare run calls, wanting what the octets give and about it. Whether they give it is told.
fn about(octets: &[u8], v: u8) -> bool {
    let all = bins(octets, v).min(MOST_LEVELS as u128 + 1) as usize;
    for n in [all.saturating_sub(1), all + 1] {
        assert!(run_check(octets, v, n).is_err());
    }
    let _ = run_read(octets, v, all, all);
    run_check(octets, v, all).is_ok()
}

/// Wanting what each front of the octets gives: the fault is then at each octet that adds a bin.
fn every_front(octets: &[u8], v: u8) {
    for end in 0..=octets.len() {
        let n = bins(&octets[..end], v);
        if n <= MOST_LEVELS as u128 {
            let _ = run_check(octets, v, n as usize);
        }
    }
}

#[test]
fn a_fault_at_every_octet() {
    let mut n = Numbers::new(41);
    for v in [0, 1, 100, 171, 250, 251, 252, 253] {
        for longest in [1, 3, 40, 400, 3000] {
            let levels = n.levels(longest * 300, 0, v, longest);
            for octets in [pack(&levels, v), pack_loosely(&levels, v, &mut n)] {
                let octets = &octets[..octets.len().min(4 * BLOCK + 10)];
                assert!(about(octets, v), "V {v}, runs to {longest}");
                every_front(octets, v);
            }
        }
    }
}

/// One run of some digits at every place about a block's end, between runs of one bin.
#[test]
fn a_run_across_the_end_of_a_block() {
    for v in [0, 171, 250, 252, 253] {
        for end in [BLOCK, 2 * BLOCK] {
            for start in end - 12..end + 4 {
                for digits in [1, 2, 3, 5, 8, 13, 21, 22, 23, 40, 254, 255, 256, 257, 300, 600] {
                    for last in [v + 1, v + 2, 255] {
                        let mut octets: Vec<u8> = (0..start).map(|i| (i % 2) as u8 * v).collect();
                        octets.push(v);
                        octets.extend(vec![v + 1; digits - 1]);
                        octets.push(last);
                        octets.extend((0..40).map(|i| (i % 2) as u8 * v));
                        // a digit other than 0 so deep in its run gives more bins than any n
                        let fits = bins(&octets, v) <= MOST_LEVELS as u128;
                        assert_eq!(about(&octets, v), fits, "V {v}, {digits} digits from {start} on");
                        if fits {
                            let _ = run_check(&octets, v, start + 20);
                        } else {
                            let _ = run_check(&octets, v, MOST_LEVELS);
                        }
                    }
                }
            }
        }
    }
}

/// Blocks whose sums are as great as they can be: the greatest digit behind each level, or behind all of a block.
#[test]
fn the_greatest_sums() {
    for v in 0..=253 {
        for digits in 1..=4 {
            let run = [vec![v], vec![255; digits]].concat();
            let octets = run.repeat(3 * BLOCK / run.len());
            let most = bins(&run, v) as usize;
            for count in [1, BLOCK / run.len(), 3 * BLOCK / run.len()] {
                let front = &octets[..count * run.len()];
                if count * most <= MOST_LEVELS {
                    assert!(about(front, v), "V {v}, {count} runs of {digits} digits");
                }
                for n in [most, count * most - 1, MOST_LEVELS] {
                    let _ = run_check(front, v, n.min(MOST_LEVELS));
                }
            }
        }
        let greatest = [vec![v], vec![255; 3 * BLOCK]].concat();
        for n in [0, 1, 2, 65_535, 65_536, 65_537, MOST_LEVELS] {
            assert!(run_check(&greatest, v, n).is_err());
        }
        let least = [vec![v], vec![v + 1; 3 * BLOCK]].concat();
        assert_eq!(run_check(&least, v, 1), Ok(()));
        assert!(run_check(&least, v, 2).is_err());
        let levels = vec![v; 3 * BLOCK];
        assert!(about(&levels, v));
    }
}

#[test]
fn random_long_data() {
    let mut n = Numbers::new(43);
    let mut sound = 0;
    for v in 0..=253 {
        for _ in 0..60 {
            let len = n.below(6 * BLOCK);
            let longest = n.one_of(&[1, 2, 8, 100, 1000]);
            let levels = n.levels(len * longest.min(20), 0, v, longest);
            let mut octets = pack_loosely(&levels, v, &mut n);
            if octets.is_empty() {
                continue;
            }
            sound += usize::from(about(&octets, v));
            let wanted = bins(&octets, v).min(MOST_LEVELS as u128) as usize;
            // an octet changed, left out or put in
            let at = n.below(octets.len());
            match n.below(3) {
                0 => octets[at] = n.octet(),
                1 => drop(octets.remove(at)),
                _ => octets.insert(at, n.octet()),
            }
            let _ = run_check(&octets, v, wanted);
            let _ = run_read(&octets, v, wanted, wanted);
        }
    }
    assert!(sound > 10_000, "{sound}");
}

/// A radar's file with one octet changed, anywhere: open, and the run calls on that section's data.
#[test]
fn a_real_sized_file_spoiled() {
    let elevations = [0.0, 1.1, 3.8];
    let sound = rainy_day().plan(Product::Reflectivity, &elevations.map(|angle| (600, angle))).file();
    assert!(Compared::new(&sound).open().is_ok());
    let mut n = Numbers::new(47);
    let mut refused = 0;
    for _ in 0..400 {
        let mut file = sound.clone();
        let at = n.below(file.len());
        file[at] = n.octet();
        refused += usize::from(Compared::new(&file).open().is_err());
    }
    assert!(refused > 100, "{refused}");
}

/// The same data in a file's second cut: refused at the octet at fault, by every call.
#[test]
fn a_fault_behind_blocks_in_a_file() {
    let mut n = Numbers::new(53);
    for v in [3, 171, 251] {
        let levels = n.levels(2000, 0, v, 5);
        let data = pack(&levels, v);
        assert!(data.len() > 3 * BLOCK);
        let sound = CutPlan::of_levels(2, 2, &[1, 0, 0, 1]);
        for end in [BLOCK - 1, BLOCK, BLOCK + 1, 2 * BLOCK, 3 * BLOCK + 1, data.len()] {
            for extra in [0, 1] {
                let wanted = bins(&data[..end], v) as usize + extra;
                let cut = CutPlan::of_data(wanted, 1, v.into(), data.clone());
                let file = Plan::new(Product::Velocity, vec![sound.clone(), cut]).file();
                let compared = Compared::new(&file);
                assert_eq!(compared.open().is_ok(), wanted == levels.len() && wanted <= 2048);
                compared.every_call();
            }
        }
    }
}
