//! FORMAT.md, "Rays by a record", on this reader: the stated cases, and what ties its calls to the plain ones.
use reference::exact::Natural;
use reference::index::shapes::{long_run, random_record, random_unchecked_plan};
use reference::index::{build_index, cases, ray_levels_from, ray_values_from, Record};
use reference::layout::{unchecked, verdict};
use reference::numbers::Numbers;
use reference::spoil::spoil;
use reference::{calls, runs, shapes};

#[test]
fn stated_cases() {
    for case in cases::all() {
        let mut levels = vec![99; case.room];
        let found = ray_levels_from(&case.file, case.cut, case.ray, case.record, &mut levels);
        let expected = case.answer.as_ref().map_err(|(number, place)| (*number, *place as u64));
        assert_eq!(found.map_err(|r| (r.number, r.place)), expected.map(|_| ()), "{}", case.name);
        let mut kept = vec![99; case.room];
        if let Ok(answer) = expected {
            kept[..answer.len()].copy_from_slice(answer);
        }
        assert_eq!(levels, kept, "{}", case.name);
    }
}

#[test]
fn stated_indexes() {
    for case in cases::built() {
        let mut records = vec![Record { offset: 9, before: 9 }; case.records.len() + 1];
        assert_eq!(build_index(&case.file, 0, &mut records), Ok(()), "{}", case.name);
        let found: Vec<(u32, u32)> = records.iter().map(|record| (record.offset, record.before)).collect();
        assert_eq!(found, [&case.records[..], &[(9, 9)]].concat(), "{}", case.name);
        let short = build_index(&case.file, 0, &mut records[..case.records.len() - 1]);
        assert_eq!(short.map_err(|r| (r.number, r.place)), Err((11, 0)));
    }
}

/// Where a file is not refused by 8, checking its data or not comes to the same.
#[test]
fn every_check_but_8() {
    let mut n = Numbers::new(95);
    let of_cases = reference::cases::all().into_iter().map(|case| case.file);
    let spoiled = (0..3000).map(|_| {
        let mut file = random_unchecked_plan(3, 6, 4, &mut n).file();
        spoil(&mut file, &mut n);
        file
    });
    let mut by_8 = 0;
    for file in of_cases.chain(spoiled) {
        match (verdict(&file), unchecked(&file)) {
            (Ok(all), Ok(but_8)) => assert_eq!(all.cuts.len(), but_8.cuts.len()),
            (Err(refusal), _) if refusal.number == 8 => by_8 += 1,
            (all, but_8) => assert_eq!(all.err(), but_8.err()),
        }
    }
    assert!(by_8 > 500, "{by_8}");
}

/// By the record that building made, a ray is what the plain calls say.
#[test]
fn by_built_records() {
    let mut n = Numbers::new(96);
    for _ in 0..400 {
        let file = shapes::random_plan(3, 14, 9, &mut n).file();
        let accepted = verdict(&file).expect("a sound file");
        for (k, cut) in accepted.cuts.iter().enumerate() {
            for (ray, record) in cut.index().into_iter().enumerate() {
                let (mut levels, mut expected) = ([99; 15], [99; 15]);
                assert_eq!(ray_levels_from(&file, k, ray, record, &mut levels), Ok(()));
                assert_eq!(calls::ray_levels(&file, k, ray, &mut expected), Ok(()));
                assert_eq!(levels, expected);
                let (mut values, mut expected_values) = ([99; 15], [99; 15]);
                assert_eq!(ray_values_from(&file, k, ray, record, &mut levels, &mut values), Ok(()));
                assert_eq!(calls::ray_values(&file, k, ray, &mut expected, &mut expected_values), Ok(()));
                assert_eq!((levels, values), (expected, expected_values));
            }
        }
    }
}

/// 1 + the sum of digit k times B^k, whatever its size.
fn exact_length(digits: &[u8], v: u8) -> Natural {
    let base = u32::from(255 - v);
    digits.iter().rev().fold(Natural::from(0), |sum, digit| sum.times(base).plus(&Natural::from(u64::from(digit - v - 1)))).plus(&1.into())
}

/// A run's length is compared with a record as the exact number is.
#[test]
fn lengths_are_exact() {
    let mut n = Numbers::new(97);
    for _ in 0..3000 {
        let v = n.below(253) as u8;
        let octets = match n.below(3) {
            0 => long_run(0, (1u128 << n.within(0, 127)) - 1 + n.below(3) as u128, v),
            1 => [vec![0], vec![n.one_of(&[v + 1, 255]); n.below(400)]].concat(),
            _ => (0..n.within(1, 60)).map(|k| if k == 0 { 0 } else { n.within(usize::from(v) + 1, 255) as u8 }).collect(),
        };
        let (run, exact) = (runs::runs(&octets, v).expect("a run")[0], exact_length(&octets[1..], v));
        assert_eq!(run.octets, octets.len());
        for before in [0, 1, u32::MAX, u32::MAX - 1, n.word() as u32, run.length as u32, (run.length - 1) as u32] {
            let left = run.length.saturating_sub(before.into());
            for bins in [0u64, 1, 5, 2048] {
                let wanted = Natural::from(u64::from(before) + bins);
                assert_eq!(left > bins.into(), exact > wanted, "V {v}, before {before}, {octets:?}");
            }
        }
    }
}

/// Records of every kind are met.
#[test]
fn random_records() {
    let mut n = Numbers::new(98);
    let (mut answered, mut refused) = (0, 0);
    for _ in 0..2000 {
        let file = random_unchecked_plan(2, 8, 4, &mut n).file();
        let cuts = unchecked(&file).expect("a file that is sound but for its data").cuts;
        let cut = n.below(cuts.len());
        for _ in 0..10 {
            let record = random_record(&cuts[cut], &mut n);
            match ray_levels_from(&file, cut, 0, record, &mut [0; 8]) {
                Ok(()) => answered += 1,
                Err(refusal) => {
                    assert_eq!((refusal.number, refusal.place), (13, cuts[cut].place as u64));
                    refused += 1;
                }
            }
        }
    }
    assert!(answered > 4000 && refused > 4000, "{answered} {refused}");
}
