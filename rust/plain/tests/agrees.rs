//! The yardstick does what the independent reader does: else its times would say nothing.
use plain::frame::{Grid, Opened};
use plain::index::Record;
use plain::{Answer, Refusal};
use reference::frame::Circle;
use reference::layout::{unchecked, verdict};
use reference::numbers::Numbers;
use reference::{calls, cases, dual, index, lister, runs, shapes, spoil, stretches};

fn told<T>(answer: Result<T, reference::Refusal>) -> Answer<T> {
    answer.map_err(|r| Refusal(r.number, r.place))
}

#[test]
fn runs_agree() {
    let mut n = Numbers::new(1);
    for _ in 0..20_000 {
        let v = n.octet();
        let len = n.below(12);
        let octets = n.octets(len);
        let wanted = n.below(300);
        let mut ours = vec![7; n.below(400)];
        let mut theirs = ours.clone();
        assert_eq!(plain::runs::check(&octets, v, wanted), told(runs::run_check(&octets, v, wanted)));
        assert_eq!(plain::runs::read(&octets, v, wanted, &mut ours), told(runs::run_read(&octets, v, wanted, &mut theirs)));
        assert_eq!(ours, theirs);
        let levels = n.levels(len, 0, v, 9);
        let mine = plain::runs::write(&levels, &mut ours);
        assert_eq!(mine, told(runs::run_write(&levels, &mut theirs)).map(|w| (w.v, w.octets)));
        assert_eq!(ours, theirs);
    }
}

/// Refusal 8 of each cause, which octets under a random V seldom are.
#[test]
fn faults_agree() {
    let mut n = Numbers::new(6);
    // opened above V, passed, too few
    let mut seen = [0; 3];
    for round in 0..30_000 {
        let v = n.within(0, 253) as u8;
        let (len, longest) = (n.within(1, 20), n.one_of(&[1, 3, 600]));
        let mut octets = shapes::pack_loosely(&n.levels(len, 0, v, longest), v, &mut n);
        if round % 3 == 0 {
            let at = n.below(octets.len());
            octets[at] = n.octet();
        }
        let wanted = n.below(2 * len + 1);
        let found = plain::runs::check(&octets, v, wanted);
        assert_eq!(found, told(runs::run_check(&octets, v, wanted)), "V {v}, {wanted} wanted, {octets:?}");
        assert_eq!(plain::runs::read(&octets, v, wanted, &mut [7; 40]), found);
        if let Err(Refusal(_, place)) = found {
            let cause = if octets[0] > v { 0 } else { 1 + usize::from(place as usize == octets.len()) };
            seen[cause] += 1;
        }
    }
    assert!(seen.iter().all(|times| *times > 300), "{seen:?}");
}

fn verdicts(cases: Vec<cases::Case>, open: impl Fn(&[u8]) -> Answer<Opened>) {
    for case in cases {
        let found = open(&case.file).err();
        assert_eq!(found, case.verdict.map(|(number, place)| Refusal(number, place as u64)), "{}", case.name);
    }
}

#[test]
fn verdicts_agree() {
    verdicts(cases::all(), plain::file::open);
    verdicts(dual::cases::all(), plain::dual::open);
}

#[test]
fn files_agree() {
    let mut n = Numbers::new(2);
    for round in 0..1000 {
        let plan = shapes::random_plan(3, 12, 6, &mut n);
        let mut file = plan.file();
        if round % 3 == 0 {
            spoil::spoil(&mut file, &mut n);
        }
        assert_eq!(plain::file::open(&file).map(|o| o.cuts), told(calls::open(&file)).map(|o| o.cuts));
        assert_eq!(String::from_utf8(plain::lister::text(&file)).unwrap(), lister::text(&file));
        let Ok(accepted) = verdict(&file) else { continue };
        for (k, cut) in accepted.cuts.iter().enumerate() {
            let grid = plain::file::cut(&file, k).unwrap().1.grid;
            assert_eq!((grid.latitude, grid.longitude as u64), (cut.grid.latitude, cut.grid.longitude));
            let (ray, bin) = (n.below(grid.rays), n.below(grid.bins));
            assert_eq!(plain::rays::bin_value(&file, k, ray, bin), told(accepted.bin_value(k, ray, bin)));
            let (mut marks, mut values) = (vec![7; 14], vec![7; 14]);
            plain::rays::ray_values(&file, k, ray, &mut marks, &mut values).unwrap();
            let (mut marks_too, mut values_too) = (vec![7; 14], vec![7; 14]);
            accepted.ray_values(k, ray, &mut marks_too, &mut values_too).unwrap();
            assert_eq!((&marks, &values), (&marks_too, &values_too));
            plain::rays::ray_levels(&file, k, ray, &mut marks).unwrap();
            accepted.ray_levels(k, ray, &mut marks_too).unwrap();
            assert_eq!(marks, marks_too);
            let threshold = n.below(9000) as i32 - 1000;
            let (mut words, mut words_too) = (vec![7; 40], vec![7; 40]);
            let portion = plain::stretches::stretches(&file, k, threshold, (ray, bin), &mut words);
            let expected = stretches::stretches(&file, k, threshold, (ray, bin), &mut words_too);
            assert_eq!(portion, told(expected).map(|p| (p.count, p.next)));
            assert_eq!(words, words_too);
        }
    }
}

/// What open and cut say, in the independent reader's words.
fn opened(Opened { product, time, site, cuts }: Opened) -> dual::calls::Opened {
    dual::calls::Opened { parameter: product.into(), time: time.map(u64::from), site: site.into(), cuts }
}

fn circle(Grid { bins, rays, latitude, longitude, dx, dstart }: Grid) -> Circle {
    Circle { bins, rays, latitude, longitude: longitude.into(), dx: dx.into(), dstart: dstart.into() }
}

#[test]
fn dual_files_agree() {
    let mut n = Numbers::new(3);
    for round in 0..3000 {
        let plan = dual::shapes::random_plan(3, 12, 6, &mut n);
        let mut file = plan.file();
        match round % 3 {
            0 => spoil::spoil(&mut file, &mut n),
            1 => file = spoil::spoil_sections(&plan.sections(), &mut n),
            _ => {}
        }
        assert_eq!(plain::dual::open(&file).map(opened), told(dual::calls::open(&file)));
        for k in 0..4 {
            assert_eq!(plain::dual::cut(&file, k).map(|cut| circle(cut.grid)), told(dual::calls::cut(&file, k)));
            let (ray, bin) = (n.below(7), n.below(13));
            let found = plain::dual::bin_value(&file, k, ray, bin).map(|value| value.map(f64::to_bits));
            assert_eq!(found, told(dual::calls::bin_value(&file, k, ray, bin)).map(|value| value.map(f64::to_bits)));
        }
    }
}

fn record(record: reference::index::Record) -> Record {
    Record { offset: record.offset, before: record.before }
}

/// One call by a record on both sides, with rooms of `room` and of the values' own.
fn by_record(file: &[u8], (cut, ray): (usize, usize), at: reference::index::Record, room: usize, values_room: usize) {
    let (mut ours, mut theirs) = (vec![7; room], vec![7; room]);
    let found = plain::index::ray_levels(file, cut, ray, record(at), &mut ours);
    assert_eq!(found, told(index::ray_levels_from(file, cut, ray, at, &mut theirs)), "cut {cut}, ray {ray}, {at:?}");
    assert_eq!(ours, theirs);
    let (mut values, mut values_too) = (vec![7; values_room], vec![7; values_room]);
    let found = plain::index::ray_values(file, cut, ray, record(at), &mut ours, &mut values);
    assert_eq!(found, told(index::ray_values_from(file, cut, ray, at, &mut theirs, &mut values_too)), "cut {cut}, ray {ray}, {at:?}");
    assert_eq!((ours, values), (theirs, values_too));
}

#[test]
fn indexes_agree() {
    let mut n = Numbers::new(4);
    for case in index::cases::all() {
        by_record(&case.file, (case.cut, case.ray), case.record, case.room, case.room);
    }
    for round in 0..3000 {
        let mut file = index::shapes::random_unchecked_plan(3, 12, 6, &mut n).file();
        if round % 4 == 0 {
            spoil::spoil(&mut file, &mut n);
        }
        for k in 0..4 {
            let room = n.below(9);
            let (mut ours, mut theirs) = (vec![Record { offset: 7, before: 7 }; room], vec![index::Record { offset: 7, before: 7 }; room]);
            assert_eq!(plain::index::build(&file, k, &mut ours), told(index::build_index(&file, k, &mut theirs)));
            assert_eq!(ours, theirs.into_iter().map(record).collect::<Vec<_>>());
            let Some(cut) = unchecked(&file).ok().and_then(|file| file.cuts.get(k).copied()) else { continue };
            for _ in 0..8 {
                let at = index::shapes::random_record(&cut, &mut n);
                by_record(&file, (k, n.below(7)), at, n.within(cut.grid.bins - 1, 13), n.within(cut.grid.bins - 1, 13));
            }
        }
    }
}

#[test]
fn all_rays_agree() {
    let mut n = Numbers::new(5);
    for round in 0..300 {
        let mut file = shapes::random_plan(4, 12, 6, &mut n).file();
        if round % 5 == 0 {
            spoil::spoil(&mut file, &mut n);
        }
        let (mut levels, mut marks, mut values) = (vec![7; 300], vec![7; 300], vec![7; 300]);
        let found = plain::rays::all_levels(&file, &mut levels);
        assert_eq!(found, plain::rays::all_values(&file, &mut marks, &mut values));
        assert_eq!(found, told(verdict(&file)).map(|_| ()));
        let (mut expected, mut expected_marks, mut expected_values) = (vec![7; 300], vec![7; 300], vec![7; 300]);
        let mut at = 0;
        for (k, cut) in verdict(&file).map_or(vec![], |accepted| accepted.cuts).iter().enumerate() {
            for ray in 0..cut.grid.rays {
                calls::ray_levels(&file, k, ray, &mut expected[at..]).unwrap();
                calls::ray_values(&file, k, ray, &mut expected_marks[at..], &mut expected_values[at..]).unwrap();
                at += cut.grid.bins;
            }
        }
        assert_eq!((levels, marks, values), (expected, expected_marks, expected_values));
        if found.is_ok() {
            let short = plain::rays::all_levels(&file, &mut vec![7; at - 1]);
            assert_eq!(short, Err(Refusal(11, 0)));
            assert_eq!(plain::rays::all_values(&file, &mut vec![7; at], &mut vec![7; at - 1]), short);
        }
    }
}
