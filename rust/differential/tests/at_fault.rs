//! Refusal 8 names the octet at fault: the first where it is above V, the level or digit at which the bins are first passed, or one past
//! the data. By the bare run calls, and by every call on a file.
use differential::compare::{run_check, run_read, Compared};
use reference::cases;
use reference::maker::{CutPlan, Plan};
use reference::numbers::Numbers;
use reference::published::Product;
use reference::runs::{levels_of, runs};
use reference::shapes::pack_loosely;
use reference::Refusal;
use std::ops::RangeInclusive;

/// Run check and run read are refused by 8 at this octet.
fn faults(octets: &[u8], v: u8, n: usize, at: usize) {
    let refused = Err(Refusal { number: 8, place: at as u64 });
    assert_eq!(run_check(octets, v, n), refused, "V {v}, n {n}");
    assert_eq!(run_read(octets, v, n, n), refused, "V {v}, n {n}");
    let _ = run_read(octets, v, n, n + 2);
}

/// A file whose second cut has this data for `n` bins: every call is refused by 8 at this octet of it.
fn faults_in_file(data: &[u8], v: u8, n: usize, at: usize) {
    // V may be 252 for reflectivity, and 251 for velocity
    let product = if v % 2 == 0 { Product::Reflectivity } else { Product::Velocity };
    let (bins, rays) = if n % 2 == 0 { (n / 2, 2) } else { (n, 1) };
    let sound = CutPlan::of_levels(2, 2, &[1, 0, 0, 1]);
    let file = Plan::new(product, vec![sound, CutPlan::of_data(bins, rays, v.into(), data.to_vec())]).file();
    let compared = Compared::new(&file);
    // behind the data stand the file's last four octets
    let place = (file.len() - 4 - data.len() + at) as u64;
    assert_eq!(compared.open(), Err(Refusal { number: 8, place }), "V {v}, n {n}");
    compared.every_call();
}

/// Data under V, what is wanted, and the octet at fault: each cause at the first octet, in the midst and at the last, with `zeros` zero
/// digits ahead of the octet at fault, behind it and at the data's end.
fn stated(v: u8, zeros: usize) -> Vec<(Vec<u8>, usize, usize)> {
    let (zero, one) = (v + 1, v + 2);
    let tail = vec![zero; zeros];
    let with = |before: &[u8], after: &[u8]| [before, &tail[..], after].concat();
    vec![
        // opens above V
        (vec![zero], 1, 0),
        (vec![255, v], 1, 0),
        (with(&[one], &[v, v]), 2, 0),
        // passed by the first octet
        (vec![v], 0, 0),
        (with(&[v], &[v]), 0, 0),
        // by a level in the midst, and by the last octet
        (vec![0, v, v, 0, v], 2, 2),
        (vec![v, 0, v], 2, 2),
        (with(&[v, 0], &[v]), 2, 2 + zeros),
        (with(&[v, 0, v], &[]), 2, 2),
        (with(&[v], &[0, v, zero]), 1, 1 + zeros),
        // by a digit in the midst, and by the last octet
        (vec![0, v, one, 0, v], 2, 2),
        (vec![0, v, one], 2, 2),
        (with(&[v], &[one]), 1, 1 + zeros),
        (with(&[v, 0], &[one, zero, v]), 2, 2 + zeros),
        (with(&[v, one], &[one]), 1, 1),
        (with(&[v, one], &[]), 1, 1),
        (with(&[v, one], &[one]), 2, 2 + zeros),
        // too few
        (vec![v], 2, 1),
        (vec![v, 0, v], 4, 3),
        (vec![v, 0, one], 4, 3),
        (with(&[v], &[]), 2, 1 + zeros),
        (with(&[v, one], &[0]), 4, 3 + zeros),
    ]
}

#[test]
fn stated_cases() {
    for v in 0..=253 {
        for zeros in [0, 1, 2, 7, 8, 9, 40, 130] {
            for (octets, n, at) in stated(v, zeros) {
                faults(&octets, v, n, at);
                if n > 0 && v <= 252 && zeros < 9 {
                    faults_in_file(&octets, v, n, at);
                }
            }
        }
        assert_eq!(run_check(&[], v, 0), Ok(()));
        faults(&[], v, 1, 0);
        faults(&[], v, 300, 0);
    }
}

/// Files with their verdicts: the data is that of the only cut, of the first of two, or of the second.
#[test]
fn stated_files() {
    for case in cases::octets_at_fault() {
        let compared = Compared::new(&case.file);
        let found = compared.open().map_err(|refusal| (refusal.number, refusal.place as usize));
        assert_eq!(found.err(), case.verdict, "{}", case.name);
        compared.every_call();
    }
}

#[test]
fn long_tails_of_zero_digits() {
    for v in [0, 1, 130, 251, 252, 253] {
        for (octets, n, at) in stated(v, 100_000) {
            faults(&octets, v, n, at);
            if n > 0 && v <= 252 {
                faults_in_file(&octets, v, n, at);
            }
        }
    }
}

/// How often each cause was seen.
#[derive(Debug, Default)]
struct Seen {
    opened: usize,
    passed_by_level: usize,
    passed_by_digit: usize,
    too_few: usize,
    /// of any cause, at another octet than the first
    not_first: usize,
}

impl Seen {
    fn count(&mut self, octets: &[u8], v: u8, at: usize) {
        let cause = match octets.get(at) {
            None => &mut self.too_few,
            Some(octet) if *octet <= v => &mut self.passed_by_level,
            Some(_) if at == 0 => &mut self.opened,
            Some(octet) => {
                assert!(*octet > v + 1, "a zero digit is at fault");
                &mut self.passed_by_digit
            }
        };
        *cause += 1;
        self.not_first += usize::from(at > 0);
    }

    /// Each cause came up once in twenty rounds at least, and most of the faults not at the first octet.
    fn were_often(&self, rounds: usize) {
        let least = [self.opened, self.passed_by_level, self.passed_by_digit, self.too_few].into_iter().min();
        assert!(least > Some(rounds / 20) && self.not_first > rounds * 2 / 3, "{self:?} of {rounds}");
    }
}

/// Octets under V that open with a level, and now and then with a digit: sound runs, zero digits, noise.
fn random_octets(v: u8, n: &mut Numbers) -> Vec<u8> {
    let (len, high) = (n.within(1, 30), n.within(0, v.into()) as u8);
    let longest = n.one_of(&[1, 2, 9, 300]);
    let levels = n.levels(len, 0, high, longest);
    let mut octets = pack_loosely(&levels, v, n);
    match n.below(8) {
        0 => octets.insert(0, n.within(usize::from(v) + 1, 255) as u8),
        1 => {
            let at = n.within(1, octets.len());
            octets.insert(at, n.octet());
        }
        2 => {
            let at = n.within(1, octets.len());
            octets.splice(at..at, vec![v + 1; n.within(1, 70)]);
        }
        _ => {}
    }
    octets
}

/// A number in a range that may be wanted of such octets, and the octet that is then at fault: one of them, or the one past the last. What
/// the octets before it write is not too much, and what they write with it is.
fn wanted(octets: &[u8], v: u8, range: &RangeInclusive<usize>, n: &mut Numbers) -> Option<(usize, usize)> {
    let most = *range.end();
    let levels = |front: &[u8]| runs(front, v).map(|runs| levels_of(&runs).min(most as u128 + 1) as usize);
    if levels(octets).is_none() {
        return Some((n.within(*range.start(), most), 0));
    }
    let at = n.below(octets.len() + 1);
    let before = levels(&octets[..at])?;
    let (first, last) = match octets.get(at) {
        Some(_) => (before, levels(&octets[..=at])?.saturating_sub(1)),
        None => (before + 1, before + 9),
    };
    let (first, last) = (first.max(*range.start()), last.min(most));
    (first <= last).then(|| (n.within(first, last), at))
}

/// So many rounds under each V up to the greatest, of octets at fault with what is wanted of them.
fn random_faults(
    greatest: u8,
    rounds: usize,
    range: RangeInclusive<usize>,
    n: &mut Numbers,
    mut each: impl FnMut(&[u8], u8, usize, usize),
) {
    let mut seen = Seen::default();
    for v in 0..=greatest {
        let mut left = rounds;
        while left > 0 {
            let octets = random_octets(v, n);
            let Some((wanted, at)) = wanted(&octets, v, &range, n) else { continue };
            each(&octets, v, wanted, at);
            seen.count(&octets, v, at);
            left -= 1;
        }
    }
    seen.were_often(rounds * (usize::from(greatest) + 1));
}

#[test]
fn random_octets_under_every_v() {
    random_faults(253, 400, 0..=100_000, &mut Numbers::new(151), faults);
}

#[test]
fn random_data_under_every_v() {
    random_faults(252, 40, 1..=2048, &mut Numbers::new(152), faults_in_file);
}
