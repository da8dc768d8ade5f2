//! "Run-length rule", and the bare run calls, which alone test their arguments for 12.
use crate::{refused, refused_at, Refusal};
use std::iter;

/// The most bins that a cut can have, and the most levels that a run call takes.
pub const MOST_LEVELS: usize = 2_097_152;
/// The greatest level that has a meaning.
pub const GREATEST_LEVEL: u8 = 252;

#[derive(Debug, Clone, Copy, PartialEq, Eq)]
pub struct Run {
    pub level: u8,
    /// How many bins; the greatest number of its type stands for anything longer.
    pub length: u128,
    /// How many octets write it.
    pub octets: usize,
}

/// 1 + the sum of digit k times B^k: of no digit, of the first, of the first two, and so on to all of them.
fn lengths(digits: &[u8], v: u8) -> impl Iterator<Item = u128> + '_ {
    let base = u128::from(255 - v);
    let weights = iter::successors(Some(1u128), move |weight| Some(weight.saturating_mul(base)));
    let shares = digits.iter().zip(weights).map(move |(octet, weight)| u128::from(octet - v - 1).saturating_mul(weight));
    iter::once(1).chain(shares).scan(0, |sum: &mut u128, share| {
        *sum = sum.saturating_add(share);
        Some(*sum)
    })
}

/// That of all of them.
fn length(digits: &[u8], v: u8) -> u128 {
    lengths(digits, v).last().expect("the length of no digit")
}

/// Whether the first octet is above V and opens no run.
fn opens_above(octets: &[u8], v: u8) -> bool {
    octets.first().is_some_and(|first| *first > v)
}

/// Each run's octets: one up to V, and the octets above V that follow it.
fn octets_of_runs(octets: &[u8], v: u8) -> impl Iterator<Item = &[u8]> {
    octets.chunk_by(move |_, next| *next > v)
}

/// The runs that octets write under V, or none where they open above V. A run's octets are looked at when it is asked for.
pub fn each_run(octets: &[u8], v: u8) -> Option<impl Iterator<Item = Run> + '_> {
    let run = move |run: &[u8]| Run { level: run[0], length: length(&run[1..], v), octets: run.len() };
    (!opens_above(octets, v)).then(|| octets_of_runs(octets, v).map(run))
}

/// All those runs.
pub fn runs(octets: &[u8], v: u8) -> Option<Vec<Run>> {
    each_run(octets, v).map(Iterator::collect)
}

/// How many levels runs give; the greatest number of its type stands for anything more.
pub fn levels_of(runs: &[Run]) -> u128 {
    runs.iter().fold(0, |sum: u128, run| sum.saturating_add(run.length))
}

/// How many levels octets that open a run write under V: the first of them, the first two, and so on to all of them. What the runs
/// before an octet's own write is kept.
fn levels_of_fronts(octets: &[u8], v: u8) -> impl Iterator<Item = u128> + '_ {
    let fronts = octets_of_runs(octets, v).scan(0, move |before: &mut u128, run| {
        let (ahead, digits) = (*before, &run[1..]);
        *before = ahead.saturating_add(length(digits, v));
        Some(lengths(digits, v).map(move |length| ahead.saturating_add(length)))
    });
    fronts.flatten()
}

/// The octet at fault, counted from 0, of octets that do not write exactly n levels under V: the first, where it is above V; else the
/// first with which they write more than n; else, where they write fewer, one past the last.
fn at_fault(octets: &[u8], v: u8, n: usize) -> usize {
    if opens_above(octets, v) {
        return 0;
    }
    levels_of_fronts(octets, v).position(|levels| levels > n as u128).unwrap_or(octets.len())
}

/// The runs of octets that write exactly n levels under V; else the octet at fault.
pub(crate) fn exactly(octets: &[u8], v: u8, n: usize) -> Result<Vec<Run>, usize> {
    runs(octets, v).filter(|runs| levels_of(runs) == n as u128).ok_or_else(|| at_fault(octets, v, n))
}

/// The n levels that octets write under V, where they write exactly these; else the octet at fault.
pub(crate) fn decode(octets: &[u8], v: u8, n: usize) -> Result<Vec<u8>, usize> {
    let runs = exactly(octets, v, n)?;
    Ok(runs.iter().flat_map(|run| iter::repeat_n(run.level, run.length as usize)).collect())
}

/// 12 and 10, by the arguments of run check and run read. A file has no such arguments: section 5 has held its V to M, and
/// section 3 its bins.
fn arguments(v: u8, n: usize) -> Result<(), Refusal> {
    if v > 253 {
        return refused(12);
    }
    if n > MOST_LEVELS {
        return refused(10);
    }
    Ok(())
}

/// 8 where octets do not write what is wanted, at the octet at fault.
fn wanted<T>(found: Result<T, usize>) -> Result<T, Refusal> {
    found.or_else(|at_fault| refused_at(8, at_fault))
}

/// Run check: what run read finds in octets, with no buffer lent.
pub fn run_check(octets: &[u8], v: u8, n: usize) -> Result<(), Refusal> {
    arguments(v, n)?;
    wanted(exactly(octets, v, n)).map(|_| ())
}

/// Run read: n levels at the front of a lent buffer.
pub fn run_read(octets: &[u8], v: u8, n: usize, levels: &mut [u8]) -> Result<(), Refusal> {
    arguments(v, n)?;
    if levels.len() < n {
        return refused(11);
    }
    levels[..n].copy_from_slice(&wanted(decode(octets, v, n))?);
    Ok(())
}

/// One run under V: its level, then the digits of its length less 1, the last of them not zero.
pub fn write_run(octets: &mut Vec<u8>, level: u8, length: usize, v: u8) {
    let base = 255 - usize::from(v);
    octets.push(level);
    let mut rest = length - 1;
    while rest > 0 {
        octets.push(v + 1 + (rest % base) as u8);
        rest /= base;
    }
}

/// Levels up to V under V: each run as long as it can be, its digits ended with a non-zero one.
pub fn pack(levels: &[u8], v: u8) -> Vec<u8> {
    let mut octets = Vec::new();
    for run in levels.chunk_by(|a, b| a == b) {
        write_run(&mut octets, run[0], run.len(), v);
    }
    octets
}

/// The octets of the writer, whose V is the greatest level.
pub fn encode(levels: &[u8]) -> (u8, Vec<u8>) {
    let v = levels.iter().copied().max().unwrap_or(0);
    (v, pack(levels, v))
}

/// How many digits a run of so many bins takes: with k of them it has up to B^k.
fn digits_for(length: usize, v: u8) -> usize {
    let base = 255 - usize::from(v);
    let reaches = iter::successors(Some(1usize), |reach| Some(reach.saturating_mul(base)));
    reaches.take_while(|reach| *reach < length).count()
}

/// The fewest octets that write levels under V, of all ways to cut them into runs. No call tells it: the writer is held against it.
pub fn fewest_octets(levels: &[u8], v: u8) -> usize {
    let mut fewest = vec![0];
    for (end, level) in levels.iter().enumerate() {
        let longest = levels[..=end].iter().rev().take_while(|one| *one == level).count();
        let by_last_run = (1..=longest).map(|length| fewest[end + 1 - length] + 1 + digits_for(length, v));
        fewest.push(by_last_run.min().expect("a run of one bin"));
    }
    fewest[levels.len()]
}

#[derive(Debug, Clone, Copy, PartialEq, Eq)]
pub struct Written {
    pub v: u8,
    pub octets: usize,
}

/// Run write: octets at the front of a lent buffer; answers V and their number.
pub fn run_write(levels: &[u8], room: &mut [u8]) -> Result<Written, Refusal> {
    if levels.len() > MOST_LEVELS || levels.iter().any(|level| *level > GREATEST_LEVEL) {
        return refused(10);
    }
    let (v, octets) = encode(levels);
    if room.len() < octets.len() {
        return refused(11);
    }
    room[..octets.len()].copy_from_slice(&octets);
    Ok(Written { v, octets: octets.len() })
}

#[cfg(test)]
mod tests {
    use super::*;
    use crate::numbers::Numbers;
    use std::collections::HashMap;

    fn reads(octets: &[u8], v: u8, n: usize) -> Result<Vec<u8>, u32> {
        let mut levels = vec![0; n];
        run_read(octets, v, n, &mut levels).map(|()| levels).map_err(|r| r.number)
    }

    #[test]
    fn checked_examples_of_reading() {
        for (v, octets, n) in
            [(10, &[3, 11][..], 1), (10, &[3, 255], 245), (10, &[3, 11, 12], 246), (252, &[7, 255, 255], 9), (252, &[7, 253, 253, 254], 10)]
        {
            assert_eq!(reads(octets, v, n), Ok(vec![octets[0]; n]));
            assert_eq!(reads(octets, v, n - 1), Err(8));
            assert_eq!(reads(octets, v, n + 1), Err(8));
        }
        assert_eq!(reads(&[11, 3], 10, 2), Err(8));
        assert_eq!(reads(&[], 0, 0), Ok(vec![]));
        assert_eq!(reads(&[3], 10, 0), Err(8));
        assert_eq!(reads(&[3], 253, 1), Ok(vec![3]));
        assert_eq!(reads(&[3], 254, 1), Err(12));
        assert_eq!(run_check(&[3], 253, MOST_LEVELS + 1).map_err(|r| r.number), Err(10));
    }

    #[test]
    fn a_tail_of_zero_digits_adds_nothing() {
        let octets = [&[5, 13], &vec![11; 100_000][..]].concat();
        assert_eq!(reads(&octets, 10, 3), Ok(vec![5; 3]));
        assert_eq!(reads(&[&octets[..], &[12]].concat(), 10, 3), Err(8));
    }

    /// Refusal 8 at this octet, from run check and from run read.
    fn faults(octets: &[u8], v: u8, n: usize, at: usize) {
        let refused = refused_at(8, at);
        assert_eq!(run_check(octets, v, n), refused, "V {v}, n {n}, {octets:?}");
        assert_eq!(run_read(octets, v, n, &mut vec![0; n]), refused, "V {v}, n {n}, {octets:?}");
    }

    #[test]
    fn data_that_opens_above_v() {
        faults(&[11], 10, 1, 0);
        // the rest alone would give what is wanted, or too much
        faults(&[11, 3], 10, 1, 0);
        faults(&[255, 3, 255], 10, 1, 0);
        faults(&[1], 0, 0, 0);
        faults(&[253, 7], 252, 1, 0);
        faults(&[254, 253], 253, 1, 0);
    }

    /// At the octet whose own share passes what is wanted: under V 10 the digits of a run weigh 1, 245, 60,025.
    #[test]
    fn more_than_wanted() {
        faults(&[3], 10, 0, 0);
        faults(&[3, 3, 3], 10, 0, 0);
        // a level: the second of one bin, the last of four
        faults(&[3, 4, 5, 6], 10, 1, 1);
        faults(&[3, 4, 5, 6], 10, 3, 3);
        // a digit of 5 makes six bins, and its run's level alone made one
        faults(&[3, 16], 10, 5, 1);
        faults(&[3, 16, 9, 9], 10, 5, 1);
        faults(&[3, 4, 16, 9], 10, 6, 2);
        // a second digit of 1 makes 245 more
        faults(&[3, 12, 12, 9], 10, 246, 2);
        faults(&[3, 12, 12, 9], 10, 247, 3);
        faults(&[0, 255], 0, 254, 1);
        faults(&[7, 255, 255], 252, 8, 2);
        faults(&[7, 254, 255, 255], 253, 2, 2);
        faults(&[7, 254, 255, 255], 253, 3, 3);
    }

    /// A zero digit is never at fault: not before the octet that is, and not after it.
    #[test]
    fn zero_digits_about_the_fault() {
        faults(&[0, 131, 131, 132], 130, 1, 3);
        faults(&[0, 131, 131, 132, 131, 131], 130, 1, 3);
        faults(&[0, 131, 131, 0, 131], 130, 1, 3);
        faults(&[0, 132, 131, 131, 7], 130, 2, 4);
        let zeros = vec![11; 100_000];
        faults(&[&[3], &zeros[..], &[12]].concat(), 10, 1, 100_001);
        faults(&[&[3], &zeros[..], &[3]].concat(), 10, 1, 100_001);
        faults(&[&[3, 13], &zeros[..]].concat(), 10, 2, 1);
        faults(&[&[3], &zeros[..]].concat(), 10, 2, 100_001);
    }

    #[test]
    fn fewer_than_wanted() {
        faults(&[], 10, 1, 0);
        faults(&[3], 10, 2, 1);
        faults(&[3, 4, 5], 10, 4, 3);
        faults(&[3, 16], 10, 7, 2);
        faults(&[3, 16, 11, 11], 10, 7, 4);
        faults(&[3, 11, 12], 10, 247, 3);
    }

    /// The rule in its own words: each front of the octets decoded from nothing.
    fn by_the_rule(octets: &[u8], v: u8, n: usize) -> Option<usize> {
        let levels = |octets| runs(octets, v).map(|runs| levels_of(&runs));
        let Some(all) = levels(octets) else { return Some(0) };
        let passed = (0..octets.len()).find(|i| levels(&octets[..=*i]) > Some(n as u128));
        passed.or((all < n as u128).then_some(octets.len()))
    }

    #[test]
    fn every_fault_is_the_rules() {
        let mut numbers = Numbers::new(141);
        // none, opened above V, passed, too few
        let mut seen = [0; 4];
        for _ in 0..40_000 {
            let (v, len) = (numbers.within(0, 253) as u8, numbers.below(12));
            let octet = |n: &mut Numbers, i| {
                let is_level = if i == 0 { !n.once_in(9) } else { n.once_in(2) };
                (if is_level { n.within(0, v.into()) } else { n.within(usize::from(v) + 1, 255) }) as u8
            };
            let octets: Vec<u8> = (0..len).map(|i| octet(&mut numbers, i)).collect();
            let n = numbers.one_of(&[0, 1, 3, 9, 300]);
            let n = numbers.within(0, n);
            let fault = by_the_rule(&octets, v, n);
            match fault {
                Some(at) => faults(&octets, v, n, at),
                None => assert_eq!(run_check(&octets, v, n), Ok(()), "V {v}, n {n}, {octets:?}"),
            }
            let cause = match fault {
                None => 0,
                Some(_) if opens_above(&octets, v) => 1,
                Some(at) if at < octets.len() => 2,
                Some(_) => 3,
            };
            seen[cause] += 1;
        }
        assert!(seen.iter().all(|times| *times > 1000), "{seen:?}");
    }

    /// Two million octets are looked at once or twice, and not once for each front.
    #[test]
    fn the_fault_of_much_data() {
        let levels = vec![3; MOST_LEVELS];
        faults(&levels, 10, MOST_LEVELS - 1, MOST_LEVELS - 1);
        faults(&[&[3], &vec![11; MOST_LEVELS][..], &[12]].concat(), 10, MOST_LEVELS, MOST_LEVELS + 1);
    }

    #[test]
    fn checked_examples_of_writing() {
        assert_eq!(encode(&[7; 10]), (7, vec![7, 17]));
        assert_eq!(encode(&[7; 2]), (7, vec![7, 9]));
        assert_eq!(encode(&[252; 10]), (252, vec![252, 253, 253, 254]));
        assert_eq!(encode(&[]), (0, vec![]));
        assert_eq!(run_write(&[253], &mut [0; 9]), refused(10));
        assert_eq!(run_write(&[7; 10], &mut [0; 1]), refused(11));
        assert_eq!(run_write(&[7; 10], &mut [0; 2]), Ok(Written { v: 7, octets: 2 }));
    }

    #[test]
    fn the_fewest_octets() {
        assert_eq!(fewest_octets(&[], 0), 0);
        assert_eq!(fewest_octets(&[7], 7), 1);
        for (v, most) in [(7, &[1, 248][..]), (250, &[1, 5, 25, 125]), (252, &[1, 3, 9, 27]), (253, &[1, 2, 4, 8])] {
            for (digits, most) in most.iter().enumerate() {
                assert_eq!(fewest_octets(&vec![7; *most], v), 1 + digits, "{most} bins under V {v}");
                assert_eq!(fewest_octets(&vec![7; *most + 1], v), 2 + digits, "{most} bins and one under V {v}");
            }
        }
        assert_eq!(fewest_octets(&[7, 7, 0, 0, 0, 9], 9), 5);
    }

    /// Every row of up to five octets that are 0, 7, V or a digit, under each of the four greatest V: the fewest that give a row of
    /// levels are as many as is worked out, and never fewer than the writer's.
    #[test]
    fn no_fewer_among_all_rows_of_octets() {
        for v in 250..=253u8 {
            let values: Vec<u8> = [0, 7].into_iter().chain(v..=255).collect();
            let mut rows = vec![vec![]];
            let mut found: HashMap<Vec<u8>, usize> = HashMap::new();
            for len in 0..=5 {
                for octets in rows.iter().filter(|octets| !opens_above(octets, v)) {
                    let bins = levels_of(&runs(octets, v).expect("opens with a level")) as usize;
                    found.entry(decode(octets, v, bins).expect("what they give")).or_insert(len);
                }
                rows = rows.iter().flat_map(|row| values.iter().map(|value| [&row[..], &[*value]].concat())).collect();
            }
            assert!(found.len() > 400, "{}", found.len());
            for (levels, fewest) in found {
                assert_eq!(fewest_octets(&levels, v), fewest, "V {v}, {levels:?}");
                if levels.iter().all(|level| *level <= GREATEST_LEVEL) {
                    assert!(encode(&levels).1.len() <= fewest, "V {v}, {levels:?}");
                }
            }
        }
    }
}
