//! Template 7.200: scan, read and write.
use crate::{Answer, Refusal};

const MOST_LEVELS: usize = 2_097_152;
/// A digit's weight grows no further: no count of bins reaches it, nor does a record's with a ray's bins after it. As many digits
/// as a file has octets still add up in 64 bits.
const MOST_WEIGHT: usize = 1 << 33;

/// The runs of octets, as (level, length): the octets are known to open with a level, and lengths past [`MOST_WEIGHT`] are not
/// exact.
pub struct Runs<'a> {
    octets: &'a [u8],
    v: u8,
}

impl<'a> Runs<'a> {
    pub fn new(octets: &'a [u8], v: u8) -> Self {
        Runs { octets, v }
    }

    /// How many octets are still to be read.
    pub fn left(&self) -> usize {
        self.octets.len()
    }
}

impl Iterator for Runs<'_> {
    type Item = (u8, usize);

    #[inline]
    fn next(&mut self) -> Option<(u8, usize)> {
        let (level, mut rest) = self.octets.split_first()?;
        let base = usize::from(255 - self.v);
        let (mut length, mut weight) = (1, 1);
        while let Some((digit, after)) = rest.split_first() {
            if *digit <= self.v {
                break;
            }
            length += usize::from(digit - self.v - 1) * weight;
            weight = (weight * base).min(MOST_WEIGHT);
            rest = after;
        }
        self.octets = rest;
        Some((*level, length))
    }
}

/// The octet at fault where octets do not give exactly n bins: the first where it is above V, the one at which the bins are passed, or
/// one past the last. Lengths alone count, so one pass sums what each octet adds.
pub fn at_fault(octets: &[u8], v: u8, n: usize) -> Option<usize> {
    if octets.first().is_some_and(|first| *first > v) {
        return Some(0);
    }
    let base = usize::from(255 - v);
    let (mut bins, mut weight) = (0, 1);
    for (at, octet) in octets.iter().enumerate() {
        if *octet <= v {
            bins += 1;
            weight = 1;
        } else {
            bins += usize::from(octet - v - 1) * weight;
            weight = (weight * base).min(MOST_LEVELS);
        }
        if bins > n {
            return Some(at);
        }
    }
    (bins < n).then_some(octets.len())
}

pub fn check(octets: &[u8], v: u8, n: usize) -> Answer<()> {
    if v > 253 {
        return Err(Refusal(12, 0));
    }
    if n > MOST_LEVELS {
        return Err(Refusal(10, 0));
    }
    match at_fault(octets, v, n) {
        Some(octet) => Err(Refusal(8, octet as u64)),
        None => Ok(()),
    }
}

pub fn read(octets: &[u8], v: u8, n: usize, levels: &mut [u8]) -> Answer<()> {
    if v <= 253 && n <= MOST_LEVELS && levels.len() < n {
        return Err(Refusal(11, 0));
    }
    check(octets, v, n)?;
    let mut rest = levels;
    for (level, length) in Runs::new(octets, v) {
        let (run, after) = rest.split_at_mut(length);
        run.fill(level);
        rest = after;
    }
    Ok(())
}

/// V and the number of octets.
pub fn write(levels: &[u8], octets: &mut [u8]) -> Answer<(u8, usize)> {
    let v = levels.iter().copied().max().unwrap_or(0);
    if levels.len() > MOST_LEVELS || v > 252 {
        return Err(Refusal(10, 0));
    }
    let base = usize::from(255 - v);
    let mut needed = 0;
    for run in levels.chunk_by(|a, b| a == b) {
        needed += 1;
        let mut rest = run.len() - 1;
        while rest > 0 {
            needed += 1;
            rest /= base;
        }
    }
    if octets.len() < needed {
        return Err(Refusal(11, 0));
    }
    let mut at = 0;
    for run in levels.chunk_by(|a, b| a == b) {
        octets[at] = run[0];
        at += 1;
        let mut rest = run.len() - 1;
        while rest > 0 {
            octets[at] = v + 1 + (rest % base) as u8;
            at += 1;
            rest /= base;
        }
    }
    Ok((v, at))
}
