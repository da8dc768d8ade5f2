//! Exact arithmetic: whole numbers of any size, and numbers that are a whole number times a power of two, as every finite
//! float is.
use std::cmp::Ordering;

/// A whole number from 0 on: digits in base 2^32, least first, the last of them not 0.
#[derive(Debug, Clone, PartialEq, Eq)]
pub struct Natural(Vec<u32>);

impl Natural {
    fn of_digits(mut digits: Vec<u32>) -> Natural {
        while digits.last() == Some(&0) {
            digits.pop();
        }
        Natural(digits)
    }

    pub fn is_zero(&self) -> bool {
        self.0.is_empty()
    }

    fn digit(&self, k: usize) -> u32 {
        self.0.get(k).copied().unwrap_or(0)
    }

    pub fn times(&self, factor: u32) -> Natural {
        let mut carry = 0;
        let mut digits = Vec::with_capacity(self.0.len() + 1);
        for digit in &self.0 {
            let product = u64::from(*digit) * u64::from(factor) + carry;
            digits.push(product as u32);
            carry = product >> 32;
        }
        digits.push(carry as u32);
        Natural::of_digits(digits)
    }

    /// Times 2^bits.
    pub fn shifted(&self, bits: u32) -> Natural {
        let mut digits = vec![0; bits as usize / 32];
        digits.extend(self.times(1 << (bits % 32)).0);
        Natural::of_digits(digits)
    }

    pub fn plus(&self, other: &Natural) -> Natural {
        let mut carry = 0;
        let mut digits = Vec::with_capacity(self.0.len().max(other.0.len()) + 1);
        for k in 0..=self.0.len().max(other.0.len()) {
            let sum = u64::from(self.digit(k)) + u64::from(other.digit(k)) + carry;
            digits.push(sum as u32);
            carry = sum >> 32;
        }
        Natural::of_digits(digits)
    }

    /// Less `other`, which is not the greater.
    pub fn minus(&self, other: &Natural) -> Natural {
        let mut borrowed = false;
        let mut digits = Vec::with_capacity(self.0.len());
        for k in 0..self.0.len().max(other.0.len()) {
            let (first, under) = self.digit(k).overflowing_sub(other.digit(k));
            let (digit, under_again) = first.overflowing_sub(borrowed.into());
            digits.push(digit);
            borrowed = under || under_again;
        }
        assert!(!borrowed, "the greater is taken from the less");
        Natural::of_digits(digits)
    }
}

impl From<u64> for Natural {
    fn from(number: u64) -> Natural {
        Natural::of_digits(vec![number as u32, (number >> 32) as u32])
    }
}

impl Ord for Natural {
    fn cmp(&self, other: &Natural) -> Ordering {
        self.0.len().cmp(&other.0.len()).then_with(|| self.0.iter().rev().cmp(other.0.iter().rev()))
    }
}

impl PartialOrd for Natural {
    fn partial_cmp(&self, other: &Natural) -> Option<Ordering> {
        Some(self.cmp(other))
    }
}

/// Sign, size and power of two: the number (-1)^negative x size x 2^power.
#[derive(Debug, Clone)]
pub struct Dyadic {
    negative: bool,
    size: Natural,
    power: i32,
}

/// What a float's bits say: its sign, its exponent with the bias, and its fraction.
struct Parts {
    negative: bool,
    exponent: u32,
    fraction: u64,
}

impl Dyadic {
    /// An exponent of all ones is no number; one of 0 has no leading one. `ones` is that exponent, `bits` the fraction's bits.
    fn of_parts(parts: Parts, ones: u32, bits: u32) -> Option<Dyadic> {
        let Parts { negative, exponent, fraction } = parts;
        if exponent == ones {
            return None;
        }
        let size = if exponent == 0 { fraction } else { 1 << bits | fraction };
        // the bias is half of the exponent's ones; 0 counts as 1 does
        let power = exponent.max(1) as i32 - (ones / 2) as i32 - bits as i32;
        Some(Dyadic { negative, size: size.into(), power })
    }

    /// The number that four octets write as an IEEE single; none where it is infinite or no number.
    pub fn of_single(bits: u32) -> Option<Dyadic> {
        let parts = Parts { negative: bits >> 31 == 1, exponent: bits >> 23 & 0xFF, fraction: u64::from(bits & 0x7F_FFFF) };
        Dyadic::of_parts(parts, 0xFF, 23)
    }

    /// The number that a 64-bit float is; none where it is infinite or no number.
    pub fn of_double(bits: u64) -> Option<Dyadic> {
        let parts = Parts { negative: bits >> 63 == 1, exponent: (bits >> 52) as u32 & 0x7FF, fraction: bits & 0xF_FFFF_FFFF_FFFF };
        Dyadic::of_parts(parts, 0x7FF, 52)
    }

    pub fn whole(number: u64) -> Dyadic {
        Dyadic { negative: false, size: number.into(), power: 0 }
    }

    pub fn is_zero(&self) -> bool {
        self.size.is_zero()
    }

    pub fn times(&self, factor: u32) -> Dyadic {
        Dyadic { size: self.size.times(factor), ..self.clone() }
    }

    /// Times 2^bits.
    pub fn shifted(&self, bits: i32) -> Dyadic {
        Dyadic { power: self.power + bits, ..self.clone() }
    }

    pub fn negated(&self) -> Dyadic {
        Dyadic { negative: !self.negative, ..self.clone() }
    }

    /// Both sizes in units of one power of two, and that power.
    fn aligned(&self, other: &Dyadic) -> (Natural, Natural, i32) {
        let power = self.power.min(other.power);
        let sized = |number: &Dyadic| number.size.shifted((number.power - power) as u32);
        (sized(self), sized(other), power)
    }

    pub fn plus(&self, other: &Dyadic) -> Dyadic {
        let (mine, theirs, power) = self.aligned(other);
        let (negative, size) = match (self.negative == other.negative, mine >= theirs) {
            (true, _) => (self.negative, mine.plus(&theirs)),
            (false, true) => (self.negative, mine.minus(&theirs)),
            (false, false) => (other.negative, theirs.minus(&mine)),
        };
        Dyadic { negative, size, power }
    }

    pub fn minus(&self, other: &Dyadic) -> Dyadic {
        self.plus(&other.negated())
    }

    /// |self| against |other|
    pub fn compare_sizes(&self, other: &Dyadic) -> Ordering {
        let (mine, theirs, _) = self.aligned(other);
        mine.cmp(&theirs)
    }
}

#[cfg(test)]
mod tests {
    use super::*;
    use crate::numbers::Numbers;

    fn natural(number: u128) -> Natural {
        Natural::from((number >> 64) as u64).shifted(64).plus(&Natural::from(number as u64))
    }

    /// A number of up to `bits` bits, whose digits are often 0 or all ones.
    fn number(n: &mut Numbers, bits: u32) -> u128 {
        let digit = |n: &mut Numbers| {
            let any = u128::from(n.word() as u32);
            n.one_of(&[0, 1, u128::from(u32::MAX), any])
        };
        let whole = (0..4).fold(0, |number, _| number << 32 | digit(n));
        whole >> (128 - bits)
    }

    #[test]
    fn whole_numbers_as_machine_numbers() {
        let mut n = Numbers::new(11);
        for _ in 0..20_000 {
            let (a, b, factor) = (number(&mut n, 95), number(&mut n, 95), n.word() as u32);
            let (great, small) = (a.max(b), a.min(b));
            assert_eq!(natural(a).plus(&natural(b)), natural(a + b));
            assert_eq!(natural(great).minus(&natural(small)), natural(great - small));
            assert_eq!(natural(a).times(factor), natural(a * u128::from(factor)));
            assert_eq!(natural(a).cmp(&natural(b)), a.cmp(&b));
            assert_eq!(natural(a).is_zero(), a == 0);
            let bits = n.below(33) as u32;
            assert_eq!(natural(a).shifted(bits), natural(a << bits));
        }
    }

    /// Past every machine number: 2^k - 1 and 1 are 2^k, and (2^k - 1)(m + 1) is 2^k m + 2^k - m - 1.
    #[test]
    fn whole_numbers_past_machine_numbers() {
        let one = Natural::from(1);
        for k in [1, 31, 32, 33, 64, 200, 1087] {
            let power = one.shifted(k);
            let ones = power.minus(&one);
            assert!(ones < power && ones.plus(&one) == power);
            for m in [1, 2, 9999, u32::MAX - 1] {
                let expected = power.times(m).plus(&power).minus(&Natural::from(u64::from(m) + 1));
                assert_eq!(ones.times(m + 1), expected, "{k} {m}");
            }
        }
    }

    /// Sums and differences of singles that a 64-bit float holds exactly.
    #[test]
    fn floats_as_machine_floats() {
        let mut n = Numbers::new(12);
        let double = |value: f64| Dyadic::of_double(value.to_bits()).expect("a finite number");
        let same = |a: &Dyadic, b: &Dyadic| a.minus(b).is_zero();
        for _ in 0..20_000 {
            let bits = n.word() as u32;
            let single = f32::from_bits(bits);
            let Some(exact) = Dyadic::of_single(bits) else {
                assert!(!single.is_finite());
                continue;
            };
            assert!(single.is_finite() && same(&exact, &double(single.into())), "{single:e}");
            let (a, b) = (n.word() as i32, n.word() as i32);
            let (x, y) = (f64::from(a) / 1024.0, f64::from(b) / 64.0);
            assert!(same(&double(x).plus(&double(y)), &double(x + y)));
            assert!(same(&double(x).minus(&double(y)), &double(x - y)));
            assert_eq!(double(x).compare_sizes(&double(y)), x.abs().total_cmp(&y.abs()));
            assert!(same(&double(x).times(625), &double(x * 625.0)) && same(&double(x).shifted(-9), &double(x / 512.0)));
        }
        assert!(!same(&double(1.0), &double(1.0 + f64::EPSILON)) && same(&double(-0.0), &Dyadic::whole(0)));
    }

    #[test]
    fn the_ends_of_the_floats() {
        // the least single is 2^-149, the greatest 2^128 - 2^104
        let least = Dyadic::of_single(1).unwrap();
        assert!(least.shifted(149).minus(&Dyadic::whole(1)).is_zero());
        let greatest = Dyadic::of_single(0x7F7F_FFFF).unwrap();
        assert!(greatest.shifted(-104).minus(&Dyadic::whole((1 << 24) - 1)).is_zero());
        let least_normal = Dyadic::of_single(0x80_0000).unwrap();
        assert!(least_normal.plus(&Dyadic::of_single(0x8080_0000).unwrap()).is_zero());
        assert!(least_normal.shifted(126).minus(&Dyadic::whole(1)).is_zero());
        assert!(Dyadic::of_double(1).unwrap().shifted(1074).minus(&Dyadic::whole(1)).is_zero());
        for bits in [0x7F80_0000, 0xFF80_0000, 0x7F80_0001, 0xFFFF_FFFF, 0x7FC0_0000] {
            assert!(Dyadic::of_single(bits).is_none(), "{bits:x}");
        }
        assert!(Dyadic::of_double(f64::INFINITY.to_bits()).is_none() && Dyadic::of_double(f64::NAN.to_bits()).is_none());
    }
}
