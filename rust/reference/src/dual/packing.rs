//! Simple packing (template 5.0): Y x 10^D = R + Z x 2^E, and a cell of all ones is no value.
use crate::exact::Dyadic;
use crate::octets::unsigned;
use std::cmp::Ordering;

/// What a section 5 says.
#[derive(Debug, Clone, Copy, PartialEq, Eq)]
pub struct Packing {
    /// R's four octets, an IEEE single
    pub r: u32,
    pub e: u16,
    pub d: u16,
    /// bits to a cell
    pub width: u8,
}

impl Packing {
    /// The octets that `cells` cells take.
    pub fn octets_of(&self, cells: usize) -> usize {
        cells * usize::from(self.width) / 8
    }

    /// Z of a cell; none where it is all ones.
    pub fn cell(&self, data: &[u8], index: usize) -> Option<u64> {
        let octets = &data[self.octets_of(index)..self.octets_of(index + 1)];
        octets.iter().any(|octet| *octet != 0xFF).then(|| unsigned(octets))
    }

    /// The cell that is no Z.
    pub fn all_ones(&self) -> u16 {
        u16::MAX >> (16 - self.width)
    }

    fn ten_to_the_d(&self) -> u32 {
        10u32.pow(self.d.into())
    }

    /// Y x 10^D, exactly.
    pub fn scaled(&self, z: u64) -> Dyadic {
        let r = Dyadic::of_single(self.r).expect("a finite R");
        r.plus(&Dyadic::whole(z).shifted(self.e.into()))
    }

    /// Y as a float: R and Z x 2^E are taken over exactly, added once and divided once.
    pub fn value(&self, z: u64) -> f64 {
        let r = f64::from(f32::from_bits(self.r));
        (r + (z << self.e) as f64) / f64::from(self.ten_to_the_d())
    }

    /// Whether a float lies within |Y|/2^51 of the exact Y; where Y is 0 nothing but 0 does.
    pub fn is_near(&self, z: u64, float: f64) -> bool {
        let exact = self.scaled(z);
        let Some(found) = Dyadic::of_double(float.to_bits()) else { return false };
        // both sides times 10^D, which leaves no fraction but powers of two
        let error = found.times(self.ten_to_the_d()).minus(&exact);
        error.shifted(51).compare_sizes(&exact) != Ordering::Greater
    }
}

#[cfg(test)]
mod tests {
    use super::*;

    fn packing(r: f32, e: u16, d: u16) -> Packing {
        Packing { r: r.to_bits(), e, d, width: 16 }
    }

    /// The float this many floats further on.
    fn moved(float: f64, by: i64) -> f64 {
        f64::from_bits((float.to_bits() as i64 + by) as u64)
    }

    #[test]
    fn values_by_hand() {
        for (r, e, d, z, value) in [
            (-3200.0, 0, 2, 0, -32.0),
            (-3200.0, 0, 2, 3245, 0.45),
            (-3200.0, 0, 2, 3200, 0.0),
            (0.0, 2, 4, 65534, 26.2136),
            (-0.0, 0, 0, 0, 0.0),
            (0.5, 1, 0, 3, 6.5),
            (-1e30, 2, 0, 1, -1.0000000150474662e30),
        ] {
            let packing = packing(r, e, d);
            assert_eq!(packing.value(z).to_bits(), f64::to_bits(value), "{r} {e} {d} {z}");
            assert!(packing.is_near(z, value));
        }
    }

    /// The bound lets the nearest floats through and holds off those that are eight floats away.
    #[test]
    fn the_bound() {
        for (r, e, d, z) in [(-3200.0, 0, 2, 3245), (0.1, 2, 4, 7), (1e-42, 0, 3, 0), (3.4e38, 0, 4, 9), (-2.5e-7, 1, 1, 65534)] {
            let packing = packing(r, e, d);
            let value = packing.value(z);
            assert!(packing.is_near(z, value) && packing.is_near(z, moved(value, 1)) && packing.is_near(z, moved(value, -1)));
            assert!(!packing.is_near(z, moved(value, 8)) && !packing.is_near(z, moved(value, -8)));
            assert!(!packing.is_near(z, -value) && !packing.is_near(z, 0.0) && !packing.is_near(z, f64::NAN));
        }
        let zero = packing(-4.0, 1, 3);
        assert!(zero.is_near(2, 0.0) && zero.is_near(2, -0.0) && !zero.is_near(2, f64::from_bits(1)));
    }

    /// At the very edge: Y is 2^51, so 1 away is near and 2 away is not.
    #[test]
    fn the_edge_of_the_bound() {
        let packing = packing((1u64 << 51) as f32, 0, 0);
        let y = (1u64 << 51) as f64;
        for (away, near) in [(0.0, true), (0.5, true), (1.0, true), (1.5, false), (2.0, false)] {
            assert_eq!((packing.is_near(0, y + away), packing.is_near(0, y - away)), (near, near), "{away}");
        }
    }

    #[test]
    fn cells() {
        let data = [0xFF, 0xFE, 0xFF, 0xFF, 0x00, 0x01];
        let wide = packing(0.0, 0, 0);
        assert_eq!([0, 1, 2].map(|k| wide.cell(&data, k)), [Some(65534), None, Some(1)]);
        let narrow = Packing { width: 8, ..wide };
        assert_eq!([0, 1, 4, 5].map(|k| narrow.cell(&data, k)), [None, Some(254), Some(0), Some(1)]);
        assert_eq!((wide.all_ones(), narrow.all_ones()), (65535, 255));
    }
}
