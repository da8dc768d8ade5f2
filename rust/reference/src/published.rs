//! "The published values, in hundredths", and the kinds of a stretch.

#[derive(Debug, Clone, Copy, PartialEq, Eq)]
pub enum Product {
    Reflectivity,
    Velocity,
}

impl Product {
    pub const BOTH: [Product; 2] = [Product::Reflectivity, Product::Velocity];

    pub fn of_parameter(parameter: u8) -> Option<Product> {
        Product::BOTH.into_iter().find(|p| p.parameter() == parameter)
    }

    /// Octet 11 of section 4.
    pub fn parameter(self) -> u8 {
        match self {
            Product::Reflectivity => 1,
            Product::Velocity => 2,
        }
    }

    /// M: the number of levels that have a value.
    pub fn levels(self) -> u16 {
        match self {
            Product::Reflectivity => 252,
            Product::Velocity => 251,
        }
    }

    /// The value of a level, in hundredths; level 0 has none.
    pub fn value(self, level: u8) -> Option<i32> {
        let n = i32::from(level);
        match (self, level) {
            (_, 0) => None,
            (_, 1) => Some(0),
            (Product::Reflectivity, _) => Some(16 + 32 * (n - 2)),
            (Product::Velocity, _) if n % 2 == 1 => self.value(level - 1).map(|v| -v),
            (Product::Velocity, ..=218) => Some(25 * n),
            (Product::Velocity, 220) => Some(5513),
            (Product::Velocity, _) => Some(5600 + 50 * (n - 222)),
        }
    }

    /// What section 5 must hold from octet 18 on: the values of levels 1 to M.
    pub fn table(self) -> Vec<u8> {
        (1..=self.levels()).flat_map(|n| crate::octets::signed16(self.value(n as u8).expect("a level above 0"))).collect()
    }

    /// Kind 0 missing, 1 value below T, 2 value at or above T.
    pub fn kind(self, level: u8, threshold: i32) -> u32 {
        match self.value(level) {
            None => 0,
            Some(value) if value < threshold => 1,
            Some(_) => 2,
        }
    }
}

#[cfg(test)]
mod tests {
    use super::Product::*;

    #[test]
    fn checked_examples() {
        for (level, value) in [(1, 0), (2, 16), (3, 48), (4, 80), (250, 7952), (252, 8016)] {
            assert_eq!(Reflectivity.value(level), Some(value));
        }
        for (level, value) in [
            (1, 0),
            (2, 50),
            (3, -50),
            (218, 5450),
            (219, -5450),
            (220, 5513),
            (221, -5513),
            (222, 5600),
            (224, 5700),
            (250, 7000),
            (251, -7000),
        ] {
            assert_eq!(Velocity.value(level), Some(value));
        }
        assert_eq!((Reflectivity.value(0), Velocity.value(0)), (None, None));
        assert_eq!((Reflectivity.table().len(), Velocity.table().len()), (504, 502));
        assert_eq!(Velocity.table()[500..], [0x9B, 0x58]);
    }
}
