//! Numbers as they are shown: exact where the file's are whole numbers of a small unit.
use std::fmt;

/// Millionths, with six decimals.
#[derive(Debug, Clone, Copy, PartialEq, Eq)]
pub struct Millionths(pub i64);

impl fmt::Display for Millionths {
    fn fmt(&self, f: &mut fmt::Formatter<'_>) -> fmt::Result {
        let sign = if self.0 < 0 { "-" } else { "" };
        let size = self.0.unsigned_abs();
        write!(f, "{sign}{}.{:06}", size / 1_000_000, size % 1_000_000)
    }
}

/// A distance in millimetres.
#[derive(Debug, Clone, Copy, PartialEq, Eq, PartialOrd, Ord)]
pub struct Distance(pub u64);

impl Distance {
    /// In metres, with three decimals.
    pub fn metres(self) -> String {
        format!("{}.{:03}", self.0 / 1000, self.0 % 1000)
    }

    /// In metres, with no more decimals than it has.
    pub fn short_metres(self) -> String {
        trimmed(&self.metres())
    }

    /// In kilometres, with no more decimals than it has.
    pub fn kilometres(self) -> String {
        trimmed(&format!("{}.{:06}", self.0 / 1_000_000, self.0 % 1_000_000))
    }
}

/// A decimal number without the zeros at its end.
pub fn trimmed(number: &str) -> String {
    number.trim_end_matches('0').trim_end_matches('.').into()
}

/// How many of a hundred, with two decimals. What is not nothing is never 0.00, and what is not all is never 100.00.
pub fn percent(part: usize, whole: usize) -> String {
    let rounded = (20_000 * part + whole) / (2 * whole);
    let hundredths = match part {
        0 => 0,
        part if part == whole => 10_000,
        _ => rounded.clamp(1, 9_999),
    };
    format!("{}.{:02}", hundredths / 100, hundredths % 100)
}

#[cfg(test)]
mod tests {
    use super::*;

    #[test]
    fn millionths() {
        assert_eq!(
            [35_859_722, -5, 0, -90_000_000].map(|n| Millionths(n).to_string()),
            ["35.859722", "-0.000005", "0.000000", "-90.000000"]
        );
    }

    #[test]
    fn distances() {
        assert_eq!((Distance(500_000).metres(), Distance(1).metres()), ("500.000".into(), "0.001".into()));
        assert_eq!(
            (Distance(500_000).short_metres(), Distance(1500).short_metres(), Distance(0).short_metres()),
            ("500".into(), "1.5".into(), "0".into())
        );
        assert_eq!(
            (Distance(60_000_000).kilometres(), Distance(18_500_000).kilometres(), Distance(1).kilometres()),
            ("60".into(), "18.5".into(), "0.000001".into())
        );
    }

    /// One bin of many does not vanish, and one that is not there does not either.
    #[test]
    fn no_share_is_rounded_away() {
        for (part, whole, shown) in [
            (0, 7, "0.00"),
            (7, 7, "100.00"),
            (1, 256_000, "0.01"),
            (255_999, 256_000, "99.99"),
            (1, 3, "33.33"),
            (2, 3, "66.67"),
            (1, 800, "0.13"),
        ] {
            assert_eq!(percent(part, whole), shown);
        }
    }
}
