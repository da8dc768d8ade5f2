//! The values of a cut, bin by bin, and how they are written.
use polar::{dual, Bin, Cut, Hundredths};
use std::fmt;

/// The value of each bin, ray by ray; none where it is missing.
pub struct Values {
    pub bins: usize,
    cells: Vec<Option<f64>>,
}

/// A value and where it stands.
#[derive(Debug, Clone, Copy, PartialEq)]
pub struct Found {
    pub value: f64,
    pub ray: usize,
    pub bin: usize,
}

/// The most decimals to which all values of a cut are brought.
const MOST_DECIMALS: usize = 6;

impl Values {
    /// The values of rays of `bins` bins, one after the other.
    pub fn of_cells(bins: usize, cells: Vec<Option<f64>>) -> Values {
        Values { bins, cells }
    }

    pub fn of_base(cut: &Cut) -> Values {
        let value = |bin: &Bin<Hundredths>| bin.measured().map(Hundredths::to_f64);
        let cells = cut.rays().flat_map(|ray| ray.bins().iter().map(value).collect::<Vec<_>>());
        Values::of_cells(cut.grid().bins, cells.collect())
    }

    pub fn of_dual(cut: &dual::Cut) -> Values {
        let cells = cut.rays().flat_map(|ray| ray.bins().iter().map(|bin| bin.measured()).collect::<Vec<_>>());
        Values::of_cells(cut.grid().bins, cells.collect())
    }

    /// Ray by ray.
    pub fn rays(&self) -> impl Iterator<Item = &[Option<f64>]> {
        self.cells.chunks(self.bins)
    }

    /// The first of the values that none is `better` than; none where none is measured.
    fn first_best(&self, better: impl Fn(f64, f64) -> bool) -> Option<Found> {
        let measured = self.cells.iter().enumerate().filter_map(|(at, cell)| cell.map(|value| (at, value)));
        let best = measured.reduce(|best, next| if better(next.1, best.1) { next } else { best });
        best.map(|(at, value)| Found { value, ray: at / self.bins, bin: at % self.bins })
    }

    pub fn least(&self) -> Option<Found> {
        self.first_best(|a, b| a < b)
    }

    pub fn greatest(&self) -> Option<Found> {
        self.first_best(|a, b| a > b)
    }

    /// How many decimals show every value whole; none where that takes too many.
    pub fn decimals(&self) -> Option<usize> {
        let needed = |value: f64| {
            let shown = Number(value).to_string();
            match shown.split_once('.') {
                _ if shown.contains('e') => MOST_DECIMALS + 1,
                Some((_, decimals)) => decimals.len(),
                None => 0,
            }
        };
        let most = self.cells.iter().flatten().map(|value| needed(*value)).max().unwrap_or(0);
        (most <= MOST_DECIMALS).then_some(most)
    }
}

/// A value in the fewest digits that say which float it is, with an exponent where it is very great or small.
pub struct Number(pub f64);

impl fmt::Display for Number {
    fn fmt(&self, f: &mut fmt::Formatter<'_>) -> fmt::Result {
        match self.0.abs() {
            0.0 => write!(f, "0"),
            1e-5..1e16 => write!(f, "{}", self.0),
            _ => write!(f, "{:e}", self.0),
        }
    }
}

/// A value with this many decimals, or as [`Number`]; `-` where it is missing.
pub fn cell(value: Option<f64>, decimals: Option<usize>) -> String {
    match (value, decimals) {
        (None, _) => "-".into(),
        (Some(value), Some(decimals)) => format!("{value:.decimals$}"),
        (Some(value), None) => Number(value).to_string(),
    }
}

#[cfg(test)]
mod tests {
    use super::*;

    fn values(cells: &[Option<f64>]) -> Values {
        Values::of_cells(2, cells.to_vec())
    }

    #[test]
    fn numbers() {
        for (value, shown) in [(0.0, "0"), (-32.0, "-32"), (41.12, "41.12"), (0.00001, "0.00001"), (9.5e-6, "9.5e-6"), (-1e38, "-1e38")] {
            assert_eq!(Number(value).to_string(), shown);
        }
    }

    /// What is missing is never a number, and a measured 0 is one.
    #[test]
    fn cells() {
        assert_eq!((cell(None, Some(2)), cell(None, None), cell(Some(0.0), Some(2))), ("-".into(), "-".into(), "0.00".into()));
        assert_eq!(
            (cell(Some(21.8), Some(2)), cell(Some(-0.25), Some(2)), cell(Some(1e30), None)),
            ("21.80".into(), "-0.25".into(), "1e30".into())
        );
        assert_eq!(values(&[Some(21.8), None, Some(-3.125), Some(4.0)]).decimals(), Some(3));
        assert_eq!(values(&[Some(0.1 + 0.2), None]).decimals(), None);
        assert_eq!((values(&[Some(1e-40), None]).decimals(), values(&[None, None]).decimals()), (None, Some(0)));
    }

    #[test]
    fn ends() {
        let all = values(&[None, Some(2.0), Some(-1.0), Some(2.0), Some(-1.0), None]);
        assert_eq!(all.rays().count(), 3);
        assert_eq!(all.least(), Some(Found { value: -1.0, ray: 1, bin: 0 }));
        assert_eq!(all.greatest(), Some(Found { value: 2.0, ray: 0, bin: 1 }));
        let none = values(&[None, None]);
        assert_eq!((none.least(), none.greatest()), (None, None));
    }
}
