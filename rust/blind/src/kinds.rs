//! What a bin is: the three kinds of the base format, and the two of the dual-polarisation format.
#[derive(Debug, Clone, Copy, PartialEq, Eq, Hash)]
pub enum Kind {
    Missing,
    Under,
    Over,
    /// the cell is all ones: invalid, or nothing was detected
    NoValue,
    Measured,
}

impl Kind {
    pub const ALL: [Kind; 5] = [Kind::Missing, Kind::Under, Kind::Over, Kind::NoValue, Kind::Measured];
    /// The kinds of each format. The first is the one without a number.
    pub const BASE: [Kind; 3] = [Kind::Missing, Kind::Under, Kind::Over];
    pub const DUAL: [Kind; 2] = [Kind::NoValue, Kind::Measured];

    /// Its name in options, in comma-separated values and in JSON.
    pub fn name(self) -> &'static str {
        match self {
            Kind::Missing => "missing",
            Kind::Under => "under",
            Kind::Over => "over",
            Kind::NoValue => "no_value",
            Kind::Measured => "measured",
        }
    }

    /// Its name in text.
    pub fn words(self) -> &'static str {
        match self {
            Kind::NoValue => "no value",
            kind => kind.name(),
        }
    }

    /// The kind of this name.
    pub fn named(name: &str) -> Option<Kind> {
        Kind::ALL.into_iter().find(|kind| kind.name() == name)
    }

    /// Whether its bins have no number.
    pub fn is_absence(self) -> bool {
        matches!(self, Kind::Missing | Kind::NoValue)
    }
}

impl From<polar::Kind> for Kind {
    fn from(kind: polar::Kind) -> Kind {
        match kind {
            polar::Kind::Missing => Kind::Missing,
            polar::Kind::Under => Kind::Under,
            polar::Kind::Over => Kind::Over,
            // none comes here: a test holds that every kind of the library has its name here
            _ => Kind::Missing,
        }
    }
}

#[cfg(test)]
mod tests {
    use super::*;

    #[test]
    fn every_kind_of_the_library_is_known() {
        for kind in polar::Kind::ALL {
            assert_eq!(Kind::from(*kind).name(), kind.to_string());
        }
        assert_eq!(Kind::ALL.map(|kind| Kind::named(kind.name())), Kind::ALL.map(Some));
    }
}
