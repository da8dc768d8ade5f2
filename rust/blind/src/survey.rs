//! A file and its cuts as they are listed and drawn, of either format.
use crate::dual_angles::{angles, Angles};
use crate::kinds::Kind;
use crate::numbers::{percent, Distance};
use crate::turn::{shown, Turn};
use crate::values::Values;
use polar::{dual, Format, Grid, Hundredths, Product, Refusal, Threshold, Time};

/// The spacing of the base format's bins, in millimetres.
const BASE_SPACING: u32 = 500_000;

/// What a file says of itself.
pub struct Heading {
    pub format: Format,
    /// the product's name; `parameter N` where it has none
    pub product: String,
    /// the name, and what else is known of it
    pub product_in_full: String,
    /// octet 11 of section 4
    pub parameter: u8,
    pub unit: Option<&'static str>,
    pub time: Time,
    pub site: u16,
    pub cuts: usize,
    /// the format's kinds, the one without a number first
    pub kinds: &'static [Kind],
    /// what a bin without a number is called, and what it means
    pub absence: &'static str,
    pub absence_means: &'static str,
}

/// A longest stretch of bins of one kind on one ray.
#[derive(Debug, Clone, Copy, PartialEq, Eq)]
pub struct Stretch {
    pub ray: usize,
    pub first: usize,
    pub length: usize,
    pub kind: Kind,
}

/// One cut: its stretches, and how many bins are of each kind.
pub struct Survey {
    pub index: usize,
    pub grid: Grid,
    /// of a degree
    pub elevation: Option<Hundredths>,
    /// in the file's unit
    pub threshold: Option<Threshold>,
    /// where the first ray begins
    pub start_azimuth: Option<Hundredths>,
    pub turn: Option<Turn>,
    pub kinds: &'static [Kind],
    pub stretches: Vec<Stretch>,
    pub values: Option<Values>,
    /// what a reader of the numbers should know
    pub notes: Vec<String>,
}

impl Survey {
    /// Where a bin begins. The bin past the last begins where the last one ends.
    pub fn distance(&self, bin: usize) -> Distance {
        Distance(self.grid.distance_mm(bin))
    }

    pub fn reach(&self) -> Distance {
        self.distance(self.grid.bins)
    }

    /// How many bins are of this kind.
    pub fn bins(&self, kind: Kind) -> usize {
        self.stretches.iter().filter(|stretch| stretch.kind == kind).map(|stretch| stretch.length).sum()
    }

    /// Each kind with how many bins are of it, and how many of a hundred.
    pub fn totals(&self) -> Vec<(Kind, usize, String)> {
        let total = |kind: &Kind| (*kind, self.bins(*kind), percent(self.bins(*kind), self.grid.points()));
        self.kinds.iter().map(total).collect()
    }

    /// The azimuth of a ray's middle, from 0.00 to 359.99.
    pub fn azimuth(&self, ray: usize) -> Option<Hundredths> {
        self.turn.as_ref().map(|turn| shown(turn.ray(ray).middle))
    }
}

/// An accepted file of either format.
pub enum Opened<'a> {
    Base(polar::File<'a>),
    Dual(dual::File<'a>, Vec<Angles>),
}

/// A dual-polarisation parameter by name, abbreviation and number.
fn parameter_in_full(parameter: dual::Parameter) -> String {
    let number = parameter.number();
    match (parameter.name(), parameter.abbreviation()) {
        (Some(name), Some(abbreviation)) => format!("{name} ({abbreviation}, parameter {number})"),
        _ => format!("unknown parameter {number}"),
    }
}

fn base_heading(file: &polar::File) -> Heading {
    let product = file.product();
    // level 0 of velocity is also where nothing was detected, so it is not called blind
    let (parameter, absence, absence_means) = match product {
        Product::Reflectivity => (1, "blind", "missing or out of range"),
        Product::Velocity => (2, "missing", "out of range, no data, or nothing detected"),
    };
    Heading {
        format: Format::Base,
        product: product.to_string(),
        product_in_full: product.to_string(),
        parameter,
        unit: Some(product.unit()),
        time: file.time(),
        site: file.site(),
        cuts: file.cut_count(),
        kinds: &Kind::BASE,
        absence,
        absence_means,
    }
}

fn dual_heading(file: &dual::File) -> Heading {
    let parameter = file.parameter();
    Heading {
        format: Format::Dual,
        product: parameter.name().map_or(format!("parameter {}", parameter.number()), String::from),
        product_in_full: parameter_in_full(parameter),
        parameter: parameter.number(),
        unit: parameter.unit(),
        time: file.time(),
        site: file.site(),
        cuts: file.cut_count(),
        kinds: &Kind::DUAL,
        absence: "no value",
        absence_means: "invalid or nothing detected",
    }
}

/// What to say of a cut of the base format beside its numbers.
fn base_notes(cut: &polar::Cut, threshold: Option<Threshold>) -> Vec<String> {
    let mut notes = Vec::new();
    let spacing = cut.grid().spacing_mm;
    if spacing != BASE_SPACING {
        let (found, due) = (Distance(spacing.into()), Distance(BASE_SPACING.into()));
        notes.push(format!(
            "the file says bins of {} m (Dx {}), and this format's bins are {} m: distances are as the file says",
            found.short_metres(),
            spacing,
            due.short_metres()
        ));
    }
    if threshold.is_none() && cut.file().product() == Product::Velocity {
        notes.push(format!(
            "no threshold was given: {} m/s is the house number, which is meant in dBZ; --threshold chooses another",
            Threshold::HOUSE
        ));
    }
    notes
}

fn base_survey(cut: polar::Cut, threshold: Option<Threshold>, with_values: bool) -> Survey {
    let at = threshold.unwrap_or(Threshold::HOUSE);
    let stretch = |polar::Stretch { ray, first, length, kind, .. }| Stretch { ray, first, length, kind: kind.into() };
    Survey {
        index: cut.index(),
        grid: cut.grid(),
        elevation: cut.elevation(),
        threshold: Some(at),
        start_azimuth: Some(cut.start_azimuth()),
        turn: Some(Turn::even(cut.start_azimuth(), cut.grid().rays)),
        kinds: &Kind::BASE,
        stretches: cut.stretches(at).map(stretch).collect(),
        values: with_values.then(|| Values::of_base(&cut)),
        notes: base_notes(&cut, threshold),
    }
}

/// The longest stretches of bins with and without a value.
fn dual_stretches(values: &Values) -> Vec<Stretch> {
    let mut stretches = Vec::new();
    for (ray, cells) in values.rays().enumerate() {
        let mut first = 0;
        for run in cells.chunk_by(|a, b| a.is_some() == b.is_some()) {
            let kind = if run[0].is_some() { Kind::Measured } else { Kind::NoValue };
            stretches.push(Stretch { ray, first, length: run.len(), kind });
            first += run.len();
        }
    }
    stretches
}

fn dual_survey(cut: dual::Cut, angles: &Angles) -> Survey {
    let values = Values::of_dual(&cut);
    let unknown = "the file gives no azimuth for some rays, so none is told";
    Survey {
        index: cut.index(),
        grid: cut.grid(),
        elevation: angles.elevation,
        threshold: None,
        start_azimuth: angles.start,
        turn: angles.turn.clone(),
        kinds: &Kind::DUAL,
        stretches: dual_stretches(&values),
        values: Some(values),
        notes: if angles.turn.is_some() { vec![] } else { vec![unknown.into()] },
    }
}

impl<'a> Opened<'a> {
    /// Opens a file as one of the format that it claims, so that its refusal is told by that format's rules.
    pub fn open(octets: &'a [u8]) -> Result<Opened<'a>, Refusal> {
        Ok(match Format::of(octets) {
            Format::Base => Opened::Base(polar::File::open(octets)?),
            Format::Dual => Opened::Dual(dual::File::open(octets)?, angles(octets)),
        })
    }

    pub fn heading(&self) -> Heading {
        match self {
            Opened::Base(file) => base_heading(file),
            Opened::Dual(file, _) => dual_heading(file),
        }
    }

    /// Whether there is a cut of this index; refused as the library does where there is none.
    pub fn has_cut(&self, index: usize) -> Result<(), Refusal> {
        match self {
            Opened::Base(file) => file.cut(index).map(|_| ()),
            Opened::Dual(file, _) => file.cut(index).map(|_| ()),
        }
    }

    /// One cut. A threshold is for files of the base format; a dual-polarisation cut always comes with its values.
    pub fn survey(&self, index: usize, threshold: Option<Threshold>, with_values: bool) -> Result<Survey, Refusal> {
        match self {
            Opened::Base(file) => Ok(base_survey(file.cut(index)?, threshold, with_values)),
            Opened::Dual(file, angles) => Ok(dual_survey(file.cut(index)?, &angles[index])),
        }
    }
}

#[cfg(test)]
mod tests {
    use super::*;

    #[test]
    fn parameters() {
        assert_eq!(parameter_in_full(dual::Parameter::new(197)), "differential reflectivity (zdr, parameter 197)");
        assert_eq!(parameter_in_full(dual::Parameter::new(77)), "unknown parameter 77");
    }

    #[test]
    fn stretches_of_values() {
        let values = Values::of_cells(3, vec![None, Some(0.0), Some(1.0), Some(2.0), None, None]);
        let stretch = |ray, first, length, kind| Stretch { ray, first, length, kind };
        assert_eq!(
            dual_stretches(&values),
            [
                stretch(0, 0, 1, Kind::NoValue),
                stretch(0, 1, 2, Kind::Measured),
                stretch(1, 0, 1, Kind::Measured),
                stretch(1, 1, 2, Kind::NoValue)
            ]
        );
    }
}
