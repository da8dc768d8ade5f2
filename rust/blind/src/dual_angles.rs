//! The angles of a dual-polarisation file's cuts. The library answers none, so they are read here from the sections of a file
//! that it has accepted; none of these fields is judged there, and one that is out of its range is unknown here.
use crate::turn::{Turn, WHOLE};
use polar::Hundredths;

/// What a cut's sections 3 and 4 say of its angles.
#[derive(Debug, Clone, PartialEq)]
pub struct Angles {
    /// the elevation's setting, of a degree
    pub elevation: Option<Hundredths>,
    /// where the scan began
    pub start: Option<Hundredths>,
    pub turn: Option<Turn>,
}

/// Missing, in two octets.
const MISSING: u16 = u16::MAX;
/// The greatest elevation of the format's range, -10 to 190 degrees, in hundredths.
const MOST_ELEVATION: i32 = 19000;

/// Two octets from octet `first` of a section, counted from 1.
fn be16(section: &[u8], first: usize) -> Option<u16> {
    let octets = section.get(first - 1..first + 1)?;
    Some(u16::from_be_bytes(octets.try_into().ok()?))
}

fn be32(octets: &[u8], at: usize) -> Option<u32> {
    Some(u32::from_be_bytes(octets.get(at..at + 4)?.try_into().ok()?))
}

/// An azimuth, where it is one.
fn azimuth(section: &[u8], first: usize) -> Option<Hundredths> {
    be16(section, first).map(|azimuth| Hundredths(azimuth.into())).filter(|azimuth| *azimuth <= WHOLE)
}

/// Sign and magnitude, in octets 46 and 47 of section 4.
fn elevation(section_4: &[u8]) -> Option<Hundredths> {
    let word = be16(section_4, 46).filter(|word| *word != MISSING)?;
    let size = i32::from(word & 0x7FFF);
    (size <= MOST_ELEVATION).then_some(Hundredths(if word & 0x8000 == 0 { size } else { -size }))
}

/// Each ray's middle, in degrees: those that section 3 lists (flag Fa, octet 53), or steps of one width from where the scan began.
fn middles(section_3: &[u8], rays: usize) -> Option<Vec<f64>> {
    if section_3.get(52) == Some(&1) {
        return (0..rays).map(|ray| azimuth(section_3, 59 + 2 * ray).map(Hundredths::to_f64)).collect();
    }
    let start = azimuth(section_3, 45)?.to_f64();
    let step = be16(section_3, 55).filter(|step| *step != 0 && *step != MISSING)?;
    Some((0..rays).map(|ray| (start + (ray as f64 + 0.5) * f64::from(step) / 10_000.0).rem_euclid(360.0)).collect())
}

fn angles_of(section_3: &[u8], section_4: &[u8]) -> Angles {
    let rays = be32(section_3, 18).map_or(0, |rays| rays as usize);
    let turn = middles(section_3, rays).filter(|middles| !middles.is_empty()).and_then(|middles| Turn::of_middles(&middles));
    Angles { elevation: elevation(section_4), start: azimuth(section_3, 45), turn }
}

/// The angles of each cut of an accepted file.
pub fn angles(file: &[u8]) -> Vec<Angles> {
    let mut cuts = Vec::new();
    let (mut section_3, mut section_4): (&[u8], &[u8]) = (&[], &[]);
    // past section 0
    let mut place = 16;
    while let Some(length) = be32(file, place).map(|length| length as usize).filter(|length| *length >= 5) {
        let Some(section) = file.get(place..).and_then(|rest| rest.get(..length)) else { break };
        match section[4] {
            3 => section_3 = section,
            4 => section_4 = section,
            7 => cuts.push(angles_of(section_3, section_4)),
            _ => (),
        }
        place += length;
    }
    cuts
}

#[cfg(test)]
mod tests {
    use super::*;
    use crate::turn::shown;
    use reference::dual::maker::{CutPlan, Flags, Plan};
    use reference::dual::packing::Packing;
    use reference::maker::{assemble, Section};

    fn plan(rays: usize, flags: Flags) -> Plan {
        let packing = Packing { r: 0, e: 0, d: 0, width: 8 };
        let mut cut = CutPlan::new(1, rays, packing, vec![1; rays]);
        (cut.flags, cut.elevation) = (flags, 0x8005);
        Plan::new(vec![cut.clone(), CutPlan { own_grid: false, elevation: 320, ..cut }])
    }

    fn azimuths(angles: &Angles) -> Vec<String> {
        let turn = angles.turn.as_ref().expect("azimuths");
        (0..3).map(|ray| shown(turn.ray(ray).middle).to_string()).collect()
    }

    #[test]
    fn listed_and_stepped() {
        let cuts = angles(&plan(100, Flags::ALL).file());
        assert_eq!(cuts.len(), 2);
        assert_eq!(
            (cuts[0].elevation, cuts[1].elevation, cuts[0].start),
            (Some(Hundredths(-5)), Some(Hundredths(320)), Some(Hundredths(0)))
        );
        assert_eq!(azimuths(&cuts[0]), ["1.80", "5.40", "9.00"]);
        // without the list the same comes from the width
        let stepped = angles(&plan(100, Flags::NONE).file());
        assert_eq!(azimuths(&stepped[1]), ["1.80", "5.40", "9.00"]);
        assert!(stepped[0].turn.as_ref().is_some_and(Turn::is_whole));
    }

    /// What is out of its range is unknown, and never a number.
    #[test]
    fn unknown() {
        let spoiled = |section: usize, first: usize, value: u64, flags| {
            let mut sections: Vec<Section> = plan(4, flags).sections();
            sections[section].put(first, 2, value);
            angles(&assemble(&sections)).swap_remove(0)
        };
        assert_eq!(spoiled(1, 61, 36001, Flags::ALL).turn, None);
        assert!(spoiled(1, 61, 36000, Flags::ALL).turn.is_some());
        assert_eq!(spoiled(1, 45, 65535, Flags::ALL).start, None);
        assert_eq!(spoiled(1, 45, 65535, Flags::NONE).turn, None);
        assert_eq!(spoiled(1, 55, 65535, Flags::NONE).turn, None);
        assert_eq!(spoiled(2, 46, 65535, Flags::ALL).elevation, None);
        assert_eq!(spoiled(2, 46, 19001, Flags::ALL).elevation, None);
        assert_eq!(angles(&[]), []);
        assert_eq!(angles(&[255; 40]), []);
    }
}
