//! What the two formats share: sections 0, 1, 6 and 8, how a section stands in a file, their order, the number of cuts,
//! and section 3 up to Dstart. Each format's own rules are a `Format`'s.
use crate::octets::{magnitude, signed, unsigned};
use crate::{refused, refused_at, Refusal};
use std::ops::RangeInclusive;

pub const LEAST_FILE: usize = 20;
pub const GREATEST_FILE: usize = 8_388_608;
pub const MOST_CUTS: usize = 64;
/// The octets of section 0, where the first walked section begins.
const SECTION_0: usize = 16;
/// The octets of section 8, which stand at the file's end.
const SECTION_8: &[u8] = b"7777";

/// What the section 3 of either format says up to Dstart.
#[derive(Debug, Clone, Copy, PartialEq, Eq)]
pub struct Circle {
    pub bins: usize,
    pub rays: usize,
    pub latitude: i64,
    pub longitude: u64,
    pub dx: u64,
    pub dstart: u64,
}

impl Circle {
    pub fn points(&self) -> usize {
        self.bins * self.rays
    }
}

/// One section: its octets, with the length's four and the number's one in front.
pub(crate) struct Section<'a> {
    pub place: usize,
    pub octets: &'a [u8],
}

impl<'a> Section<'a> {
    /// Octets `first` to `last`, counted from 1.
    pub fn field(&self, octets: RangeInclusive<usize>) -> &'a [u8] {
        &self.octets[octets.start() - 1..*octets.end()]
    }

    pub fn number_at(&self, octets: RangeInclusive<usize>) -> u64 {
        unsigned(self.field(octets))
    }

    pub fn octet(&self, n: usize) -> u8 {
        self.octets[n - 1]
    }

    /// Refusal `number` at this section, unless `met`.
    pub fn check(&self, number: u32, met: bool) -> Result<(), Refusal> {
        if met {
            Ok(())
        } else {
            refused_at(number, self.place)
        }
    }
}

/// The section at `place`, or refusal 3. The last four octets are no part of any.
fn section_at(file: &[u8], place: usize) -> Result<(u8, Section<'_>), Refusal> {
    let rest = &file[place..file.len() - SECTION_8.len()];
    if rest.len() < 5 {
        return refused_at(3, place);
    }
    let length = unsigned(&rest[..4]) as usize;
    if length < 5 || length > rest.len() {
        return refused_at(3, place);
    }
    Ok((rest[4], Section { place, octets: &rest[..length] }))
}

fn check_section_0(file: &[u8]) -> bool {
    let section = Section { place: 0, octets: file };
    section.field(1..=4) == b"GRIB" && section.octet(7) == 0 && section.octet(8) == 2 && section.number_at(9..=16) == file.len() as u64
}

fn section_1(s: &Section) -> Result<[u64; 6], Refusal> {
    s.check(4, s.octets.len() == 21)?;
    let time = [s.number_at(13..=14), s.octet(15).into(), s.octet(16).into(), s.octet(17).into(), s.octet(18).into(), s.octet(19).into()];
    let ranges = [1000..=9999, 1..=12, 1..=31, 0..=23, 0..=59, 0..=59];
    s.check(5, s.number_at(6..=7) == 34)?;
    s.check(5, s.number_at(8..=9) == 0)?;
    s.check(5, s.octet(12) == 3)?;
    s.check(5, time.iter().zip(&ranges).all(|(part, range)| range.contains(part)))?;
    s.check(5, s.octet(20) == 0)?;
    s.check(5, s.octet(21) == 7)?;
    Ok(time)
}

/// Octets 6 to 34 of a section 3 by refusal 5, under this template number; the count of points waits for 6.
pub(crate) fn circle(s: &Section, template: u64) -> Result<Circle, Refusal> {
    let (bins, rays) = (s.number_at(15..=18), s.number_at(19..=22));
    s.check(5, s.octet(6) == 0 && s.octet(11) == 0 && s.octet(12) == 0)?;
    s.check(5, s.number_at(13..=14) == template)?;
    s.check(5, (1..=2048).contains(&bins))?;
    s.check(5, (1..=1024).contains(&rays))?;
    s.check(5, magnitude(s.field(23..=26)) <= 90_000_000)?;
    s.check(5, s.number_at(27..=30) <= 360_000_000)?;
    s.check(5, s.number_at(31..=34) != 0)?;
    Ok(Circle {
        bins: bins as usize,
        rays: rays as usize,
        latitude: signed(s.field(23..=26)),
        longitude: s.number_at(27..=30),
        dx: s.number_at(31..=34),
        dstart: s.number_at(35..=38),
    })
}

fn section_6(s: &Section) -> Result<(), Refusal> {
    s.check(4, s.octets.len() == 6)?;
    s.check(5, s.octet(6) == 255)
}

/// The sections that a format has its own rules for. The order of sections has each seen before the next is asked for.
pub(crate) trait Format<'a> {
    type Cut;

    fn section_3(&mut self, s: &Section<'a>) -> Result<(), Refusal>;
    fn section_4(&mut self, s: &Section<'a>) -> Result<(), Refusal>;
    fn section_5(&mut self, s: &Section<'a>) -> Result<(), Refusal>;
    /// The cut that this section ends.
    fn section_7(&mut self, s: &Section<'a>) -> Result<Self::Cut, Refusal>;
}

/// The numbers of the sections that may follow one of this number.
fn allowed_after(number: u8) -> &'static [u8] {
    match number {
        0 => &[1],
        1 => &[3],
        3 => &[4],
        4 => &[5],
        5 => &[6],
        6 => &[7],
        _ => &[3, 4],
    }
}

/// Time and cuts of an accepted file, or its refusal: 1, 2, then section by section 3, 9 and what the section's own rules say.
pub(crate) fn walk<'a, F: Format<'a>>(file: &'a [u8], format: &mut F) -> Result<([u64; 6], Vec<F::Cut>), Refusal> {
    if !(LEAST_FILE..=GREATEST_FILE).contains(&file.len()) {
        return refused(1);
    }
    if !check_section_0(file) {
        return refused(2);
    }
    let end = file.len() - SECTION_8.len();
    let (mut place, mut last) = (SECTION_0, 0);
    let (mut time, mut cuts) = ([0; 6], Vec::new());
    while place < end {
        let (number, section) = section_at(file, place)?;
        section.check(3, allowed_after(last).contains(&number))?;
        section.check(9, !(last == 7 && cuts.len() == MOST_CUTS))?;
        match number {
            1 => time = section_1(&section)?,
            3 => format.section_3(&section)?,
            4 => format.section_4(&section)?,
            5 => format.section_5(&section)?,
            6 => section_6(&section)?,
            _ => cuts.push(format.section_7(&section)?),
        }
        place += section.octets.len();
        last = number;
    }
    if last != 7 || &file[end..] != SECTION_8 {
        return refused_at(3, place);
    }
    Ok((time, cuts))
}
