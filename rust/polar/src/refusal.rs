//! Refusals by name: FORMAT.md, "Refusals". Calls on a file and bare run calls have a `Reason` each, with no case that they cannot
//! answer; what a refusal is besides is said here, once.
use std::error::Error;
use std::fmt;

/// The reasons of one kind of call. Its module is private: which there are is the law's to say.
pub trait Reasons: Copy + fmt::Debug + 'static {
    /// All of them, in the order of their numbers.
    const ALL: &'static [Self];

    /// What an octet at fault is counted in: what the call was lent.
    const LENT: &'static str;

    /// Its number.
    fn number(self) -> u32;

    /// What it means, in a plain sentence.
    fn meaning(self) -> &'static str;

    /// Whether its place is that of the octet at fault.
    fn is_at_an_octet(self) -> bool;
}

/// An enum of reasons: a number for each case, and what it means. At its end stand the case whose place is that of the octet at fault,
/// and what that octet is counted in.
macro_rules! reasons {
    (
        $(#[$about:meta])*
        pub enum $reason:ident { $($(#[$about_case:meta])* $case:ident = $number:expr => $meaning:expr,)* }
        $at_an_octet:ident at an octet of $lent:literal
    ) => {
        $(#[$about])*
        #[derive(Debug, Clone, Copy, PartialEq, Eq, Hash)]
        pub enum $reason {
            $($(#[$about_case])* $case = $number,)*
        }

        impl $reason {
            /// All reasons, in the order of their numbers.
            pub const ALL: &'static [$reason] = &[$($reason::$case),*];

            /// Its number.
            pub fn number(self) -> u32 {
                self as u32
            }

            /// What it means, in a plain sentence.
            pub fn meaning(self) -> &'static str {
                match self {
                    $($reason::$case => $meaning,)*
                }
            }
        }

        impl $crate::refusal::Reasons for $reason {
            const ALL: &'static [$reason] = $reason::ALL;
            const LENT: &'static str = $lent;

            fn number(self) -> u32 {
                self.number()
            }

            fn meaning(self) -> &'static str {
                self.meaning()
            }

            fn is_at_an_octet(self) -> bool {
                self == $reason::$at_an_octet
            }
        }
    };
}
pub(crate) use reasons;

reasons! {
    /// Why a call on a file was refused: one case for each number that such a call can answer. The list is the law's, and a
    /// caller's `match` over it is to be complete: should it grow, the compiler tells.
    ///
    /// ```
    /// let is_data = |reason: polar::Reason| reason == polar::Reason::Data;
    /// ```
    ///
    /// A V over 253 is none of them: section 5 holds V to 252 before data is looked at.
    ///
    /// ```compile_fail,E0599
    /// let is_v = |reason: polar::Reason| reason == polar::Reason::V;
    /// ```
    pub enum Reason {
        /// 1: the file is under 20 or over 8,388,608 octets.
        FileSize = 1 => "the file is shorter than 20 octets or longer than 8,388,608",
        /// 2: section 0 is not as it should be.
        Section0 = 2 => "this is no radar file, or it was cut short: its first 16 octets are not as they should be, or say another length",
        /// 3: a section's length or number cannot stand where it does, or the end is wrong.
        Frame = 3 => "the sections do not follow each other as they should, or the file's end is wrong",
        /// 4: a section's own length is wrong.
        SectionLength = 4 => "a section has not the length that it should have",
        /// 5: a named field is outside its rule.
        Field = 5 => "a field of a section is outside what it may be",
        /// 6: a point count is not bins times rays.
        Points = 6 => "a section's number of points is not its bins times its rays",
        /// 7: the value table differs from the published one.
        Table = 7 => "the table of values is not the published one",
        /// 8: data opens above V, or gives more or fewer bins than wanted. The place is that of the octet at fault.
        Data = 8 => "the packed data does not give exactly the bins that it should give",
        /// 9: a 65th cut begins.
        CutCount = 9 => "the file has more than 64 cuts",
        /// 10: an argument is outside its range.
        Argument = 10 => "a number that was asked for is outside its range",
        /// 11: lent room is too short.
        Room = 11 => "the room for the answer is too short",
        /// 13: a record's offset lies outside the data, the octet there is above V, its earlier bins reach the run's length, or the
        /// data ends before the ray does.
        Record = 13 => "the record is none of this cut's: no ray can be read from where it points",
        /// 14: a dual-polarisation file of a kind that is not read: R is infinite or not a number, a cell's width is neither 8
        /// nor 16 bits, or the scan is not a turn at one elevation (PPI).
        Unread = 14 => "this kind of dual-polarisation file is not read: its reference value is no number, its cells are neither 8 nor 16 \
                        bits wide, or its scan is not a turn at one elevation",
    }
    Data at an octet of "file"
}

/// A refusal: why, and where.
#[derive(Debug, Clone, Copy, PartialEq, Eq, Hash)]
pub struct Refusal<R> {
    reason: R,
    place: u64,
}

impl<R: Reasons> Refusal<R> {
    /// The refusal that a call of the library returned, if it did.
    pub(crate) fn check(returned: u64) -> Result<(), Refusal<R>> {
        if returned == 0 {
            return Ok(());
        }
        let (number, place) = (polar_sys::number(returned), polar_sys::place(returned));
        match R::ALL.iter().find(|reason| reason.number() == number) {
            Some(reason) => Err(Refusal { reason: *reason, place }),
            None => panic!("the library refused by {number} at {place}, which no call of this kind can answer"),
        }
    }

    /// Why.
    pub fn reason(self) -> R {
        self.reason
    }

    /// Its number, from 1 on.
    pub fn number(self) -> u32 {
        self.reason.number()
    }

    /// Where, counted from 0. For `Data` it is the octet at fault: the first of the data if it opens above V, the level or digit octet
    /// at which the bins are first passed, or one past the data if there are too few. A call on a file counts it in the file, and a bare
    /// run call from the first octet of the data. For every other reason it is the start of the section concerned, and 0 where no
    /// section is.
    ///
    /// ```
    /// let mut octets = include_bytes!("../../../samples/document01.bin").to_vec();
    /// // the data begins at 678; this digit of it makes a run longer than the bins that are left
    /// octets[681] = 141;
    /// let refusal = polar::File::open(&octets).unwrap_err();
    /// assert_eq!((refusal.reason(), refusal.place()), (polar::Reason::Data, 681));
    /// ```
    pub fn place(self) -> u64 {
        self.place
    }

    /// What it means, in a plain sentence, with the octet at fault where its place is that octet's.
    ///
    /// ```
    /// let refusal = polar::runs::check(&[0, 131, 131, 132], 130, 1).unwrap_err();
    /// let meaning = "the packed data does not give exactly the bins that it should give; at fault is octet 3 of the data, counted from 0";
    /// assert_eq!(refusal.meaning(), meaning);
    /// assert_eq!(refusal.to_string(), format!("refused 8 at 3: {meaning}"));
    /// ```
    pub fn meaning(self) -> String {
        let meaning = self.reason.meaning();
        if !self.reason.is_at_an_octet() {
            return meaning.into();
        }
        format!("{meaning}; at fault is octet {} of the {}, counted from 0", with_commas(self.place), R::LENT)
    }
}

/// A number with its thousands set off by commas.
fn with_commas(number: u64) -> String {
    match number / 1000 {
        0 => number.to_string(),
        thousands => format!("{},{:03}", with_commas(thousands), number % 1000),
    }
}

impl<R: Reasons> fmt::Display for Refusal<R> {
    fn fmt(&self, f: &mut fmt::Formatter<'_>) -> fmt::Result {
        write!(f, "refused {} at {}: {}", self.number(), self.place, self.meaning())
    }
}

impl<R: Reasons> Error for Refusal<R> {}

#[cfg(test)]
mod tests {
    use super::{Reasons, Refusal};
    use crate::{runs, Reason};
    use std::panic::{catch_unwind, UnwindSafe};

    /// The reasons have these numbers, and are what the library's words are read as; every other number is a fault of the library.
    fn have_the_numbers<R: Reasons + PartialEq + UnwindSafe>(numbers: &[u32]) {
        assert_eq!(R::ALL.iter().map(|reason| reason.number()).collect::<Vec<_>>(), numbers);
        assert_eq!(Refusal::<R>::check(0), Ok(()));
        for place in [0, 7, 255, 256, 673, 8_388_608] {
            for number in 0..=255 {
                let returned = u64::from(number) + 256 * place;
                match R::ALL.iter().find(|reason| reason.number() == number) {
                    Some(reason) => assert_eq!(Refusal::check(returned), Err(Refusal { reason: *reason, place })),
                    None => assert!(returned == 0 || catch_unwind(|| Refusal::<R>::check(returned)).is_err(), "{number} at {place}"),
                }
            }
        }
    }

    #[test]
    fn of_calls_on_a_file() {
        have_the_numbers::<Reason>(&[1, 2, 3, 4, 5, 6, 7, 8, 9, 10, 11, 13, 14]);
    }

    #[test]
    fn of_bare_run_calls() {
        have_the_numbers::<runs::Reason>(&[8, 10, 11, 12]);
    }

    #[test]
    #[should_panic(expected = "the library refused by 12 at 673, which no call of this kind can answer")]
    fn no_call_on_a_file_refuses_by_12() {
        let _ = crate::Refusal::check(12 + 256 * 673);
    }

    #[test]
    fn a_bare_run_call_refuses_by_12() {
        let refusal = runs::Refusal::check(12).unwrap_err();
        assert_eq!((refusal.reason(), refusal.number(), refusal.place()), (runs::Reason::V, 12, 0));
        assert_eq!(refusal.to_string(), "refused 12 at 0: the greatest level of packed data is over 253");
    }

    #[test]
    fn the_octet_at_fault_is_told() {
        let meaning = "the packed data does not give exactly the bins that it should give";
        for (place, octet) in [(678, "678"), (1000, "1,000"), (104_233, "104,233"), (8_388_604, "8,388,604"), (2_000_007, "2,000,007")] {
            let of_file = crate::Refusal::check(8 + 256 * place).unwrap_err();
            assert_eq!(
                of_file.to_string(),
                format!("refused 8 at {place}: {meaning}; at fault is octet {octet} of the file, counted from 0")
            );
            let of_data = runs::Refusal::check(8 + 256 * place).unwrap_err();
            assert_eq!(
                of_data.to_string(),
                format!("refused 8 at {place}: {meaning}; at fault is octet {octet} of the data, counted from 0")
            );
        }
        let first = runs::Refusal::check(8).unwrap_err();
        assert_eq!(first.meaning(), format!("{meaning}; at fault is octet 0 of the data, counted from 0"));
        let greatest = runs::Refusal::check(8 + 256 * ((1 << 56) - 1)).unwrap_err();
        assert!(greatest.meaning().ends_with("; at fault is octet 72,057,594,037,927,935 of the data, counted from 0"));
    }

    /// No reason but `Data` is at an octet, and then its own meaning is all that is told.
    #[test]
    fn no_other_place_is_an_octets() {
        fn tell<R: Reasons>() {
            for reason in R::ALL.iter().filter(|reason| reason.number() != 8) {
                let refusal = Refusal { reason: *reason, place: 1037 };
                assert_eq!(refusal.meaning(), reason.meaning());
                assert_eq!(refusal.to_string(), format!("refused {} at 1037: {}", reason.number(), reason.meaning()));
            }
        }
        tell::<Reason>();
        tell::<runs::Reason>();
    }
}
