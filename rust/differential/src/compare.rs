//! One call on both sides: the same answer or refusal, and every element of every lent buffer the same after it.
use crate::lent::Lent;
use crate::ours;
use polar_sys::RayRecord;
use reference::index::Record;
use reference::layout::{unchecked, verdict, Accepted, Unchecked};
use reference::runs::{self, Written};
use reference::stretches::{list, portion, Entry, Portion, ENTRY_WORDS, HOUSE_THRESHOLD};
use reference::Refusal;
use std::cell::OnceCell;

/// Octets for a message, the first of them if they are many.
pub(crate) fn shown(octets: &[u8]) -> String {
    const MOST: usize = 1500;
    let more = if octets.len() > MOST { ".." } else { "" };
    format!("{} octets {:?}{more}", octets.len(), &octets[..octets.len().min(MOST)])
}

pub fn run_check(octets: &[u8], v: u8, n: usize) -> Result<(), Refusal> {
    let answer = ours::run_check(octets, v.into(), n);
    assert_eq!(answer, runs::run_check(octets, v, n), "run check, V {v}, n {n}, {}", shown(octets));
    answer
}

pub fn run_read(octets: &[u8], v: u8, n: usize, room: usize) -> Result<(), Refusal> {
    let (mut mine, mut theirs) = (Lent::new(room), Lent::new(room));
    let answer = ours::run_read(octets, v.into(), n, mine.room());
    let call = || format!("run read, V {v}, n {n}, room {room}, {}", shown(octets));
    assert_eq!(answer, runs::run_read(octets, v, n, theirs.room()), "{}", call());
    assert!(mine == theirs, "levels differ: {}", call());
    answer
}

pub fn run_write(levels: &[u8], room: usize) -> Result<Written, Refusal> {
    let (mut mine, mut theirs) = (Lent::new(room), Lent::new(room));
    let answer = ours::run_write(levels, mine.room());
    let call = || format!("run write, room {room}, {}", shown(levels));
    assert_eq!(answer, runs::run_write(levels, theirs.room()), "{}", call());
    assert!(mine == theirs, "octets differ: {}", call());
    answer
}

/// The calls on one file, with the independent reader's verdict on it.
pub struct Compared<'a> {
    pub file: &'a [u8],
    pub verdict: Result<Accepted<'a>, Refusal>,
    unchecked: OnceCell<Result<Unchecked<'a>, Refusal>>,
}

impl<'a> Compared<'a> {
    pub fn new(file: &'a [u8]) -> Self {
        Compared { file, verdict: verdict(file), unchecked: OnceCell::new() }
    }

    /// The independent reader's verdict with every check but 8.
    pub fn unchecked(&self) -> &Result<Unchecked<'a>, Refusal> {
        self.unchecked.get_or_init(|| unchecked(self.file))
    }

    /// What the independent reader answers on the file, if it is accepted; else the file's refusal.
    fn theirs<T>(&self, call: impl FnOnce(&Accepted<'a>) -> Result<T, Refusal>) -> Result<T, Refusal> {
        match &self.verdict {
            Ok(accepted) => call(accepted),
            Err(refusal) => Err(*refusal),
        }
    }

    /// The same where its data need not be.
    fn theirs_unchecked(&self, call: impl FnOnce(&Unchecked<'a>) -> Result<(), Refusal>) -> Result<(), Refusal> {
        self.unchecked().as_ref().map_err(|refusal| *refusal).and_then(call)
    }

    fn told(&self, call: &str) -> String {
        format!("{call}, {}", shown(self.file))
    }

    pub fn open(&self) -> Result<(), Refusal> {
        let answer = ours::open(self.file);
        assert_eq!(answer, reference::calls::open(self.file), "{}", self.told("open"));
        answer.map(|_| ())
    }

    pub fn cut(&self, cut: usize) {
        let expected = self.theirs(|file| file.facts(cut));
        assert_eq!(ours::cut(self.file, cut), expected, "{}", self.told(&format!("cut {cut}")));
    }

    pub fn ray_levels(&self, cut: usize, ray: usize, room: usize) {
        let (mut mine, mut theirs) = (Lent::new(room), Lent::new(room));
        let answer = ours::ray_levels(self.file, cut, ray, mine.room());
        let expected = self.theirs(|file| file.ray_levels(cut, ray, theirs.room()));
        let call = || self.told(&format!("ray levels, cut {cut}, ray {ray}, room {room}"));
        assert_eq!(answer, expected, "{}", call());
        assert!(mine == theirs, "levels differ: {}", call());
    }

    pub fn ray_values(&self, cut: usize, ray: usize, marks_room: usize, values_room: usize) {
        let (mut marks, mut their_marks) = (Lent::new(marks_room), Lent::new(marks_room));
        let (mut values, mut their_values) = (Lent::new(values_room), Lent::new(values_room));
        let answer = ours::ray_values(self.file, cut, ray, marks.room(), values.room());
        let expected = self.theirs(|file| file.ray_values(cut, ray, their_marks.room(), their_values.room()));
        let call = || self.told(&format!("ray values, cut {cut}, ray {ray}, rooms {marks_room} and {values_room}"));
        assert_eq!(answer, expected, "{}", call());
        assert!(marks == their_marks, "marks differ: {}", call());
        assert!(values == their_values, "values differ: {}", call());
    }

    pub fn build_index(&self, cut: usize, room: usize) {
        let (mut mine, mut theirs) = (Lent::new(room), Lent::new(room));
        let answer = ours::build_index(self.file, cut, mine.room());
        let expected = self.theirs(|file| file.build_index(cut, theirs.room()));
        let call = || self.told(&format!("build index, cut {cut}, room {room}"));
        assert_eq!(answer, expected, "{}", call());
        assert!(mine == theirs.told(ours::ray_record), "records differ: {}", call());
    }

    pub fn ray_levels_from(&self, cut: usize, ray: usize, record: Record, room: usize) -> Result<(), Refusal> {
        let (mut mine, mut theirs) = (Lent::new(room), Lent::new(room));
        let answer = ours::ray_levels_from(self.file, cut, ray, record, mine.room());
        let expected = self.theirs_unchecked(|file| file.ray_levels_from(cut, ray, record, theirs.room()));
        let call = || self.told(&format!("ray levels from {record:?}, cut {cut}, ray {ray}, room {room}"));
        assert_eq!(answer, expected, "{}", call());
        assert!(mine == theirs, "levels differ: {}", call());
        answer
    }

    pub fn ray_values_from(&self, cut: usize, ray: usize, record: Record, marks_room: usize, values_room: usize) {
        let (mut marks, mut their_marks) = (Lent::new(marks_room), Lent::new(marks_room));
        let (mut values, mut their_values) = (Lent::new(values_room), Lent::new(values_room));
        let answer = ours::ray_values_from(self.file, cut, ray, record, marks.room(), values.room());
        let expected = self.theirs_unchecked(|file| file.ray_values_from(cut, ray, record, their_marks.room(), their_values.room()));
        let call = || self.told(&format!("ray values from {record:?}, cut {cut}, ray {ray}, rooms {marks_room} and {values_room}"));
        assert_eq!(answer, expected, "{}", call());
        assert!(marks == their_marks, "marks differ: {}", call());
        assert!(values == their_values, "values differ: {}", call());
    }

    /// Rays of a cut by the records that the library built for them: what both plain calls answer, in all lent memory.
    pub fn by_built_records(&self, cut: usize, rays: impl IntoIterator<Item = usize>) {
        let grid = self.verdict.as_ref().expect("a sound file").cuts[cut].grid;
        let mut records = vec![RayRecord::default(); grid.rays];
        assert_eq!(ours::build_index(self.file, cut, &mut records), Ok(()));
        for ray in rays {
            let RayRecord { offset, before } = records[ray];
            let (record, room) = (Record { offset, before }, grid.bins + 2);
            let call = || self.told(&format!("by its own record {record:?}, cut {cut}, ray {ray}"));
            let (mut levels, mut plain) = (Lent::new(room), Lent::new(room));
            assert_eq!(ours::ray_levels(self.file, cut, ray, plain.room()), Ok(()));
            assert_eq!(ours::ray_levels_from(self.file, cut, ray, record, levels.room()), Ok(()), "{}", call());
            assert!(levels == plain, "levels differ: {}", call());
            let (mut marks, mut plain_marks) = (Lent::new(room), Lent::new(room));
            let (mut values, mut plain_values) = (Lent::new(room), Lent::new(room));
            assert_eq!(ours::ray_values(self.file, cut, ray, plain_marks.room(), plain_values.room()), Ok(()));
            assert_eq!(ours::ray_values_from(self.file, cut, ray, record, marks.room(), values.room()), Ok(()), "{}", call());
            assert!((marks, values) == (plain_marks, plain_values), "marks or values differ: {}", call());
        }
    }

    pub fn bin_value(&self, cut: usize, ray: usize, bin: usize) {
        let answer = ours::bin_value(self.file, cut, ray, bin);
        let expected = self.theirs(|file| file.bin_value(cut, ray, bin)).map(|value| value.map(f64::to_bits));
        assert_eq!(answer, expected, "{}", self.told(&format!("bin value, cut {cut}, ray {ray}, bin {bin}")));
    }

    /// One portion of `entries`, the list of this cut at this threshold. Nothing where the cut or the threshold is refused.
    fn portion(&self, cut: usize, t: i32, entries: &[Entry], point: (usize, usize), room: usize) -> Result<Portion, Refusal> {
        let (mut mine, mut theirs) = (Lent::new(room), Lent::new(room));
        let answer = ours::stretches(self.file, cut, t.into(), point, mine.room());
        let expected = self.theirs(|file| {
            file.check_stretches(cut, t, point, room)?;
            Ok(portion(entries, file.cuts[cut].grid.rays, point, theirs.room()))
        });
        let call = || self.told(&format!("stretches, cut {cut}, T {t}, point {point:?}, room {room}"));
        assert_eq!(answer, expected, "{}", call());
        assert!(mine == theirs, "words differ: {}", call());
        if t == HOUSE_THRESHOLD {
            let mut house = Lent::new(room);
            assert_eq!(ours::house_stretches(self.file, cut, point, house.room()), expected, "house form: {}", call());
            assert!(house == theirs, "house form, words differ: {}", call());
        }
        answer
    }

    /// The independent reader's whole list; empty where there is none.
    pub fn list(&self, cut: usize, t: i32) -> Vec<Entry> {
        let whole = self.theirs(|file| Ok(file.cuts.get(cut).map_or(vec![], |cut| list(cut, file.product, t))));
        whole.unwrap_or_default()
    }

    pub fn stretches(&self, cut: usize, t: i32, point: (usize, usize), room: usize) {
        let _ = self.portion(cut, t, &self.list(cut, t), point, room);
    }

    /// Many portions of one list, each of one call.
    pub fn portions(&self, cut: usize, t: i32, calls: impl IntoIterator<Item = ((usize, usize), usize)>) {
        let entries = self.list(cut, t);
        for (point, room) in calls {
            let _ = self.portion(cut, t, &entries, point, room);
        }
    }

    /// The list fetched in portions of `room` words from the first bin, each next point handed back.
    pub fn fetched(&self, cut: usize, t: i32, room: usize) {
        let entries = self.list(cut, t);
        let Ok(accepted) = &self.verdict else { return };
        let end = (accepted.cuts[cut].grid.rays, 0);
        let (mut point, mut count) = ((0, 0), 0);
        while point != end {
            let portion = self.portion(cut, t, &entries, point, room).expect("a portion");
            assert!(portion.next > point, "the fetching stands still");
            (point, count) = (portion.next, count + portion.count);
        }
        assert_eq!(count, entries.len());
    }

    /// Every call on every cut and on one that is not there: the corners of its grid and what lies past its edges, in rooms just right
    /// and too short, by records at the front of its data and outside.
    pub fn every_call(&self) {
        let _ = self.open();
        let cuts = self.unchecked().as_ref().map_or(&[][..], |file| &file.cuts);
        for cut in 0..=cuts.len() {
            let (bins, rays) = cuts.get(cut).map_or((1, 1), |cut| (cut.grid.bins, cut.grid.rays));
            self.cut(cut);
            self.build_index(cut, rays);
            self.build_index(cut, rays - 1);
            for (ray, bin) in [(0, 0), (rays - 1, bins - 1), (rays, 0), (0, bins)] {
                self.bin_value(cut, ray, bin);
                for room in [ENTRY_WORDS, ENTRY_WORDS - 1] {
                    self.stretches(cut, HOUSE_THRESHOLD, (ray, bin), room);
                }
                for room in [bins, bins - 1] {
                    self.ray_levels(cut, ray, room);
                    self.ray_values(cut, ray, bins, room);
                    for (offset, before) in [(0, 0), (0, 1), (1, 0), (u32::MAX, 0)] {
                        let _ = self.ray_levels_from(cut, ray, Record { offset, before }, room);
                        self.ray_values_from(cut, ray, Record { offset, before }, bins, room);
                    }
                }
            }
        }
    }
}
