//! One call on a dual-polarisation file on both sides: the same answer or refusal, the same float bit for bit, and that float
//! as near the exact value as it is promised to be.
use crate::compare::shown;
use crate::ours;
use reference::dual::calls::Opened;
use reference::dual::layout::{verdict, Accepted};
use reference::Refusal;

/// The calls on one file, with the independent reader's verdict on it.
pub struct Compared<'a> {
    pub file: &'a [u8],
    pub verdict: Result<Accepted<'a>, Refusal>,
}

impl<'a> Compared<'a> {
    pub fn new(file: &'a [u8]) -> Self {
        Compared { file, verdict: verdict(file) }
    }

    /// What the independent reader answers on the file, if it is accepted; else the file's refusal.
    fn theirs<T>(&self, call: impl FnOnce(&Accepted<'a>) -> Result<T, Refusal>) -> Result<T, Refusal> {
        match &self.verdict {
            Ok(accepted) => call(accepted),
            Err(refusal) => Err(*refusal),
        }
    }

    fn told(&self, call: &str) -> String {
        format!("dual {call}, {}", shown(self.file))
    }

    pub fn open(&self) -> Result<Opened, Refusal> {
        let answer = ours::dual_open(self.file);
        assert_eq!(answer, self.theirs(|file| Ok(file.opened())), "{}", self.told("open"));
        answer
    }

    pub fn cut(&self, cut: usize) {
        let expected = self.theirs(|file| file.facts(cut));
        assert_eq!(ours::dual_cut(self.file, cut), expected, "{}", self.told(&format!("cut {cut}")));
    }

    pub fn bin_value(&self, cut: usize, ray: usize, bin: usize) {
        let answer = ours::dual_bin_value(self.file, cut, ray, bin);
        let expected = self.theirs(|file| file.bin_value(cut, ray, bin)).map(|value| value.map(f64::to_bits));
        let call = || self.told(&format!("bin value, cut {cut}, ray {ray}, bin {bin}"));
        assert_eq!(answer, expected, "{}", call());
        if let (Ok(Some(bits)), Ok(file)) = (answer, &self.verdict) {
            let cut = &file.cuts[cut];
            let z = cut.cell(ray, bin).expect("a measured cell");
            assert!(cut.packing.is_near(z, f64::from_bits(bits)), "too far from the exact value: {}", call());
        }
    }

    /// Every bin of every cut; answers how many there are.
    pub fn all_bins(&self) -> usize {
        let accepted = self.verdict.as_ref().expect("a sound file");
        for (k, cut) in accepted.cuts.iter().enumerate() {
            for ray in 0..cut.grid.rays {
                for bin in 0..cut.grid.bins {
                    self.bin_value(k, ray, bin);
                }
            }
        }
        accepted.cuts.iter().map(|cut| cut.grid.points()).sum()
    }

    /// Open, every cut and cuts that are not there, and the bins at the corners and past the edges of one cut.
    pub fn every_call(&self) {
        let _ = self.open();
        let cuts = self.verdict.as_ref().map_or(0, |accepted| accepted.cuts.len());
        for cut in (0..=cuts).chain([64, usize::MAX]) {
            self.cut(cut);
        }
        let last = cuts.saturating_sub(1);
        let grid = self.theirs(|file| file.facts(last)).map_or((1, 1), |grid| (grid.bins, grid.rays));
        for (ray, bin) in [(0, 0), (grid.1 - 1, grid.0 - 1), (grid.1, 0), (0, grid.0)] {
            self.bin_value(last, ray, bin);
        }
    }
}
