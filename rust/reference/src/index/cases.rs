//! Records with what FORMAT.md, "Rays by a record", makes of each, said by hand.
use super::shapes::long_run;
use super::Record;
use crate::maker::{document_sample, CutPlan, Plan};
use crate::published::Product;

/// A call by a record.
pub struct Case {
    pub name: String,
    pub file: Vec<u8>,
    pub cut: usize,
    pub ray: usize,
    pub record: Record,
    pub room: usize,
    /// the levels, or the refusal's number and place
    pub answer: Result<Vec<u8>, (u32, usize)>,
}

/// The index of a file's first cut.
pub struct Built {
    pub name: &'static str,
    pub file: Vec<u8>,
    /// offset and earlier bins of each ray
    pub records: Vec<(u32, u32)>,
}

/// Where section 7 of a file's only cut starts, by the file's end: after it stand four octets.
fn section_7(file: &[u8], data: &[u8]) -> usize {
    file.len() - 4 - data.len() - 5
}

#[derive(Default)]
struct Cases(Vec<Case>);

impl Cases {
    /// The cut of 5 bins and 2 rays with this data, by each of these records; none is refusal 13.
    fn data(&mut self, name: &str, v: u8, data: &[u8], records: &[(u32, u32, Option<[u8; 5]>)]) {
        let file = Plan::new(Product::Reflectivity, vec![CutPlan::of_data(5, 2, v.into(), data.to_vec())]).file();
        for (offset, before, levels) in records {
            self.0.push(Case {
                name: format!("{name}, record ({offset}, {before})"),
                file: file.clone(),
                cut: 0,
                ray: 1,
                record: Record { offset: *offset, before: *before },
                room: 6,
                answer: levels.map_or(Err((13, section_7(&file, data))), |levels| Ok(levels.to_vec())),
            });
        }
    }

    fn of_the_sample(&mut self) {
        let sample = [0, 132, 130, 134, 1, 133, 0];
        let records = [
            (0, 0, Some([0, 0, 130, 130, 130])),
            (0, 1, Some([0, 130, 130, 130, 130])),
            (0, 2, None),
            (0, u32::MAX, None),
            (1, 0, None),
            (2, 0, Some([130, 130, 130, 130, 1])),
            (2, 3, Some([130, 1, 1, 1, 0])),
            (2, 4, None),
            (3, 0, None),
            (4, 0, None),
            (5, 0, None),
            (6, 0, None),
            (7, 0, None),
            (8, 0, None),
            (u32::MAX, 0, None),
            (u32::MAX, u32::MAX, None),
        ];
        self.data("the document's sample", 130, &sample, &records);
        // the same record whichever ray is asked for
        let file = document_sample().file();
        for (cut, ray, room, record, answer) in [
            (0, 0, 5, (0, 0), Ok([0, 0, 130, 130, 130])),
            (0, 1, 5, (0, 0), Ok([0, 0, 130, 130, 130])),
            (0, 0, 5, (2, 3), Ok([130, 1, 1, 1, 0])),
            // 10 before 11 before 13
            (0, 0, 5, (7, 0), Err((13, 673))),
            (0, 0, 4, (7, 0), Err((11, 0))),
            (0, 2, 4, (7, 0), Err((10, 0))),
            (1, 0, 4, (7, 0), Err((10, 0))),
            (usize::MAX, 0, 5, (0, 0), Err((10, 0))),
            (0, usize::MAX, 5, (0, 0), Err((10, 0))),
            (0, 1 << 32, 5, (0, 0), Err((10, 0))),
        ] {
            self.0.push(Case {
                name: format!("the sample, cut {cut}, ray {ray}, room {room}, record {record:?}"),
                file: file.clone(),
                cut,
                ray,
                record: Record { offset: record.0, before: record.1 },
                room,
                answer: answer.map(|levels| levels.to_vec()),
            });
        }
    }

    /// Data that no other call takes.
    fn of_unsound_data(&mut self) {
        let more = [0, 132, 130, 134, 1, 133, 0, 9, 9, 9];
        self.data("too many bins", 130, &more, &[(4, 0, Some([1, 1, 1, 0, 9])), (6, 0, None), (4, 2, Some([1, 0, 9, 9, 9]))]);
        self.data("data that opens above V", 130, &[131, 3, 135, 4], &[(0, 0, None), (1, 0, Some([3; 5])), (1, 1, Some([3, 3, 3, 3, 4]))]);
        self.data("one octet", 130, &[3], &[(0, 0, None), (1, 0, None)]);
        let records = [(0, 0, Some([3; 5])), (0, 1, Some([3, 3, 3, 3, 4])), (0, 2, None), (4, 0, None)];
        self.data("zero digits", 10, &[3, 15, 11, 11, 4, 11], &records);
        // the second digit weighs 245: 736 bins
        let records = [(0, 0, Some([3; 5])), (0, 733, Some([3, 3, 3, 4, 4])), (0, 734, None), (0, 736, None)];
        self.data("a second digit", 10, &[3, 11, 14, 11, 4, 11, 11, 4], &records);
    }

    /// Run lengths about the greatest record, and past every machine number.
    fn of_long_runs(&mut self) {
        // base 3: twenty digits of 2 make 3^20 = 3,486,784,401
        let run = [vec![7], vec![255; 20]].concat();
        let last = 3_486_784_400;
        self.data("3^20 bins", 252, &run, &[(0, last - 4, Some([7; 5])), (0, last - 3, None), (0, last, None), (0, last + 1, None)]);
        let followed = [&run[..], &[8, 9, 10, 11]].concat();
        self.data("3^20 bins and more", 252, &followed, &[(0, last, Some([7, 8, 9, 10, 11])), (0, last + 1, None), (0, u32::MAX, None)]);
        let greatest = u32::MAX;
        let ends: [(&str, u128); 5] =
            [("2^32 - 1", (1 << 32) - 1), ("2^32", 1 << 32), ("2^32 + 1", (1 << 32) + 1), ("2^64 + 2", (1 << 64) + 2), ("2^127", 1 << 127)];
        // what the greatest two records leave of each, 5 for five and more
        let left = [[1, 0], [2, 1], [3, 2], [5, 5], [5, 5]];
        let bins = |left: usize| (left > 0).then(|| std::array::from_fn(|bin| if bin < left { 7 } else { 8 }));
        for v in [8, 9, 100, 251, 252] {
            for ((name, length), [one_less, most]) in ends.into_iter().zip(left) {
                let data = [long_run(7, length - 1, v), vec![8; 4]].concat();
                let records = [(0, 0, Some([7; 5])), (0, greatest - 1, bins(one_less)), (0, greatest, bins(most))];
                self.data(&format!("{name} bins, V {v}"), v, &data, &records);
            }
            let endless = [vec![7], vec![255; 10_000]].concat();
            self.data(&format!("digits on and on, V {v}"), v, &endless, &[(0, 0, Some([7; 5])), (0, greatest, Some([7; 5])), (1, 0, None)]);
            let nothing = [vec![7], vec![v + 1; 10_000]].concat();
            self.data(&format!("zero digits on and on, V {v}"), v, &nothing, &[(0, 0, None), (0, 1, None), (0, greatest, None)]);
        }
    }

    /// Another cut's data is not looked at, but its section 7 is.
    fn of_other_cuts(&mut self) {
        let good = CutPlan::of_levels(2, 2, &[1, 2, 3, 4]);
        let spoiled = CutPlan::of_data(2, 2, 4, vec![9]);
        let file = Plan::new(Product::Velocity, vec![spoiled.clone(), good.clone(), spoiled]).file();
        let mut empty = Plan::new(Product::Velocity, vec![good.clone(), good]);
        empty.cuts[1].data.clear();
        let (too_short, end) = (empty.file(), empty.file().len() - 4 - 5);
        let mut add = |name: &str, file: &Vec<u8>, cut, offset, answer| {
            let (name, record) = (name.into(), Record { offset, before: 0 });
            self.0.push(Case { name, file: file.clone(), cut, ray: 0, record, room: 2, answer });
        };
        add("data spoiled in both other cuts", &file, 1, 2, Ok(vec![3, 4]));
        add("data spoiled in the third cut", &file, 2, 0, Err((13, file.len() - 4 - 6)));
        add("a later section 7 of 5 octets", &too_short, 0, 0, Err((4, end)));
    }
}

/// Every case of the calls by a record.
pub fn all() -> Vec<Case> {
    let mut cases = Cases::default();
    cases.of_the_sample();
    cases.of_unsound_data();
    cases.of_long_runs();
    cases.of_other_cuts();
    cases.0
}

/// Indexes.
pub fn built() -> Vec<Built> {
    let file = |bins, rays, v, data: &[u8]| Plan::new(Product::Velocity, vec![CutPlan::of_data(bins, rays, v, data.to_vec())]).file();
    vec![
        Built { name: "the document's sample", file: document_sample().file(), records: vec![(0, 0), (2, 3)] },
        Built { name: "one run of many rays", file: file(3, 4, 7, &[5, 19]), records: vec![(0, 0), (0, 3), (0, 6), (0, 9)] },
        Built { name: "a run for each ray", file: file(3, 3, 7, &[5, 10, 5, 10, 8, 6, 10]), records: vec![(0, 0), (2, 0), (5, 0)] },
        Built { name: "one bin for each ray", file: file(1, 4, 7, &[5, 5, 9, 7]), records: vec![(0, 0), (1, 0), (1, 1), (3, 0)] },
        Built { name: "one ray", file: file(4, 1, 7, &[1, 2, 3, 4]), records: vec![(0, 0)] },
        Built { name: "a tail of zero digits", file: file(2, 2, 1, &[0, 3, 2, 2, 2, 1, 3]), records: vec![(0, 0), (5, 0)] },
    ]
}
