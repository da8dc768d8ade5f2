//! Files with the verdict that the rules give each, said by hand: every named field one below, at and one past each end
//! of its range, every length one off, the order of sections, the order of checks, the limits.
use crate::frame::{GREATEST_FILE, MOST_CUTS};
use crate::maker::{assemble, set_total, CutPlan, Plan, Section};
use crate::published::Product;

pub struct Case {
    pub name: String,
    pub file: Vec<u8>,
    /// the refusal's number and place, or none where the file is accepted
    pub verdict: Option<(u32, usize)>,
}

/// A field of a section, values inside its rule and values outside.
pub(crate) struct Field {
    section: u8,
    first: usize,
    width: usize,
    inside: &'static [u64],
    outside: &'static [u64],
}

pub(crate) const fn field(section: u8, first: usize, width: usize, inside: &'static [u64], outside: &'static [u64]) -> Field {
    Field { section, first, width, inside, outside }
}

/// The sign of a number of two and of four octets.
pub(crate) const MINUS16: u64 = 1 << 15;
pub(crate) const MINUS32: u64 = 1 << 31;
pub(crate) const ONES16: u64 = 0xFFFF;
pub(crate) const ONES32: u64 = 0xFFFF_FFFF;

/// All fields whose rule stands alone and is that of both formats.
pub(crate) const SHARED_FIELDS: [Field; 20] = [
    field(1, 6, 2, &[34], &[0, 33, 35, ONES16]),
    field(1, 8, 2, &[0], &[1, 256, ONES16]),
    field(1, 10, 2, &[0, ONES16], &[]),
    field(1, 12, 1, &[3], &[2, 4, 255]),
    field(1, 13, 2, &[1000, 9999], &[0, 999, 10000, ONES16]),
    field(1, 15, 1, &[1, 12], &[0, 13, 255]),
    field(1, 16, 1, &[1, 31], &[0, 32, 255]),
    field(1, 17, 1, &[0, 23], &[24, 255]),
    field(1, 18, 1, &[0, 59], &[60, 255]),
    field(1, 19, 1, &[0, 59], &[60, 255]),
    field(1, 20, 1, &[0], &[1, 255]),
    field(1, 21, 1, &[7], &[6, 8, 255]),
    field(3, 6, 1, &[0], &[1, 255]),
    field(3, 11, 1, &[0], &[1, 255]),
    field(3, 12, 1, &[0], &[1, 255]),
    field(3, 23, 4, &[0, 90_000_000, MINUS32, MINUS32 + 90_000_000], &[90_000_001, MINUS32 - 1, MINUS32 + 90_000_001, ONES32]),
    field(3, 27, 4, &[0, 360_000_000], &[360_000_001, MINUS32, ONES32]),
    field(3, 31, 4, &[1, 50000, ONES32], &[0]),
    field(3, 35, 4, &[0, 1, ONES32], &[]),
    field(6, 6, 1, &[255], &[0, 254]),
];

/// Those of the base format alone.
const FIELDS: [Field; 18] = [
    field(3, 13, 2, &[50120], &[0, 50119, 50121, ONES16]),
    field(3, 39, 1, &[0], &[1, 255]),
    field(3, 40, 2, &[0, 36000], &[36001, ONES16]),
    field(4, 6, 2, &[0], &[1, 256, ONES16]),
    field(4, 8, 2, &[51022], &[0, 51021, 51023, ONES16]),
    field(4, 10, 1, &[15], &[14, 16, 255]),
    field(4, 11, 1, &[1], &[0, 3, 255]),
    field(4, 12, 1, &[8], &[7, 9, 255]),
    field(4, 13, 1, &[1], &[0, 2, 255]),
    field(4, 14, 1, &[13], &[12, 14, 255]),
    field(4, 15, 8, &[0, u64::MAX], &[]),
    field(4, 29, 2, &[0, ONES16], &[]),
    field(4, 38, 1, &[0, 1, 2, 255], &[3, 128, 254]),
    field(4, 42, 2, &[0, 9000, MINUS16, MINUS16 + 9000, ONES16], &[9001, MINUS16 - 1, MINUS16 + 9001, ONES16 - 1]),
    field(4, 61, 4, &[0, ONES32], &[]),
    field(5, 10, 2, &[200], &[0, 199, 201, ONES16]),
    field(5, 12, 1, &[8], &[7, 9, 255]),
    field(5, 17, 1, &[2], &[1, 3, 255]),
];

/// The place of section `index` in the file of these sections.
fn place_of(sections: &[Section], index: usize) -> usize {
    16 + sections[..index].iter().map(|s| s.octets.len()).sum::<usize>()
}

fn index_of(sections: &[Section], number: u8) -> usize {
    sections.iter().position(|s| s.number() == number).expect("a section of this number")
}

#[derive(Default)]
pub(crate) struct Cases(pub Vec<Case>);

impl Cases {
    pub fn add(&mut self, name: impl Into<String>, file: Vec<u8>, verdict: Option<(u32, usize)>) {
        self.0.push(Case { name: name.into(), file, verdict });
    }

    /// A case for a change to the first section of a number: accepted, or refused at that section.
    pub fn change(
        &mut self,
        name: impl Into<String>,
        sound: &[Section],
        number: u8,
        refusal: Option<u32>,
        change: impl FnOnce(&mut Section),
    ) {
        let mut sections = sound.to_vec();
        let at = index_of(&sections, number);
        let place = place_of(&sections, at);
        change(&mut sections[at]);
        self.add(name, assemble(&sections), refusal.map(|n| (n, place)));
    }

    /// A case for these sections: accepted, or refused at section `at` of them.
    pub fn sections(&mut self, name: impl Into<String>, sections: &[Section], refusal: Option<(u32, usize)>) {
        self.add(name, assemble(sections), refusal.map(|(number, at)| (number, place_of(sections, at))));
    }

    /// A case for these sections: refused by 8, at fault this octet of the data of section `at` of them, counted from 0.
    fn data(&mut self, name: impl Into<String>, sections: &[Section], at: usize, octet: usize) {
        assert_eq!(sections[at].number(), 7);
        self.add(name, assemble(sections), Some((8, place_of(sections, at) + 5 + octet)));
    }

    /// The fields' values inside their rules are accepted, those outside refused by this number.
    pub fn fields(&mut self, sound: &[Section], fields: &[Field], number: u32) {
        for f in fields {
            let both = [(f.inside, None), (f.outside, Some(number))];
            for (value, refusal) in both.iter().flat_map(|(values, refusal)| values.iter().map(move |v| (*v, *refusal))) {
                let name = format!("section {} octet {} is {value}", f.section, f.first);
                self.change(name, sound, f.section, refusal, |s| s.put(f.first, f.width, value));
            }
        }
    }

    /// Sections whose length has one rule, off by a little.
    pub fn lengths(&mut self, sound: &[Section], numbers: &[u8]) {
        for number in numbers {
            for (less, more) in [(1, 0), (0, 1), (0, 4)] {
                let name = format!("section {number} with {less} octets less, {more} more");
                self.change(name, sound, *number, Some(4), |s| s.resize(s.octets.len() - less + more));
            }
        }
    }

    /// Lengths that no section can have where it stands.
    pub fn lengths_that_do_not_fit(&mut self, sound: &[Section]) {
        for number in [1, 3, 4, 5, 6, 7] {
            for length in [0, 4, ONES32, 1 << 31] {
                self.change(format!("section {number} said to be {length} long"), sound, number, Some(3), |s| s.put(1, 4, length));
            }
        }
        // section 7 is the last: one octet more reaches into the last four
        self.change("section 7 said to be one longer", sound, 7, Some(3), |s| s.put(1, 4, s.octets.len() as u64 + 1));
    }

    fn lengths_of_sections_5_and_7(&mut self, sound: &[Section]) {
        for len in [5, 16, 17, 520, 522] {
            self.change(format!("section 5 of {len} octets"), sound, 5, Some(4), |s| s.resize(len));
        }
        self.change("section 7 of 5 octets", sound, 7, Some(4), |s| s.resize(5));
        // one octet of data, one bin of ten
        let mut sections = sound.to_vec();
        sections[5].resize(6);
        self.data("section 7 of 6 octets", &sections, 5, 1);
    }

    /// A grid past its ends, with the count of points that it would have.
    pub fn grids_past_the_ends(&mut self, sound: &[Section]) {
        for (bins, rays) in [(0, 1), (1, 0), (2049, 1), (1, 1025), (65536, 65536), (ONES32, 1)] {
            self.change(format!("{bins} bins of {rays} rays"), sound, 3, Some(5), |s| {
                s.put(15, 4, bins);
                s.put(19, 4, rays);
                s.put(7, 4, bins * rays);
            });
        }
    }

    /// Counts that are not the ten of this file.
    pub fn counts_of_points(&mut self, sound: &[Section]) {
        for points in [0, 9, 11, ONES32] {
            self.change(format!("section 3 says {points} points"), sound, 3, Some(6), |s| s.put(7, 4, points));
            self.change(format!("section 5 says {points} points"), sound, 5, Some(6), |s| s.put(6, 4, points));
        }
    }

    fn points(&mut self) {
        for (bins, rays) in [(1, 1), (1, 1024), (2048, 1), (2048, 1024)] {
            let plan = Plan::new(Product::Reflectivity, vec![CutPlan::of_levels(bins, rays, &vec![0; bins * rays])]);
            self.add(format!("{bins} bins of {rays} rays"), plan.file(), None);
        }
        let plan = Plan::new(Product::Reflectivity, vec![CutPlan::of_levels(1, 1, &[0])]);
        self.grids_past_the_ends(&plan.sections());
        let plan = Plan::new(Product::Velocity, vec![CutPlan::of_levels(5, 2, &[3; 10])]);
        let mut sections = plan.sections();
        self.counts_of_points(&sections);
        sections[1].put(15, 4, 2);
        sections[1].put(19, 4, 5);
        self.sections("bins and rays exchanged", &sections, Some((4, 2)));
    }

    fn values(&mut self) {
        for product in Product::BOTH {
            let m = u64::from(product.levels());
            let levels: Vec<u8> = (0..=product.levels() as u8).collect();
            let sound = Plan::new(product, vec![CutPlan::of_levels(levels.len(), 1, &levels)]).sections();
            self.sections(format!("all levels of {product:?}"), &sound, None);
            for level in 1..=product.levels() as usize {
                for (from, change) in [(16, 0x80), (16, 1), (17, 1), (17, 0x80)] {
                    self.change(format!("value of level {level}, bit {change}"), &sound, 5, Some(7), |s| {
                        s.octets[from + 2 * level - 1] ^= change
                    });
                }
            }
            self.change("minus zero in the table", &sound, 5, Some(7), |s| s.put(18, 2, MINUS16));
            for other in [m - 1, m + 1] {
                self.change(format!("M is {other}, as the length"), &sound, 5, Some(5), |s| {
                    s.resize(17 + 2 * other as usize);
                    s.put(13, 2, 0);
                    s.put(15, 2, other);
                });
                self.change(format!("M is {other}, not as the length"), &sound, 5, Some(4), |s| s.put(15, 2, other));
            }
            // an octet above V opens no run; V need not occur
            for v in [0, 1, 100, m] {
                let mut cut = CutPlan::of_data(1, 1, v as u16, vec![0]);
                self.add(format!("V is {v} and does not occur"), Plan::new(product, vec![cut.clone()]).file(), None);
                cut.data = vec![v as u8 + 1];
                let sections = Plan::new(product, vec![cut]).sections();
                self.data(format!("V is {v} and the data opens above it"), &sections, 5, 0);
            }
        }
    }

    /// V about the greatest in the first cut, and in a later one whose section 5 says another V than the first's. The data of that cut
    /// gives its six bins under every V, or under none.
    fn greatest_levels(&mut self) {
        let sound = CutPlan::of_levels(3, 2, &[9, 9, 1, 0, 0, 3]);
        for product in Product::BOTH {
            let m = product.levels();
            for v in about_the_greatest(product) {
                // one octet for each bin; a bin too few, one too many, and octets that are digits under all V but 255; each with its
                // octet at fault
                for (data, at_fault) in [(vec![0; 6], None), (vec![0; 5], Some(5)), (vec![0; 7], Some(6)), (vec![255; 5], Some(0))] {
                    for (cut, own_grid, section_5) in [(0, true, 3), (1, false, 7), (1, true, 8)] {
                        let name = format!("{product:?}, V of cut {cut} is {v}, data {data:?}");
                        let mut cuts = vec![sound.clone(); 2];
                        cuts[1].own_grid = own_grid;
                        (cuts[cut].v, cuts[cut].data) = (v, data.clone());
                        let sections = Plan::new(product, cuts).sections();
                        match at_fault {
                            _ if v > m => self.sections(name, &sections, Some((5, section_5))),
                            Some(octet) => self.data(name, &sections, section_5 + 2, octet),
                            None => self.sections(name, &sections, None),
                        }
                    }
                }
            }
        }
    }

    /// The second cut's product and site are those of the first.
    fn later_cuts(&mut self) {
        let mut cut = CutPlan::of_levels(3, 2, &[1; 6]);
        let own = cut.clone();
        cut.own_grid = false;
        let plan = Plan::new(Product::Reflectivity, vec![own.clone(), cut.clone(), own, cut]);
        let sections = plan.sections();
        self.sections("cuts with and without a section 3", &sections, None);
        for (at, first, width, value) in [(6, 11, 1, 2), (6, 29, 2, 0), (11, 11, 1, 2), (11, 29, 2, 47696), (15, 29, 2, ONES16)] {
            let mut sections = sections.clone();
            assert_eq!(sections[at].number(), 4);
            sections[at].put(first, width, value);
            self.sections(format!("section {at} octet {first} is {value}"), &sections, Some((5, at)));
        }
        // a later cut's own section 3 may say another grid
        let wide = CutPlan::of_levels(7, 1, &[1; 7]);
        let mut plan = Plan::new(Product::Velocity, vec![plan.cuts[0].clone(), wide]);
        self.add("two grids", plan.file(), None);
        plan.cuts.swap(0, 1);
        self.add("two grids, the other first", plan.file(), None);
        plan.cuts[1].own_grid = false;
        let sections = plan.sections();
        self.sections("a cut under another's grid", &sections, Some((4, 6)));
    }

    /// The order of sections, on those of a file of one cut.
    pub fn orders(&mut self, sound: &[Section]) {
        let [one, three, four, five, six, seven] = sound else { unreachable!("one cut") };
        self.add("no section", assemble(&[]), Some((3, 16)));
        for (name, order, at) in [
            ("section 1 alone", vec![one], 1),
            ("no section 1", vec![three, four, five, six, seven], 0),
            ("two sections 1", vec![one, one, three, four, five, six, seven], 1),
            ("no section 3", vec![one, four, five, six, seven], 1),
            ("two sections 3", vec![one, three, three, four, five, six, seven], 2),
            ("two sections 4", vec![one, three, four, four, five, six, seven], 3),
            ("two sections 5", vec![one, three, four, five, five, six, seven], 4),
            ("two sections 6", vec![one, three, four, five, six, six, seven], 5),
            ("two sections 7", vec![one, three, four, five, six, seven, seven], 6),
            ("no section 4", vec![one, three, five, six, seven], 2),
            ("no section 5", vec![one, three, four, six, seven], 3),
            ("no section 6", vec![one, three, four, five, seven], 4),
            ("no section 7", vec![one, three, four, five, six], 5),
            ("a section 1 at the end", vec![one, three, four, five, six, seven, one], 6),
            ("a section 3 at the end", vec![one, three, four, five, six, seven, three], 7),
            ("a section 5 after 7", vec![one, three, four, five, six, seven, five, six, seven], 6),
        ] {
            let order: Vec<Section> = order.into_iter().cloned().collect();
            self.sections(name, &order, Some((3, at)));
        }
        for number in [0, 2, 8, 9, 255] {
            let mut sections = sound.to_vec();
            for at in 0..sections.len() {
                let kept = sections[at].number();
                sections[at].put(5, 1, number);
                self.sections(format!("section {at} numbered {number}"), &sections, Some((3, at)));
                sections[at].put(5, 1, kept.into());
            }
        }
        let sound = assemble(sound);
        let end = sound.len() - 4;
        for at in end..sound.len() {
            let mut file = sound.clone();
            file[at] ^= 1;
            self.add("a wrong section 8", file, Some((3, end)));
        }
        for left in 1..=4 {
            let mut file = sound.clone();
            file.splice(end..end, vec![0; left]);
            set_total(&mut file);
            self.add(format!("{left} octets before the last four"), file, Some((3, end)));
        }
        let mut file = sound.clone();
        file.splice(end..end, [0, 0, 0, 5, 3]);
        set_total(&mut file);
        self.add("a section 3 of five octets before the last four", file, Some((4, end)));
    }

    /// Where one section breaks several rules, the first by the order 3, 9, 4, 5, 6, 7, 8 counts.
    fn order_of_checks(&mut self) {
        let sound = Plan::new(Product::Reflectivity, vec![CutPlan::of_levels(2, 1, &[1, 2])]).sections();
        self.change("3 before 4", &sound, 3, Some(3), |s| {
            s.resize(42);
            s.put(5, 1, 4);
        });
        self.change("4 before 5", &sound, 3, Some(4), |s| {
            s.put(6, 1, 1);
            s.resize(42);
        });
        self.change("5 before 6", &sound, 3, Some(5), |s| {
            s.put(7, 4, 0);
            s.put(40, 2, 36001);
        });
        self.change("5 before 6 and 7", &sound, 5, Some(5), |s| {
            s.put(6, 4, 0);
            s.put(18, 2, 1);
            s.put(17, 1, 1);
        });
        self.change("6 before 7", &sound, 5, Some(6), |s| {
            s.put(6, 4, 0);
            s.put(18, 2, 1);
        });
    }

    /// Data that does not give its cut's bins, with the place of the octet at fault by the lengths of what stands ahead of it: in the only
    /// cut of a file, in the first of two, and in the second with a section 3 of its own and without.
    fn octets_at_fault(&mut self) {
        let sound = CutPlan::of_data(5, 2, 130, vec![0, 132, 130, 134, 1, 133, 0]);
        let under_the_first = CutPlan { own_grid: false, ..sound.clone() };
        // behind the sound cut's seven octets of data, sections 3, 4, 5 and 6 again, and a section 7's five
        let second_data = FIRST_DATA + 7 + 41 + 68 + 521 + 6 + 5;
        for (name, data, octet) in faults() {
            let spoiled = |cut: &CutPlan| CutPlan { data: data.clone(), ..cut.clone() };
            for (place, cuts, first_data) in [
                ("the only cut", vec![spoiled(&sound)], FIRST_DATA),
                ("the first of two cuts", vec![spoiled(&sound), sound.clone()], FIRST_DATA),
                ("the second cut", vec![sound.clone(), spoiled(&sound)], second_data),
                ("the second cut under the first's section 3", vec![sound.clone(), spoiled(&under_the_first)], second_data - 41),
                // the first that is spoiled counts
                ("both cuts", vec![spoiled(&sound), spoiled(&sound)], FIRST_DATA),
            ] {
                let file = Plan::new(Product::Reflectivity, cuts).file();
                self.add(format!("{name}, {place}"), file, Some((8, first_data + octet)));
            }
        }
        // one bin wanted: a section 4 of one ray has four octets less
        let one_bin = CutPlan::of_data(1, 1, 130, vec![0, 131, 131, 132]);
        self.add("one bin, zero digits and a digit", Plan::new(Product::Reflectivity, vec![one_bin]).file(), Some((8, FIRST_DATA - 4 + 3)));
        // one past the data stands a section of a number that is not allowed there
        let short = CutPlan { data: vec![0, 139], ..sound.clone() };
        let mut sections = Plan::new(Product::Reflectivity, vec![short, sound]).sections();
        sections[6].put(5, 1, 9);
        self.add("8 before 3 of the next section", assemble(&sections), Some((8, FIRST_DATA + 2)));
    }

    /// The ends of a file's length, and section 0.
    pub fn ends(&mut self, sound: Vec<u8>) {
        for len in [0, 19] {
            self.add(format!("{len} octets"), sound[..len].to_vec(), Some((1, 0)));
        }
        self.add("20 octets", sound[..20].to_vec(), Some((2, 0)));
        self.add("20 octets of a file of no section", assemble(&[]), Some((3, 16)));
        for at in (0..4).chain(6..16) {
            let mut file = sound.clone();
            file[at] ^= 1;
            self.add(format!("section 0 octet {} changed", at + 1), file, Some((2, 0)));
        }
        let mut file = sound;
        file[4..6].copy_from_slice(&[0, 0]);
        self.add("section 0 octets 5 and 6 are not named", file, None);
    }

    /// 64 cuts and 65, of the sections of a file of one cut.
    pub fn many_cuts(&mut self, one: &[Section]) {
        let cuts = |count| -> Vec<Section> { one[..1].iter().chain(one[1..].iter().cycle().take(5 * count)).cloned().collect() };
        let past = 1 + 5 * MOST_CUTS;
        self.sections("64 cuts", &cuts(MOST_CUTS), None);
        let mut sections = cuts(MOST_CUTS + 1);
        self.sections("65 cuts", &sections, Some((9, past)));
        let mut spoiled = sections.clone();
        spoiled[past].resize(40);
        self.sections("a 65th cut: 9 before 4", &spoiled, Some((9, past)));
        spoiled[past].put(5, 1, 5);
        self.sections("a 65th cut: 3 before 9", &spoiled, Some((3, past)));
        sections.remove(past);
        self.sections("65 cuts, the last with no section 3", &sections, Some((9, past)));
    }

    /// Files at the limit of 8,388,608 octets and one past it: the data ends in a tail of zero digits.
    fn largest(&mut self) {
        let file_of = |tail: usize| {
            let data = [vec![1, 3], vec![2; tail]].concat();
            Plan::new(Product::Velocity, vec![CutPlan::of_data(2, 1, 1, data)]).file()
        };
        let least = file_of(0).len();
        self.add("8,388,608 octets", file_of(GREATEST_FILE - least), None);
        self.add("8,388,609 octets", file_of(GREATEST_FILE - least + 1), Some((1, 0)));
    }
}

/// Where the data of the first cut begins in a reflectivity file of two rays: behind sections 0, 1, 3, 4, 5 and 6 of 16, 21, 41, 68, 521
/// and 6 octets, and the five that a section 7 has ahead of it.
const FIRST_DATA: usize = 678;

/// Data that does not give ten bins under V 130, with the octet at fault, counted from 0 in the data. 131 is the digit 0, 141 the digit
/// 10; a run's second digit weighs 125.
fn faults() -> Vec<(&'static str, Vec<u8>, usize)> {
    let zeros = [131; 100_000];
    vec![
        ("a zero digit alone", vec![131], 0),
        ("a digit ahead of ten bins", vec![132, 0, 140], 0),
        ("zero digits ahead of ten bins", vec![131, 131, 0, 140], 0),
        ("digits alone", vec![255, 131, 255], 0),
        ("passed by a digit that is last", vec![0, 141], 1),
        ("passed by a digit and more follows", vec![0, 141, 131, 1, 131], 1),
        ("passed by a digit in the midst", vec![0, 132, 130, 140, 1, 133, 0], 3),
        ("passed by a second digit", vec![0, 131, 132, 9], 2),
        ("passed by the first of two digits", vec![0, 255, 255, 9], 1),
        ("passed by a level that is last", vec![0, 140, 7], 2),
        ("passed by a level and more follows", vec![0, 140, 7, 131, 1, 133], 2),
        ("eleven levels", vec![1, 2, 3, 4, 5, 6, 7, 8, 9, 10, 11], 10),
        ("zero digits, then passed by a digit", vec![0, 131, 131, 131, 132], 4),
        ("zero digits on both sides of the digit that passes", vec![0, 131, 131, 132, 131, 131], 3),
        ("ten bins and zero digits, then passed by a digit", vec![0, 140, 131, 131, 132], 4),
        ("ten bins and zero digits, then passed by a level", vec![0, 140, 131, 131, 7], 4),
        ("zero digits on both sides of the level that passes", vec![0, 140, 131, 7, 131, 131], 3),
        ("passed by a digit behind many zeros", [&[0], &zeros[..], &[132]].concat(), 100_001),
        ("passed by a level behind many zeros", [&[0, 140], &zeros[..], &[7]].concat(), 100_002),
        ("passed by a digit, and many zeros", [&[0, 141], &zeros[..]].concat(), 1),
        ("one bin", vec![0], 1),
        ("nine bins", vec![0, 139], 2),
        ("nine levels", vec![1, 2, 3, 4, 5, 6, 7, 8, 9], 9),
        ("nine bins and zero digits", vec![0, 139, 131, 131, 131], 5),
        ("nine bins and many zeros", [&[0, 139], &zeros[..]].concat(), 100_002),
    ]
}

/// V at M, the greatest that section 5 may say, past it, and past what an octet holds.
pub fn about_the_greatest(product: Product) -> [u16; 8] {
    let m = product.levels();
    [m, m + 1, 252, 253, 254, 255, 256, u16::MAX]
}

/// Those of [`all`] where section 5 says such a V.
pub fn greatest_levels() -> Vec<Case> {
    let mut cases = Cases::default();
    cases.greatest_levels();
    cases.0
}

/// Those where data does not give its cut's bins, each with the place of the octet at fault.
pub fn octets_at_fault() -> Vec<Case> {
    let mut cases = Cases::default();
    cases.octets_at_fault();
    cases.0
}

/// Every case.
pub fn all() -> Vec<Case> {
    let of_levels = |product, bins, rays, levels: &[u8]| Plan::new(product, vec![CutPlan::of_levels(bins, rays, levels)]).sections();
    let small = of_levels(Product::Reflectivity, 5, 2, &[0, 0, 130, 130, 130, 130, 1, 1, 1, 0]);
    let two_bins = of_levels(Product::Reflectivity, 2, 1, &[1, 2]);
    let mut cases = Cases::default();
    cases.fields(&small, &SHARED_FIELDS, 5);
    cases.fields(&small, &FIELDS, 5);
    cases.lengths(&small, &[1, 3, 4, 6]);
    cases.lengths_of_sections_5_and_7(&small);
    cases.lengths_that_do_not_fit(&small);
    cases.points();
    cases.values();
    cases.greatest_levels();
    cases.later_cuts();
    cases.orders(&two_bins);
    cases.order_of_checks();
    cases.octets_at_fault();
    cases.ends(assemble(&of_levels(Product::Velocity, 2, 1, &[1, 2])));
    cases.many_cuts(&two_bins);
    cases.largest();
    cases.0
}
