//! Stretches and the house form against the independent reader.
use differential::compare::Compared;
use differential::made::FAR;
use differential::ours;
use reference::maker::{document_sample, CutPlan, Plan};
use reference::numbers::Numbers;
use reference::published::Product;
use reference::runs::MOST_LEVELS;
use reference::shapes::{random_cut, random_plan};
use reference::spoil::spoil;
use reference::stretches::{ENTRY_WORDS, HOUSE_THRESHOLD};
use reference::Refusal;

const ENDS: [i32; 7] = [-32767, -7000, -1, 0, 1, 8016, 32767];

/// All points of the grid, legal or just past it, in every room from none to more than enough.
fn all_points_and_rooms(compared: &Compared, cut: usize, t: i32) {
    let grid = compared.verdict.as_ref().expect("a sound file").cuts[cut].grid;
    let enough = ENTRY_WORDS * (compared.list(cut, t).len() + 1) + 1;
    let points = (0..=grid.rays + 1).flat_map(|ray| (0..=grid.bins + 1).map(move |bin| (ray, bin)));
    let [one, two, three] = [1, 2, 3].map(|entries| entries * ENTRY_WORDS);
    let rooms = [0, one - 1, one, one + 1, two - 1, two, three - 1, three, enough];
    let calls = points.flat_map(|point| rooms.map(|room| (point, room)));
    compared.portions(cut, t, calls);
}

/// The list fetched in portions of every room from one entry's up.
fn every_room(compared: &Compared, cut: usize, t: i32) {
    for room in ENTRY_WORDS..=ENTRY_WORDS * (compared.list(cut, t).len() + 1) {
        compared.fetched(cut, t, room);
    }
}

/// T comes in with 64 bits: one that fewer would hold as another threshold is refused, after the file's own refusals, and nothing
/// lent changes.
#[test]
fn a_threshold_of_more_bits_is_no_other_threshold() {
    let file = document_sample().file();
    let house = i64::from(HOUSE_THRESHOLD);
    for t in [32768, -32768, (1 << 16) + house, (1 << 32) + house, house - (1 << 32), i64::MIN, i64::MAX] {
        let mut words = [7; 40];
        let refused = |number| Err(Refusal { number, place: 0 });
        assert_eq!(ours::stretches(&file, 0, t, (0, 0), &mut words), refused(10), "T {t}");
        assert_eq!(ours::stretches(&file[1..], 0, t, (0, 0), &mut words), refused(2), "T {t}");
        assert_eq!(words, [7; 40], "T {t}");
    }
}

#[test]
fn the_documents_sample() {
    let file = document_sample().file();
    let compared = Compared::new(&file);
    for t in ENDS.into_iter().chain([HOUSE_THRESHOLD, 4112, 4113, 4111]) {
        all_points_and_rooms(&compared, 0, t);
        every_room(&compared, 0, t);
    }
}

#[test]
fn all_points_of_small_grids() {
    let mut n = Numbers::new(51);
    for _ in 0..250 {
        let (bins, rays) = n.one_of(&[(1, 1), (4, 3), (7, 2), (1, 7), (9, 1)]);
        let file = random_plan(2, bins, rays, &mut n).file();
        let compared = Compared::new(&file);
        for cut in 0..compared.verdict.as_ref().unwrap().cuts.len() {
            let t = n.within(0, 17_000) as i32 - 8000;
            for t in [HOUSE_THRESHOLD, t] {
                all_points_and_rooms(&compared, cut, t);
                every_room(&compared, cut, t);
            }
        }
    }
}

/// Each published value, one below and one above, over a cut that holds every level.
#[test]
fn every_threshold_that_matters() {
    let mut n = Numbers::new(52);
    for product in Product::BOTH {
        let most = product.levels() as u8;
        let mut levels: Vec<u8> = (0..=most).chain((0..=most).rev()).collect();
        levels.extend(n.levels(600 - levels.len(), 0, most, 3));
        let file = Plan::new(product, vec![CutPlan::of_levels(40, 15, &levels)]).file();
        let compared = Compared::new(&file);
        for value in (1..=most).filter_map(|level| product.value(level)) {
            for t in [value - 1, value, value + 1] {
                compared.fetched(0, t, 4000);
            }
        }
        for t in ENDS.into_iter().chain([i32::MIN, -32768, 32768, i32::MAX, 65_535, -65_536]) {
            compared.stretches(0, t, (0, 0), 4000);
        }
    }
}

/// Arguments at the ends of their types, with room too short as well: 10 comes first.
#[test]
fn arguments_past_every_edge() {
    let file = document_sample().file();
    let compared = Compared::new(&file);
    for cut in FAR {
        for t in [i32::MIN, -32768, -32767, 0, 32767, 32768, i32::MAX] {
            for ray in FAR {
                for bin in FAR {
                    compared.stretches(cut, t, (ray, bin), ENTRY_WORDS - 1);
                    compared.stretches(cut, t, (ray, bin), ENTRY_WORDS);
                }
            }
        }
    }
}

#[test]
fn whole_lists_and_portions_of_made_files() {
    let mut n = Numbers::new(53);
    for _ in 0..600 {
        let (bins, rays) = n.one_of(&[(60, 20), (200, 3), (3, 100)]);
        let file = random_plan(3, bins, rays, &mut n).file();
        let compared = Compared::new(&file);
        for cut in 0..compared.verdict.as_ref().unwrap().cuts.len() {
            let t = n.within(0, 17_000) as i32 - 8000;
            let room = n.within(10 * ENTRY_WORDS, 100 * ENTRY_WORDS);
            compared.fetched(cut, t, room);
            compared.fetched(cut, HOUSE_THRESHOLD, 100_000);
        }
    }
}

/// The greatest grids: a blind cut, noise, and runs across many rays.
#[test]
fn grids_at_the_ends() {
    let mut n = Numbers::new(54);
    let blind = CutPlan::of_levels(2048, 1024, &vec![0; MOST_LEVELS]);
    let noise = CutPlan::of_levels(2048, 1024, &n.levels(MOST_LEVELS, 0, 252, 2));
    let across = random_cut(2048, 1024, Product::Reflectivity, &mut n);
    let one_bin = random_cut(1, 1024, Product::Reflectivity, &mut n);
    let one_ray = random_cut(2048, 1, Product::Reflectivity, &mut n);
    let file = Plan::new(Product::Reflectivity, vec![blind, noise, across, one_bin, one_ray]).file();
    let compared = Compared::new(&file);
    for cut in 0..5 {
        compared.fetched(cut, HOUSE_THRESHOLD, ENTRY_WORDS * MOST_LEVELS);
        compared.fetched(cut, HOUSE_THRESHOLD, 400_001);
        let one = ENTRY_WORDS;
        compared.portions(cut, 16, [((0, 0), one), ((1023, 0), 4000), ((1023, 2047), one), ((1024, 0), one)]);
    }
}

#[test]
fn spoiled_files_are_refused_with_nothing_changed() {
    let mut n = Numbers::new(55);
    for _ in 0..8000 {
        let mut file = random_plan(2, 6, 3, &mut n).file();
        spoil(&mut file, &mut n);
        let compared = Compared::new(&file);
        compared.stretches(n.below(3), n.below(9000) as i32 - 4000, (n.below(4), n.below(7)), n.below(8 * ENTRY_WORDS));
    }
}
