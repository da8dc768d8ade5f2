//! The differential tests as a fuzzer: `cargo run --release --bin fuzz -- --seconds 60 [--seed N]`. Every call, on sound and
//! spoiled files and on octets of any kind, with arguments also at the ends of their types. It stops at the first answer or
//! octet that differs, and names the round that it came in.
use differential::compare::{run_check, run_read, run_write, Compared};
use differential::{dual, ours};
use reference::cases::about_the_greatest;
use reference::dual::shapes as dual_shapes;
use reference::index::shapes::{random_record, random_unchecked_plan};
use reference::index::Record;
use reference::maker::{assemble, CutPlan, Plan, Section};
use reference::numbers::Numbers;
use reference::published::Product;
use reference::runs::{levels_of, GREATEST_LEVEL, MOST_LEVELS};
use reference::shapes::{pack_loosely, random_cut, random_plan};
use reference::spoil::{spoil, spoil_sections};
use reference::stretches::{ENTRY_WORDS, HOUSE_THRESHOLD};
use std::panic::{catch_unwind, resume_unwind};
use std::process::ExitCode;
use std::time::{Duration, Instant};

/// A number about `limit`, or at an end of its type.
fn argument(limit: usize, n: &mut Numbers) -> usize {
    match n.below(12) {
        0 => n.one_of(&[0, usize::MAX, usize::MAX - 1, 1 << 31, u32::MAX as usize, 1 << 32, (1 << 32) + 1, 1 << 63, isize::MAX as usize]),
        1 => n.word() as usize,
        2 => limit,
        3 => limit + 1,
        4 => limit.saturating_sub(1),
        _ => n.below(limit.max(1)),
    }
}

fn threshold(product: Product, n: &mut Numbers) -> i32 {
    match n.below(5) {
        0 => HOUSE_THRESHOLD,
        1 => n.one_of(&[i32::MIN, i32::MAX, -32768, -32767, 32767, 32768, 0, -1]),
        2 => n.word() as i32,
        3 => product.value(n.within(1, 251) as u8).unwrap_or(0) + n.below(3) as i32 - 1,
        _ => n.below(17_000) as i32 - 8500,
    }
}

/// Room about what is wanted.
fn room(wanted: usize, n: &mut Numbers) -> usize {
    match n.below(6) {
        0 => wanted.saturating_sub(1),
        1 => n.below(8),
        2 => wanted + n.below(20),
        _ => wanted,
    }
}

/// Octets that give these bins under V are no fewer than run write writes for them.
fn no_shorter(octets: &[u8], v: u8, bins: usize) {
    let mut levels = vec![0; bins];
    if ours::run_read(octets, v.into(), bins, &mut levels).is_ok() && levels.iter().all(|level| *level <= GREATEST_LEVEL) {
        let written = run_write(&levels, octets.len());
        assert!(written.is_ok(), "V {v}, {bins} bins in {} octets: {octets:?}", octets.len());
    }
}

fn runs(n: &mut Numbers) {
    let v = if n.once_in(4) { n.one_of(&[0, 1, 251, 252, 253, 254, 255]) } else { n.octet() };
    let octets = match n.below(3) {
        0 => {
            // of more than a block, which the scan takes at a time, now and then
            let most = n.one_of(&[60, 60, 60, 2000]);
            let len = n.below(most);
            n.octets(len)
        }
        _ => {
            let most = n.one_of(&[500, 500, 500, 6000]);
            let (len, longest) = (n.below(most), n.one_of(&[1, 4, 100, 500]));
            let levels = n.levels(len, 0, v, longest);
            if v < 254 {
                pack_loosely(&levels, v, n)
            } else {
                levels
            }
        }
    };
    let levels = |octets: &[u8]| levels_of(&reference::runs::runs(octets, v).unwrap_or_default());
    let bins = usize::try_from(levels(&octets)).unwrap_or(usize::MAX);
    let wanted = match n.below(6) {
        0 | 1 => argument(bins.min(MOST_LEVELS), n),
        // passed behind some of the octets
        2 => levels(&octets[..n.below(octets.len() + 1)]).min(MOST_LEVELS as u128) as usize,
        // too few
        3 => bins.saturating_add(n.within(1, 9)),
        _ => bins,
    };
    let _ = run_check(&octets, v, wanted);
    let _ = run_read(&octets, v, wanted, room(wanted.min(5000), n));
    if bins < 20_000 && v < 254 {
        no_shorter(&octets, v, bins);
    }
    let (len, high, longest) = (n.below(600), n.octet(), n.one_of(&[1, 3, 80, 600]));
    let levels = n.levels(len, 0, high, longest);
    let packed = reference::runs::encode(&levels.iter().map(|level| (*level).min(252)).collect::<Vec<_>>()).1;
    let _ = run_write(&levels, room(packed.len(), n));
}

fn file(n: &mut Numbers) -> Vec<u8> {
    let mut plan = match n.below(40) {
        0 => {
            let (bins, rays, product) = (n.within(1, 2048), n.within(1, 200), n.one_of(&Product::BOTH));
            Plan::new(product, vec![random_cut(bins, rays, product, n)])
        }
        1 => random_plan(66, 3, 3, n),
        2 => {
            let (len, v) = (n.below(40), n.within(0, 256) as u16);
            let data = n.octets(len);
            Plan::new(n.one_of(&Product::BOTH), vec![CutPlan::of_data(n.within(0, 40), n.within(0, 4), v, data)])
        }
        _ => {
            let (bins, rays) = n.one_of(&[(1, 1), (6, 4), (30, 10), (1, 30), (50, 1)]);
            // the octets that a spoiling changes are seldom those of section 7
            if n.once_in(3) {
                random_unchecked_plan(4, bins, rays, n)
            } else {
                random_plan(4, bins, rays, n)
            }
        }
    };
    if n.once_in(10) {
        let cut = n.below(plan.cuts.len());
        plan.cuts[cut].v = n.one_of(&about_the_greatest(plan.product));
    }
    spoiled_or_sound(&plan.sections(), n)
}

/// The file of these sections, or a spoiled one.
fn spoiled_or_sound(sections: &[Section], n: &mut Numbers) -> Vec<u8> {
    if n.once_in(5) {
        return spoil_sections(sections, n);
    }
    let mut file = assemble(sections);
    let spoilings = n.one_of(&[0, 0, 0, 1, 1, 2, 5]);
    for _ in 0..spoilings {
        if !file.is_empty() {
            spoil(&mut file, n);
        }
    }
    file
}

/// A dual-polarisation file, now and then of many cuts or of a great grid.
fn dual_file(n: &mut Numbers) -> Vec<u8> {
    let (cuts, bins, rays) = match n.below(40) {
        0 => (1, 2048, 200),
        1 => (66, 3, 3),
        _ => n.one_of(&[(4, 1, 1), (4, 6, 4), (4, 30, 10), (4, 1, 30), (4, 50, 1)]),
    };
    spoiled_or_sound(&dual_shapes::random_plan(cuts, bins, rays, n).sections(), n)
}

/// The dual-polarisation calls on a file of their format, or now and then of the base format, and two of the base format's.
fn dual_files(n: &mut Numbers) {
    let file = if n.once_in(8) { file(n) } else { dual_file(n) };
    let compared = dual::Compared::new(&file);
    compared.every_call();
    let cuts = compared.verdict.as_ref().map_or(1, |accepted| accepted.cuts.len());
    for _ in 0..16 {
        let cut = argument(cuts, n);
        let grid = compared.verdict.as_ref().ok().and_then(|accepted| accepted.cuts.get(cut)).map(|cut| cut.grid);
        let (bins, rays) = grid.map_or((4, 4), |grid| (grid.bins, grid.rays));
        compared.cut(cut);
        compared.bin_value(cut, argument(rays, n), argument(bins, n));
    }
    let compared = Compared::new(&file);
    let _ = compared.open();
    compared.cut(argument(cuts, n));
}

fn files(n: &mut Numbers) {
    let file = file(n);
    let compared = Compared::new(&file);
    let _ = compared.open();
    let cuts = compared.verdict.as_ref().map_or(1, |accepted| accepted.cuts.len());
    for _ in 0..8 {
        let cut = argument(cuts, n);
        let grid = compared.verdict.as_ref().ok().and_then(|accepted| accepted.cuts.get(cut)).map(|cut| cut.grid);
        let (bins, rays) = grid.map_or((4, 4), |grid| (grid.bins, grid.rays));
        let product = compared.verdict.as_ref().map_or(Product::Velocity, |accepted| accepted.product);
        let (ray, bin) = (argument(rays, n), argument(bins, n));
        compared.cut(cut);
        compared.ray_levels(cut, ray, room(bins, n));
        compared.ray_values(cut, ray, room(bins, n), room(bins, n));
        compared.bin_value(cut, ray, bin);
        let point = if n.once_in(4) { n.one_of(&[(0, 0), (rays, 0), (rays, 1)]) } else { (ray, bin) };
        let (t, words) = (threshold(product, n), n.one_of(&[0, ENTRY_WORDS - 1, ENTRY_WORDS, ENTRY_WORDS + 1, 3 * ENTRY_WORDS, 100, 4000]));
        compared.stretches(cut, t, point, words);
    }
    if let Ok(accepted) = &compared.verdict {
        let cut = n.below(cuts);
        let grid = accepted.cuts[cut].grid;
        // of a great grid in some hundred portions at most: each is a call that checks the whole file
        let least = ENTRY_WORDS * (1 + grid.bins * grid.rays / 400);
        compared.fetched(cut, n.below(17_000) as i32 - 8500, n.within(least, least + 100 * ENTRY_WORDS));
    }
}

/// A file whose data need not give its bins, now and then of many cuts or of a great grid.
fn unchecked_file(n: &mut Numbers) -> Vec<u8> {
    let (cuts, bins, rays) = match n.below(40) {
        0 => (1, 2048, 200),
        1 => (66, 3, 3),
        _ => n.one_of(&[(4, 1, 1), (4, 6, 4), (4, 30, 10), (4, 1, 30), (4, 50, 1)]),
    };
    let plan = random_unchecked_plan(cuts, bins, rays, n);
    spoiled_or_sound(&plan.sections(), n)
}

/// A record of any kind for a file's cut, or two numbers where there is no such cut.
fn record(compared: &Compared, cut: usize, n: &mut Numbers) -> Record {
    match compared.unchecked().as_ref().ok().and_then(|file| file.cuts.get(cut)) {
        Some(cut) => random_record(cut, n),
        None => Record { offset: n.word() as u32, before: n.word() as u32 },
    }
}

/// Building an index and the ray calls by a record, on accepted files and on others.
fn indexes(n: &mut Numbers) {
    let file = if n.once_in(3) { file(n) } else { unchecked_file(n) };
    let compared = Compared::new(&file);
    let cuts = compared.unchecked().as_ref().map_or(1, |file| file.cuts.len());
    for _ in 0..8 {
        let cut = argument(cuts, n);
        let grid = compared.unchecked().as_ref().ok().and_then(|file| file.cuts.get(cut)).map(|cut| cut.grid);
        let (bins, rays) = grid.map_or((4, 4), |grid| (grid.bins, grid.rays));
        compared.build_index(cut, room(rays, n));
        for _ in 0..4 {
            let (ray, record) = (argument(rays, n), record(&compared, cut, n));
            let _ = compared.ray_levels_from(cut, ray, record, room(bins, n));
            compared.ray_values_from(cut, ray, record, room(bins, n), room(bins, n));
        }
    }
    if let Ok(accepted) = &compared.verdict {
        let cut = n.below(cuts);
        let ray = n.below(accepted.cuts[cut].grid.rays);
        compared.by_built_records(cut, [ray]);
    }
}

/// The value after an option, if it is given.
fn option(name: &str) -> Result<Option<u64>, String> {
    let mut words = std::env::args().skip_while(|word| word != name).skip(1);
    match (std::env::args().any(|word| word == name), words.next()) {
        (false, _) => Ok(None),
        (true, Some(value)) => value.parse().map(Some).map_err(|_| format!("{name} {value}: not a number")),
        (true, None) => Err(format!("{name} wants a number")),
    }
}

fn fuzz() -> Result<(), String> {
    let seconds = option("--seconds")?.unwrap_or(60);
    let seed = option("--seed")?.unwrap_or(1);
    let began = Instant::now();
    let mut rounds = 0u64;
    while began.elapsed() < Duration::from_secs(seconds) {
        // each round has numbers of its own, so that it can be had again
        let round = seed.wrapping_mul(1 << 32).wrapping_add(rounds);
        let met = catch_unwind(|| {
            let mut n = Numbers::new(round);
            runs(&mut n);
            files(&mut n);
            dual_files(&mut n);
            indexes(&mut n);
        });
        if let Err(panic) = met {
            eprintln!("round {rounds} of seed {seed}");
            resume_unwind(panic);
        }
        rounds += 1;
    }
    println!("{rounds} rounds of every call in {seconds} s, every answer and every lent octet equal");
    Ok(())
}

fn main() -> ExitCode {
    match fuzz() {
        Ok(()) => ExitCode::SUCCESS,
        Err(why) => {
            eprintln!("fuzz: {why}");
            ExitCode::from(2)
        }
    }
}
