//! What is stored: the files of samples/, and what the programs `lister` and `samples` are run on, with what each must
//! print by this reader. `make-samples` writes it; a test holds what is stored to it.
use crate::cases;
use crate::frame::Circle;
use crate::lister;
use crate::maker::{circle, document_sample, CutPlan, Plan};
use crate::numbers::Numbers;
use crate::published::Product;
use crate::scene::rainy_day;
use crate::shapes::random_plan;
use crate::spoil::{spoil, spoil_sections};
use std::collections::BTreeMap;
use std::fs;
use std::io;
use std::path::{Path, PathBuf};

pub type Files = BTreeMap<PathBuf, Vec<u8>>;

/// The small files of samples/ in the base format: what each shows is said in samples/README.md.
fn shown() -> Vec<(&'static str, Vec<u8>)> {
    let day = rainy_day();
    let ridge = day.plan(Product::Reflectivity, &[(120, 0.3), (120, 1.1), (110, 2.6)]).file();
    let wind = day.plan(Product::Velocity, &[(120, 0.3), (120, 1.1)]).file();
    let mut dark = Plan::new(Product::Reflectivity, vec![CutPlan::of_levels(500, 512, &vec![0; 500 * 512])]);
    dark.cuts[0].elevation = u16::MAX;
    let cut_short = ridge[..ridge.len() / 2].to_vec();
    vec![
        ("document01.bin", document_sample().file()),
        ("ridge.bin", ridge),
        ("wind.bin", wind),
        ("dark.bin", dark.file()),
        ("cut-short.bin", cut_short),
    ]
}

/// The same day by a dual-polarisation radar, low and over the ridge: bins of 1 km on 128 rays.
fn dual() -> Vec<u8> {
    let coarse = |bins| Circle { dx: 1_000_000, ..circle(bins, 128) };
    rainy_day().dual_plan(&[(coarse(60), 0.3), (coarse(50), 2.6)]).file()
}

/// The same day as the paper of the base format has a file: 512 rays, bins of 500 m, every elevation of ten minutes with the reach that
/// it has. It is longer than the program `lister` reads.
fn ridge_full() -> Vec<u8> {
    let low = [0.0, 0.3, 0.7, 1.1, 1.8, 2.6].map(|angle| (500, angle));
    let high = [(400, 3.8), (300, 5.4), (200, 7.7), (150, 10.8), (100, 15.2), (60, 21.3)];
    rainy_day().plan(Product::Reflectivity, &[&low[..], &high].concat()).file()
}

/// The same day as the paper of the dual-polarisation format has a file: one scan, 0.25 km and 0.7 degrees.
fn dual_full() -> Vec<u8> {
    rainy_day().dual_plan(&[(Circle { dx: 250_000, ..circle(600, 512) }, 0.3)]).file()
}

/// The files that the program `samples` lists: the small ones of samples/ in the base format, cases of every refusal, random and spoiled ones.
fn listed() -> BTreeMap<String, Vec<u8>> {
    let mut files: BTreeMap<String, Vec<u8>> = shown().into_iter().map(|(name, file)| (name.into(), file)).collect();
    let mut seen = BTreeMap::new();
    for case in cases::all().into_iter().filter(|case| case.file.len() < 3000) {
        // the first three cases of each refusal
        let number = case.verdict.map_or(0, |(number, _)| number);
        let already: &mut u32 = seen.entry(number).or_default();
        *already += 1;
        if *already <= 3 {
            files.insert(format!("case-{number}-{already}"), case.file);
        }
    }
    let mut n = Numbers::new(20);
    for k in 0..12 {
        let plan = random_plan(3, 40, 12, &mut n);
        files.insert(format!("random-{k:02}"), plan.file());
        let mut spoiled = plan.file();
        spoil(&mut spoiled, &mut n);
        files.insert(format!("spoiled-{k:02}"), if k % 2 == 0 { spoiled } else { spoil_sections(&plan.sections(), &mut n) });
    }
    files.insert("empty".into(), vec![]);
    files.insert("over".into(), vec![0; lister::GREATEST_INPUT + 1]);
    files
}

/// Everything stored, by its path from the top.
pub fn all() -> Files {
    let mut files: Files = shown().into_iter().map(|(name, file)| (Path::new("samples").join(name), file)).collect();
    for (name, file) in [("dual.bin", dual()), ("ridge-full.bin", ridge_full()), ("dual-full.bin", dual_full())] {
        files.insert(Path::new("samples").join(name), file);
    }
    let sample = document_sample().file();
    files.insert("crates/lister/stdout".into(), lister::text(&sample).into());
    files.insert("crates/lister/stdin".into(), sample);
    let listed = listed();
    let text = listed.iter().map(|(name, file)| format!("{name}\n{}", lister::text(file))).collect::<String>();
    files.insert("crates/samples/args".into(), listed.keys().map(|name| format!("{name}\n")).collect::<String>().into());
    files.insert("crates/samples/stdout".into(), text.into());
    files.extend(listed.into_iter().map(|(name, file)| (Path::new("crates/samples/data").join(name), file)));
    files
}

/// The top of the repository.
pub fn top() -> PathBuf {
    Path::new(env!("CARGO_MANIFEST_DIR")).join("../..")
}

pub fn write() -> io::Result<()> {
    let top = top();
    let data = top.join("crates/samples/data");
    if data.exists() {
        fs::remove_dir_all(data)?;
    }
    for (path, octets) in all() {
        let path = top.join(path);
        fs::create_dir_all(path.parent().expect("a folder"))?;
        fs::write(path, octets)?;
    }
    Ok(())
}
