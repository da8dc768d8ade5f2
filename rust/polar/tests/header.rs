//! include/polar.h, docs/FORMAT.md, docs/REFUSALS.md and this crate say the same: names, numbers and sentences.
use polar::{runs, File, Kind, Reason, Threshold};
use reference::maker::{CutPlan, Plan};
use reference::published::Product;
use std::collections::{BTreeMap, BTreeSet};
use std::fs;
use std::path::Path;

fn header() -> String {
    let path = Path::new(env!("CARGO_MANIFEST_DIR")).join("../../include/polar.h");
    fs::read_to_string(path).expect("include/polar.h")
}

/// The header's macros of one number each.
fn numbers(header: &str) -> BTreeMap<String, i64> {
    let define = |line: &str| {
        let mut words = line.strip_prefix("#define POLAR_")?.split_whitespace();
        let (name, number) = (words.next()?, words.next()?);
        let number = number.trim_start_matches('(').trim_end_matches(['u', ')']);
        Some((name.to_string(), number.parse().ok()?))
    };
    header.lines().filter_map(define).collect()
}

/// The name of a case in the header's way: FileSize is FILE_SIZE, Section0 is SECTION_0.
fn in_capitals(case: &str) -> String {
    let apart = |c: char| if c.is_ascii_lowercase() { c.to_ascii_uppercase().to_string() } else { format!("_{c}") };
    case.chars().map(apart).collect::<String>().trim_start_matches('_').into()
}

/// The sentences of polar_refusal_text, by the name that each stands behind.
fn sentences(header: &str) -> BTreeMap<String, String> {
    let cases = header.split("    case POLAR_").skip(1);
    cases
        .map(|case| {
            let (name, rest) = case.split_once(':').expect("a name");
            let body = rest.split_once(';').expect("a sentence").0;
            (name.into(), body.split('"').skip(1).step_by(2).collect())
        })
        .collect()
}

/// Number, name and sentence of each reason.
macro_rules! told {
    ($reason:ty) => {
        <$reason>::ALL.iter().map(|reason| (reason.number(), format!("{reason:?}"), reason.meaning())).collect::<Vec<_>>()
    };
}

/// Those of calls on a file, and those of bare run calls.
fn reasons() -> [Vec<(u32, String, &'static str)>; 2] {
    [told!(Reason), told!(runs::Reason)]
}

/// The header lists the refusals of calls on a file, and then those that bare run calls have besides.
#[test]
fn refusals() {
    let header = header();
    let list = header.split("/* The refusals").nth(1).and_then(|rest| rest.split("What a call returned").next()).expect("the refusals");
    let (of_files, of_runs) = list.split_once("alone: no call on a file returns").expect("those of bare run calls alone");
    let mut sentences = sentences(&header);
    let [files, mut runs] = reasons();
    runs.retain(|reason| !files.contains(reason));
    for (listed, reasons) in [(of_files, files), (of_runs, runs)] {
        assert_eq!(numbers(listed), reasons.iter().map(|(number, name, _)| (in_capitals(name), i64::from(*number))).collect());
        for (_, name, meaning) in reasons {
            assert_eq!(sentences.remove(&in_capitals(&name)).as_deref(), Some(meaning), "{name}");
        }
    }
    assert!(sentences.is_empty(), "{sentences:?}");
}

/// The rows of a table of refusals: number and name.
fn rows(page: &str) -> Vec<(u32, String)> {
    let row = |line: &str| {
        let mut cells = line.strip_prefix('|')?.split('|').map(|cell| cell.trim().trim_matches('`'));
        Some((cells.next()?.parse().ok()?, cells.next()?.to_string()))
    };
    page.lines().filter_map(row).collect()
}

#[test]
fn refusals_of_the_pages() {
    let [files, runs] = reasons().map(|reasons| reasons.into_iter().map(|(number, name, _)| (number, name)).collect::<BTreeSet<_>>());
    let rules = include_str!("../../../docs/FORMAT.md").split("## Refusals").nth(1).expect("the refusals");
    assert_eq!(rows(rules.split("\n## ").next().expect("their end")), Vec::from_iter(&files | &runs));
    let cases = include_str!("../../../docs/REFUSALS.md");
    let (of_files, of_runs) = cases.split_once("## Bare run calls").expect("the bare run calls");
    assert_eq!([of_files, of_runs].map(|cases| BTreeSet::from_iter(rows(cases))), [files, runs]);
}

#[test]
fn kinds_thresholds_and_limits() {
    let numbers = numbers(&header());
    for kind in Kind::ALL {
        assert_eq!(numbers[&kind.to_string().to_uppercase()], kind.number() as i64);
    }
    for (name, threshold) in
        [("HOUSE_THRESHOLD", Threshold::HOUSE), ("LEAST_THRESHOLD", Threshold::LEAST), ("MOST_THRESHOLD", Threshold::GREATEST)]
    {
        assert_eq!(numbers[name], i64::from(threshold.hundredths().0), "{name}");
    }
    assert_eq!(numbers["MOST_LEVELS"], runs::MOST_LEVELS as i64);
    assert_eq!(numbers["MOST_LEVELS"], numbers["MOST_BINS"] * numbers["MOST_RAYS"]);
}

/// The limits are those at which the library refuses.
#[test]
fn limits_are_the_librarys() {
    let numbers = numbers(&header());
    let size = |name: &str| numbers[name] as usize;
    let refusal = |len: usize| File::open(&vec![0; len]).unwrap_err().reason();
    let (least, most) = (size("LEAST_FILE"), size("MOST_FILE"));
    assert_eq!([least - 1, least, most, most + 1].map(refusal), [Reason::FileSize, Reason::Section0, Reason::Section0, Reason::FileSize]);
    let blind = |bins, rays| CutPlan::of_levels(bins, rays, &vec![0; bins * rays]);
    let opened = |cuts| File::open(&Plan::new(Product::Reflectivity, cuts).file()).err().map(|refusal| refusal.reason());
    let (cuts, bins, rays) = (size("MOST_CUTS"), size("MOST_BINS"), size("MOST_RAYS"));
    assert_eq!([cuts, cuts + 1].map(|cuts| opened(vec![blind(1, 1); cuts])), [None, Some(Reason::CutCount)]);
    assert_eq!([bins, bins + 1].map(|bins| opened(vec![blind(bins, 1)])), [None, Some(Reason::Field)]);
    assert_eq!([rays, rays + 1].map(|rays| opened(vec![blind(1, rays)])), [None, Some(Reason::Field)]);
    let v = numbers["MOST_V"] as u8;
    assert_eq!([v, v + 1].map(|v| runs::check(&[0], v, 1).err().map(|r| r.reason())), [None, Some(runs::Reason::V)]);
    let level = numbers["MOST_LEVEL"] as u8;
    assert_eq!([level, level + 1].map(|level| runs::write(&[level]).err().map(|r| r.reason())), [None, Some(runs::Reason::Argument)]);
}

#[test]
fn version() {
    let (header, version) = (header(), env!("CARGO_PKG_VERSION"));
    assert!(header.contains(&format!("#define POLAR_VERSION \"{version}\"\n")));
    let numbers = numbers(&header);
    assert_eq!(version, ["MAJOR", "MINOR", "PATCH"].map(|part| numbers[&format!("VERSION_{part}")].to_string()).join("."));
}
