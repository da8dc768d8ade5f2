//! The listing of files of the base format: what stands in each form.
mod common;

use common::{all, blind, blind_on, listed, sample, told};
use reference::layout::verdict;
use reference::maker::{document_sample, CutPlan, Plan};
use reference::published::Product;
use std::fs::File;

const FRONT: &str = "ok,2026-06-14T03:40:00Z,47695,reflectivity,dBZ,0,1.30";

#[test]
fn sectors_are_the_default() {
    let text = "\
document01.bin: base format, reflectivity, 2026-06-14T03:40:00Z, site 47695, 1 cut
cut 0: elevation 1.30 degrees, threshold 40.00 dBZ
  2 rays of 5 bins of 500 m from 0 m, reach 2.5 km, centre at latitude 35.859722, longitude 139.959722
total missing        3 bins  30.00 %
total under          3 bins  30.00 %
total over           4 bins  40.00 %
cut 0, where blind, largest first:
  45 to 225 degrees, 0 to 1 km: blind, 2 of 2 bins
  225 to 45 degrees, 2 to 2.5 km: blind, 1 of 1 bins
";
    assert_eq!(listed(&["document01.bin"], &[]), text);
    assert_eq!(listed(&["--sectors", "document01.bin"], &[]), text);
    let over = listed(&["--kind", "over", "document01.bin"], &[]);
    assert!(over.ends_with("cut 0, where over, largest first:\n  45 to 225 degrees, 1 to 2.5 km: over, 3 of 3 bins\n  225 to 45 degrees, 0 to 0.5 km: over, 1 of 1 bins\n"), "{over}");
}

/// The counts of a file as the format's paper has it are those of the independent reader.
#[test]
fn totals_by_another_reader() {
    let file = std::fs::read(sample("ridge-full.bin")).expect("the sample");
    let cuts = verdict(&file).expect("a sound file").cuts;
    assert!(cuts.len() >= 10 && cuts.iter().all(|cut| (cut.grid.rays, cut.grid.dx) == (512, 500_000)));
    assert!(cuts[..6].iter().all(|cut| cut.grid.bins == 500));
    let count = |levels: &[u8], kind: &str| {
        let value = |level: &u8| Product::Reflectivity.value(*level);
        let is = |level: &&u8| match value(level) {
            None => kind == "missing",
            Some(value) => kind == if value < 4000 { "under" } else { "over" },
        };
        levels.iter().filter(is).count()
    };
    let expected: Vec<String> =
        cuts.iter().flat_map(|cut| ["missing", "under", "over"].map(|kind| format!("{kind},{}", count(cut.levels(), kind)))).collect();
    let rows = listed(&["--csv", "--totals", "ridge-full.bin"], &[]);
    let found: Vec<String> = rows.lines().skip(1).map(|row| row.split(',').skip(9).take(2).collect::<Vec<_>>().join(",")).collect();
    assert_eq!(found, expected);
}

/// The totals of all cuts come first, then where it was blind. A real-sized file is a page.
#[test]
fn a_file_as_a_radar_sends_it() {
    let text = listed(&["ridge-full.bin"], &[]);
    let lines: Vec<&str> = text.lines().collect();
    assert_eq!(lines[0], "ridge-full.bin: base format, reflectivity, 2026-06-14T03:40:00Z, site 47695, 12 cuts");
    let cut_lines = lines.iter().filter(|line| line.starts_with("cut ") && line.contains(": elevation")).count();
    let first_sector = lines.iter().position(|line| line.contains("where blind")).expect("sectors");
    let last_total = lines.iter().rposition(|line| line.starts_with("total ")).expect("totals");
    assert_eq!((cut_lines, last_total < first_sector, lines.len() < 100), (12, true, true), "{text}");
    let ridge = "cut 1, where blind, largest first:
  284.77 to 331.17 degrees, 18 to 250 km: blind, 30268 of 30624 bins
  97.73 to 104.06 degrees, 34 to 250 km: blind, 3870 of 3888 bins
";
    assert!(text.contains(ridge) && text.ends_with("cut 11, where blind: nowhere\n"), "{text}");
}

/// What is not told one by one is told together, so that the bins add up to the total.
#[test]
fn no_sector_is_left_out() {
    // on every second ray a blind piece of its own: 1 bin on ray 0, 2 on ray 2, ..
    let row = |ray: usize| (0..20).map(move |bin| if ray % 2 == 0 && bin <= ray / 2 { 0 } else { 1 });
    let levels: Vec<u8> = (0..30).flat_map(row).collect();
    let file = Plan::new(Product::Reflectivity, vec![CutPlan::of_levels(20, 30, &levels)]).file();
    let text = listed(&["-"], &file);
    assert!(text.contains("total missing      120 bins  20.00 %\n"), "{text}");
    let (_, sectors) = text.split_once("where blind, largest first:\n").expect("sectors");
    let lines: Vec<&str> = sectors.lines().collect();
    assert_eq!((lines.len(), lines[0]), (11, "  21 to 33 degrees, 0 to 7.5 km: blind, 15 of 15 bins"));
    assert_eq!((lines[9], lines[10]), ("  165 to 177 degrees, 0 to 3 km: blind, 6 of 6 bins", "  and 5 smaller, 15 bins in all"));
    let rows = listed(&["--csv", "--sectors", "-"], &file);
    let bins: usize = rows.lines().skip(1).map(|row| row.rsplit(',').next().unwrap().parse::<usize>().unwrap()).sum();
    assert_eq!((rows.lines().count(), bins), (16, 120));
}

/// A sector over the north, and over the last ray.
#[test]
fn a_sector_over_the_north() {
    let mut cut = CutPlan::of_levels(1, 36, &[[0; 2].as_slice(), &[1; 31], &[0; 3]].concat());
    cut.grid.azimuth = 500;
    let file = Plan::new(Product::Reflectivity, vec![cut]).file();
    assert!(listed(&["-"], &file).ends_with("largest first:\n  335 to 25 degrees, 0 to 0.5 km: blind, 5 of 5 bins\n"));
}

#[test]
fn stretches() {
    let text = "\
  ray  azimuth  first  bins   from km     to km  kind
    0   135.00      0     2     0.000     1.000  missing
    0   135.00      2     3     1.000     2.500  over
    1   315.00      0     1     0.000     0.500  over
    1   315.00      1     3     0.500     2.000  under
    1   315.00      4     1     2.000     2.500  missing
total missing        3 bins  30.00 %
total under          3 bins  30.00 %
total over           4 bins  40.00 %
";
    let listing = listed(&["--stretches", "document01.bin"], &[]);
    assert!(listing.ends_with(text), "{listing}");
}

#[test]
fn comma_separated_values() {
    let text = format!(
        "\
file,status,time,site,product,unit,cut,elevation,threshold,ray,azimuth,first,length,from_m,to_m,kind
document01.bin,{FRONT},40.00,0,135.00,0,2,0.000,1000.000,missing
document01.bin,{FRONT},40.00,1,315.00,4,1,2000.000,2500.000,missing
"
    );
    assert_eq!(listed(&["--csv", "--kind", "missing", "document01.bin"], &[]), text);
    let text = format!(
        "\
file,status,time,site,product,unit,cut,elevation,threshold,kind,bins,percent
document01.bin,{FRONT},41.13,missing,3,30.00
document01.bin,{FRONT},41.13,under,7,70.00
document01.bin,{FRONT},41.13,over,0,0.00
"
    );
    assert_eq!(listed(&["--csv", "--totals", "--threshold", "41.13", "document01.bin"], &[]), text);
    let text = format!(
        "\
file,status,time,site,product,unit,cut,elevation,threshold,first_ray,rays,from_azimuth,to_azimuth,first,length,from_m,to_m,kind,bins
document01.bin,{FRONT},40.00,0,1,45.00,225.00,0,2,0.000,1000.000,missing,2
document01.bin,{FRONT},40.00,1,1,225.00,45.00,4,1,2000.000,2500.000,missing,1
"
    );
    assert_eq!(listed(&["--csv", "--sectors", "document01.bin"], &[]), text);
}

/// A cut without any of the kinds asked for has a row, and a list in JSON says of which kinds it is empty.
#[test]
fn nothing_of_a_kind_is_said() {
    let text = format!(
        "\
file,status,time,site,product,unit,cut,elevation,threshold,ray,azimuth,first,length,from_m,to_m,kind
document01.bin,none,{},80.17,,,,,,,
",
        FRONT.split_once(',').unwrap().1
    );
    assert_eq!(listed(&["--csv", "--kind", "over", "--threshold", "80.17", "document01.bin"], &[]), text);
    let text = listed(&["--json", "--kind", "over", "--threshold", "80.17", "document01.bin"], &[]);
    assert!(text.contains("\"kinds\":[\"over\"],\n  \"stretches\":[]}"), "{text}");
    assert!(listed(&["--kind", "over", "--threshold", "80.17", "document01.bin"], &[]).ends_with("\ncut 0, where over: nowhere\n"));
}

#[test]
fn as_json() {
    let text = r#"[
{"file":"document01.bin","status":"ok","format":"base","product":"reflectivity","parameter":1,"unit":"dBZ","time":"2026-06-14T03:40:00Z","site":47695,"cuts":[
 {"cut":0,"elevation":1.30,"threshold":40.00,"rays":2,"bins":5,"start_azimuth":45.00,"latitude":35.859722,"longitude":139.959722,"spacing_m":500.000,"start_m":0.000,"reach_m":2500.000,"notes":[],
  "totals":{"missing":{"bins":3,"percent":30.00},"under":{"bins":3,"percent":30.00},"over":{"bins":4,"percent":40.00}},"kinds":["over"],
  "stretches":[
  {"ray":0,"azimuth":135.00,"first":2,"length":3,"from_m":1000.000,"to_m":2500.000,"kind":"over"},
  {"ray":1,"azimuth":315.00,"first":0,"length":1,"from_m":0.000,"to_m":500.000,"kind":"over"}]}]},
{"file":"cut-short.bin","status":"refused 2 at 0","refused":{"number":2,"place":0,"meaning":"this is no radar file, or it was cut short: its first 16 octets are not as they should be, or say another length"}}
]
"#;
    let output = blind(&["--json", "--kind", "over", "document01.bin", "cut-short.bin"]);
    assert_eq!((told(&output.stdout).as_str(), output.status.code()), (text, Some(1)));
    // totals alone say nothing of stretches
    let totals = listed(&["--json", "--totals", "document01.bin"], &[]);
    assert!(!totals.contains("stretches") && !totals.contains("kinds") && totals.contains("\"totals\":{\"missing\":"), "{totals}");
    let sectors = listed(&["--json", "--sectors", "--cut", "0", "document01.bin"], &[]);
    let first = r#"{"first_ray":0,"rays":1,"from_azimuth":45.00,"to_azimuth":225.00,"first":0,"length":2,"from_m":0.000,"to_m":1000.000,"kind":"missing","bins":2}"#;
    assert!(sectors.contains(first), "{sectors}");
}

/// A line for each file, refused ones too; each is what stands in the array.
#[test]
fn json_lines() {
    let words = ["document01.bin", "cut-short.bin", "no-such-file", "dual.bin"];
    let lines = told(&blind(&[&["--json-lines", "--totals"], &words[..]].concat()).stdout);
    let array = told(&blind(&[&["--json", "--totals"], &words[..]].concat()).stdout);
    assert_eq!(lines.lines().count(), 4);
    let without_breaks: String = array.lines().map(str::trim_start).collect();
    assert_eq!(format!("[{}]", lines.lines().collect::<Vec<_>>().join(",")), without_breaks);
}

#[test]
fn values() {
    let text = "\
  ray  values in dBZ of bins 0 to 4, - where missing
    0      -     - 41.12 41.12 41.12
    1  41.12  0.00  0.00  0.00     -
total missing        3 bins  30.00 %
";
    let listing = listed(&["--values", "document01.bin"], &[]);
    assert!(listing.contains(text), "{listing}");
    let listing = listed(&["--values", "--csv", "document01.bin"], &[]);
    let lines: Vec<&str> = listing.lines().collect();
    assert_eq!(lines[0], "file,status,time,site,product,unit,cut,elevation,threshold,ray,azimuth,bin,from_m,to_m,mark,value");
    assert_eq!(lines.len(), 11);
    assert_eq!(lines[6], format!("document01.bin,{FRONT},40.00,1,315.00,0,0.000,500.000,measured,41.12"));
    assert_eq!(lines[7], format!("document01.bin,{FRONT},40.00,1,315.00,1,500.000,1000.000,measured,0"));
    assert_eq!(lines[10], format!("document01.bin,{FRONT},40.00,1,315.00,4,2000.000,2500.000,missing,"));
    let listing = listed(&["--values", "--json", "document01.bin"], &[]);
    let text = "\"values\":[\n  [null,null,41.12,41.12,41.12],\n  [41.12,0,0,0,null]]}]}\n]\n";
    assert!(listing.ends_with(text) && !listing.contains("stretches"), "{listing}");
}

/// Where the file's bins are not the format's 500 m it is said, in every form.
#[test]
fn another_spacing_is_said() {
    let mut plan = document_sample();
    (plan.cuts[0].grid.dx, plan.cuts[0].grid.dstart) = (50_000, 1_500_250);
    let file = plan.file();
    let note = "note: the file says bins of 50 m (Dx 50000), and this format's bins are 500 m: distances are as the file says";
    let text = listed(&["-"], &file);
    assert!(text.contains("  2 rays of 5 bins of 50 m from 1500.25 m, reach 1.75025 km, centre at latitude "), "{text}");
    assert!(text.contains(&format!("\n  {note}\n")), "{text}");
    assert!(listed(&["--json", "-"], &file).contains("\"notes\":[\"the file says bins of 50 m (Dx 50000), "));
    let (rows, errors, status) = all(&blind_on(&["--csv", "-"], &file));
    assert_eq!((errors, status), (format!("blind: -: cut 0: {note}\n"), Some(0)));
    assert!(rows.contains(",0,135.00,0,2,1500.250,1600.250,missing\n"), "{rows}");
}

/// The house threshold is meant in dBZ: on a velocity the number is told with its unit, and where it comes from.
#[test]
fn the_threshold_has_a_unit() {
    let note = "note: no threshold was given: 40.00 m/s is the house number, which is meant in dBZ; --threshold chooses another";
    let text = listed(&["--totals", "wind.bin"], &[]);
    assert!(text.contains("threshold 40.00 m/s\n  512 rays of 120 bins of 500 m from 0 m, "), "{text}");
    // once for a file, at its first cut; in JSON at every cut
    assert_eq!(text.matches(note).count(), 1);
    assert_eq!(listed(&["--json", "--totals", "wind.bin"], &[]).matches("40.00 m/s is the house number").count(), 2);
    let (rows, errors, _) = all(&blind(&["--csv", "--totals", "wind.bin"]));
    assert!(rows.contains(",velocity,m/s,0,0.30,40.00,missing,") && errors == format!("blind: wind.bin: cut 0: {note}\n"), "{errors}");
    // one that was given is nobody's surprise
    let text = listed(&["--totals", "--threshold", "40", "wind.bin"], &[]);
    assert!(text.contains("threshold 40.00 m/s\n") && !text.contains("note"), "{text}");
    assert!(!listed(&["--totals", "ridge.bin"], &[]).contains("note"));
    // where a velocity is missing nothing may have been there to be seen
    assert!(listed(&["--threshold", "0", "wind.bin"], &[]).contains("cut 0, where missing, largest first:\n  all around, "));
}

/// The azimuth is that of the ray's middle, and 360.00 is 0.00.
#[test]
fn azimuths() {
    let mut cut = CutPlan::of_levels(1, 1024, &[0; 1024]);
    cut.grid.azimuth = 35982;
    let file = Plan::new(Product::Reflectivity, vec![cut]).file();
    let rows = listed(&["--csv", "-"], &file);
    let azimuths: Vec<&str> = rows.lines().skip(1).map(|row| row.split(',').nth(10).unwrap()).collect();
    assert_eq!((azimuths.len(), azimuths[0], azimuths[1], azimuths[1023]), (1024, "0.00", "0.35", "359.64"));
    for words in [["--csv", "-"], ["--json", "-"], ["--stretches", "-"], ["--sectors", "-"]] {
        assert!(!listed(&words, &file).contains("360.00"), "{words:?}");
    }
}

#[test]
fn one_cut_of_many() {
    let listing = listed(&["--cut", "2", "ridge.bin"], &[]);
    let cuts: Vec<&str> = listing.lines().filter(|line| line.starts_with("cut ")).collect();
    assert_eq!(cuts, ["cut 2: elevation 2.60 degrees, threshold 40.00 dBZ", "cut 2, where blind: nowhere"]);
}

#[test]
fn standard_input() {
    let input = File::open(sample("document01.bin")).expect("the sample");
    let output = common::command().args(["--totals", "-"]).stdin(input).output().expect("the command");
    assert!(told(&output.stdout).starts_with("-: base format, reflectivity"));
    assert_eq!(output.status.code(), Some(0));
}

#[test]
fn version_and_help() {
    assert_eq!(listed(&["--version"], &[]), format!("blind {}\n", env!("CARGO_PKG_VERSION")));
    let help = listed(&["--help"], &[]);
    assert!(help.contains(&format!("(default: the house threshold, {}, which is meant in dBZ)", polar::Threshold::HOUSE)));
    for word in ["--sectors", "--stretches", "--json-lines", "--force", "--version", "in the file's own unit", "Exit status: 0 "] {
        assert!(help.contains(word), "{word}");
    }
}

/// Wrong options are told, nothing is listed, and the status is 2.
#[test]
fn wrong_options() {
    for (words, why) in [
        (&["--threshold", "many", "dark.bin"][..], "many: a threshold is a number "),
        (&["--threshold", "40.", "dark.bin"], "40.: a threshold is a number "),
        (&["--threshold", ".5", "dark.bin"], ".5: a threshold is a number "),
        (&["--cut", "+0", "dark.bin"], "+0: a cut is a whole number "),
        (&["--csv", "--json", "dark.bin"], "--csv, --json and --json-lines exclude each other"),
        (&["--json-lines", "--csv", "dark.bin"], "--csv, --json and --json-lines exclude each other"),
        (&["--values", "--totals", "dark.bin"], "--sectors, --stretches, --values and --totals exclude each other"),
        (&[], "no file named"),
        (&["--kind"], "--kind wants a value"),
    ] {
        let (listing, errors, status) = all(&blind(words));
        assert_eq!((listing.as_str(), status), ("", Some(2)), "{words:?}");
        assert!(errors.starts_with(&format!("blind: {why}")) && errors.ends_with("; try: blind --help\n"), "{errors}");
    }
}
