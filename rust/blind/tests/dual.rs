//! The command on dual-polarisation files: the stored samples, and small made ones from standard input.
mod common;

use common::{all, blind, blind_on, listed, told, Folder};
use reference::dual::maker::{CutPlan, Plan};
use reference::dual::packing::Packing;
use std::fs;

const FRONT: &str = "ok,2026-06-14T03:40:00Z,47695,horizontal reflectivity,dBZ,0,1.30,";

/// What it says on standard error, where nothing is listed but that.
fn refused(words: &[&str], input: &[u8]) -> String {
    let (listing, errors, status) = all(&blind_on(words, input));
    assert_eq!((format!("blind: {listing}"), status), (errors.clone(), Some(1)), "{words:?}");
    errors
}

/// Two rays of three bins in hundredths from -32 on; a measured 0 stands beside bins without a value.
fn small_plan() -> Plan {
    let packing = Packing { r: (-3200f32).to_bits(), e: 0, d: 2, width: 16 };
    Plan::new(vec![CutPlan::new(3, 2, packing, vec![65535, 3200, 3000, 7325, 65534, 65535])])
}

#[test]
fn the_sample() {
    let totals = "\
dual.bin: dual-polarisation format, horizontal reflectivity (zhh, parameter 195), 2026-06-14T03:40:00Z, site 47695, 2 cuts
cut 0: elevation 0.30 degrees
  128 rays of 60 bins of 1000 m from 0 m, reach 60 km, centre at latitude 35.859722, longitude 139.959722
total no value    6191 bins  80.61 %  (invalid or nothing detected)
total measured    1489 bins  19.39 %
least             0.00 dBZ at ray 32, bin 21
greatest         52.67 dBZ at ray 121, bin 46
cut 1: elevation 2.60 degrees
  128 rays of 50 bins of 1000 m from 0 m, reach 50 km, centre at latitude 35.859722, longitude 139.959722
total no value    4923 bins  76.92 %  (invalid or nothing detected)
total measured    1477 bins  23.08 %
least             0.00 dBZ at ray 32, bin 22
greatest         56.59 dBZ at ray 109, bin 48
";
    let sectors = "\
cut 0, where no value, largest first:
  all around, 0 to 60 km: no value, 6191 of 7680 bins
cut 1, where no value, largest first:
  all around, 0 to 50 km: no value, 4923 of 6400 bins
";
    assert_eq!(listed(&["dual.bin"], &[]), [totals, sectors].concat());
    assert_eq!(listed(&["--totals", "dual.bin"], &[]), totals);
    let one = listed(&["--totals", "--cut", "1", "dual.bin"], &[]);
    let lines: Vec<&str> = totals.lines().collect();
    assert_eq!(one.lines().collect::<Vec<_>>(), [&lines[..1], &lines[7..]].concat());
}

/// Such a file is never called blind: what has no value may be where nothing was.
#[test]
fn never_called_blind() {
    for words in [&[][..], &["--csv"], &["--json"], &["--stretches"], &["--values"], &["--sectors", "--csv"]] {
        let listing = listed(&[words, &["dual.bin"]].concat(), &[]);
        assert!(!listing.contains("blind") && !listing.contains("missing"), "{words:?}");
    }
    let folder = Folder::new();
    let out = folder.join("dual.svg");
    listed(&["--totals", "--svg", out.to_str().expect("a path"), "dual.bin"], &[]);
    let drawing = fs::read_to_string(out).expect("the picture");
    assert!(drawing.contains("no value: invalid or nothing detected, 6191 bins, 80.61 %") && !drawing.contains("blind"));
}

/// As the format's paper has a file: 0.25 km and 0.7 degrees. The counts are those of the independent reader.
#[test]
fn the_full_sample() {
    let file = fs::read(common::sample("dual-full.bin")).expect("the sample");
    let cut = &reference::dual::layout::verdict(&file).expect("a sound file").cuts[0];
    let without = (0..cut.grid.points()).filter(|at| cut.cell(at / cut.grid.bins, at % cut.grid.bins).is_none()).count();
    assert_eq!((cut.grid.rays, cut.grid.bins, cut.grid.dx), (512, 600, 250_000));
    let text = listed(&["dual-full.bin"], &[]);
    assert!(text.contains(&format!("total no value  {without} bins ")), "{text}");
    assert!(text.contains("cut 0: elevation 0.30 degrees\n  512 rays of 600 bins of 250 m from 0 m, reach 150 km, "), "{text}");
    let rows = listed(&["--csv", "dual-full.bin"], &[]);
    assert!(rows.lines().nth(1).unwrap().ends_with(",0,0.35,0,147,0.000,36750.000,no_value"), "{}", rows.lines().nth(1).unwrap());
}

/// --csv without more words lists stretches, with the azimuths that the file says of its rays.
#[test]
fn comma_separated_stretches() {
    let text = format!(
        "\
file,status,time,site,product,unit,cut,elevation,threshold,ray,azimuth,first,length,from_m,to_m,kind
-,{FRONT},0,90.00,0,1,0.000,500.000,no_value
-,{FRONT},0,90.00,1,2,500.000,1500.000,measured
-,{FRONT},1,270.00,0,2,0.000,1000.000,measured
-,{FRONT},1,270.00,2,1,1000.000,1500.000,no_value
"
    );
    assert_eq!(listed(&["--csv", "-"], &small_plan().file()), text);
    let both = told(&blind(&["--csv", "--kind", "no_value", "--kind", "missing", "dual.bin", "document01.bin"]).stdout);
    assert!(both.contains("dual.bin,ok,") && both.contains("document01.bin,ok,") && !both.contains(",measured\n"));
}

#[test]
fn values_of_the_sample() {
    let text = listed(&["--values", "--cut", "1", "dual.bin"], &[]);
    let lines: Vec<&str> = text.lines().collect();
    assert_eq!(lines[3], "  ray  values in dBZ of bins 0 to 49, - where there is no value");
    let cells = |ray: usize| lines[4 + ray].split_whitespace().collect::<Vec<_>>();
    for ray in 0..128 {
        assert_eq!((cells(ray).len(), cells(ray)[0]), (51, ray.to_string().as_str()));
    }
    assert_eq!((cells(109)[1], cells(109)[49], cells(32)[23]), ("-", "56.59", "0.00"));
    let without = lines[4..132].iter().flat_map(|line| line.split_whitespace()).filter(|cell| *cell == "-").count();
    assert_eq!(without, 4923);
}

#[test]
fn values_in_every_form() {
    let file = small_plan().file();
    let text = "\
-: dual-polarisation format, horizontal reflectivity (zhh, parameter 195), 2026-06-14T03:40:00Z, site 47695, 1 cut
cut 0: elevation 1.30 degrees
  2 rays of 3 bins of 500 m from 0 m, reach 1.5 km, centre at latitude 35.859722, longitude 139.959722
  ray  values in dBZ of bins 0 to 2, - where there is no value
    0       -   0.00  -2.00
    1   41.25 623.34      -
total no value       2 bins  33.33 %  (invalid or nothing detected)
total measured       4 bins  66.67 %
least            -2.00 dBZ at ray 0, bin 2
greatest        623.34 dBZ at ray 1, bin 1
";
    assert_eq!(listed(&["--values", "-"], &file), text);
    let text = format!(
        "\
file,status,time,site,product,unit,cut,elevation,threshold,ray,azimuth,bin,from_m,to_m,mark,value
-,{FRONT},0,90.00,0,0.000,500.000,no_value,
-,{FRONT},0,90.00,1,500.000,1000.000,measured,0
-,{FRONT},0,90.00,2,1000.000,1500.000,measured,-2
-,{FRONT},1,270.00,0,0.000,500.000,measured,41.25
-,{FRONT},1,270.00,1,500.000,1000.000,measured,623.34
-,{FRONT},1,270.00,2,1000.000,1500.000,no_value,
"
    );
    assert_eq!(listed(&["--values", "--csv", "-"], &file), text);
    let text = r#"[
{"file":"-","status":"ok","format":"dual-polarisation","product":"horizontal reflectivity","parameter":195,"unit":"dBZ","time":"2026-06-14T03:40:00Z","site":47695,"cuts":[
 {"cut":0,"elevation":1.30,"threshold":null,"rays":2,"bins":3,"start_azimuth":0.00,"latitude":35.859722,"longitude":139.959722,"spacing_m":500.000,"start_m":0.000,"reach_m":1500.000,"notes":[],
  "totals":{"no_value":{"bins":2,"percent":33.33},"measured":{"bins":4,"percent":66.67}},"least":{"value":-2,"ray":0,"bin":2},"greatest":{"value":623.34,"ray":1,"bin":1},
  "values":[
  [null,0,-2],
  [41.25,623.34,null]]}]}
]
"#;
    assert_eq!(listed(&["--values", "--json", "-"], &file), text);
}

/// A parameter that has no name, no unit and no measured bin.
#[test]
fn nothing_known_and_nothing_measured() {
    let mut plan = small_plan();
    plan.parameter = 77;
    plan.cuts[0].cells = vec![65535; 6];
    (plan.cuts[0].grid.latitude, plan.cuts[0].grid.dstart, plan.cuts[0].elevation) = (-250_000, 1500, u16::MAX);
    let text = "\
-: dual-polarisation format, unknown parameter 77, 2026-06-14T03:40:00Z, site 47695, 1 cut
cut 0: elevation unknown
  2 rays of 3 bins of 500 m from 1.5 m, reach 1.5015 km, centre at latitude -0.250000, longitude 139.959722
total no value       6 bins 100.00 %  (invalid or nothing detected)
total measured       0 bins   0.00 %
least                -
greatest             -
";
    assert_eq!(listed(&["--totals", "-"], &plan.file()), text);
    let text = listed(&["--json", "-"], &plan.file());
    assert!(text.contains(r#""product":"parameter 77","parameter":77,"unit":null,"#), "{text}");
    assert!(text.contains(r#""elevation":null,"threshold":null,"#) && text.contains(r#""least":null,"greatest":null,"#), "{text}");
    let row = listed(&["--csv", "-"], &plan.file());
    assert!(row.contains("\n-,ok,2026-06-14T03:40:00Z,47695,parameter 77,,0,,,0,90.00,0,3,1.500,1501.500,no_value\n"), "{row}");
}

/// Rays without an azimuth are listed without one, and not drawn.
#[test]
fn unknown_azimuths() {
    let mut sections = small_plan().sections();
    sections[1].put(59, 2, 65535);
    let file = reference::maker::assemble(&sections);
    let note = "the file gives no azimuth for some rays, so none is told";
    let text = listed(&["--kind", "measured", "-"], &file);
    assert!(text.contains(&format!("\n  note: {note}\n")), "{text}");
    assert!(text.ends_with("largest first:\n  rays 0 to 1, 0 to 1.5 km: measured, 4 of 6 bins\n"), "{text}");
    assert!(listed(&["--json", "-"], &file).contains("{\"ray\":0,\"azimuth\":null,"));
    let folder = Folder::new();
    let out = folder.join("a.svg");
    let (rows, errors, status) = all(&blind_on(&["--csv", "--svg", out.to_str().expect("a path"), "-"], &file));
    assert!(rows.contains(&format!("-,{FRONT},0,,0,1,0.000,500.000,no_value\n")), "{rows}");
    assert!(errors.contains(&format!("blind: -: cut 0: note: {note}\n")), "{errors}");
    assert!(errors.contains("a.svg was not drawn: cut 0 has rays without an azimuth\n"), "{errors}");
    assert_eq!((status, out.exists()), (Some(1), false));
}

/// Values that take many digits, or an exponent.
#[test]
fn values_of_any_size() {
    let mut plan = small_plan();
    plan.cuts[0].packing = Packing { r: 1e-42f32.to_bits(), e: 0, d: 4, width: 16 };
    plan.cuts[0].cells = vec![0, 65535, 1, 2, 3, 65534];
    let text = listed(&["--values", "-"], &plan.file());
    assert!(text.contains(" 1.0005271035279195e-46 "), "{text}");
    plan.cuts[0].packing.r = (-3e38f32).to_bits();
    let text = listed(&["--values", "--csv", "-"], &plan.file());
    assert!(text.contains(",measured,-3.0000000054977557e34\n"), "{text}");
}

/// What such a file has not is told, and nothing is drawn.
#[test]
fn what_is_for_the_base_format() {
    let folder = Folder::new();
    let out = folder.join("a.svg");
    let why = "dual.bin: not listed: this is a dual-polarisation file, and --threshold is for files of the base format\n";
    assert_eq!(refused(&["--threshold", "30", "dual.bin"], &[]), format!("blind: {why}"));
    let why = "dual.bin: not listed: no bin is missing or over: the kinds of the dual-polarisation format are no_value, measured\n";
    assert_eq!(refused(&["--kind", "missing", "--kind", "over", "dual.bin"], &[]), format!("blind: {why}"));
    let why = "ridge.bin: not listed: no bin is measured: the kinds of the base format are missing, under, over\n";
    assert_eq!(refused(&["--kind", "measured", "ridge.bin"], &[]), format!("blind: {why}"));
    let (_, errors, status) = all(&blind(&["--threshold", "30", "--svg", out.to_str().expect("a path"), "dual.bin"]));
    assert!(errors.ends_with("a.svg was not drawn\n"), "{errors}");
    assert_eq!((status, out.exists()), (Some(1), false));
    let output = blind(&["--json", "--threshold", "30", "dual.bin"]);
    let object = "[\n{\"file\":\"dual.bin\",\"status\":\"not listed\",\"not_listed\":\"this is a dual-polarisation file, and --threshold";
    assert!(told(&output.stdout).starts_with(object));
    assert!(told(&blind(&["--csv", "--threshold", "30", "dual.bin"]).stdout).contains("\ndual.bin,not listed,,"));
}

/// Both formats in one run, each told by its own rules.
#[test]
fn both_formats() {
    let text = listed(&["--totals", "document01.bin", "dual.bin"], &[]);
    let heads: Vec<&str> = text.lines().filter(|line| line.contains(" format, ")).collect();
    assert_eq!(heads.len(), 2);
    assert!(heads[0].starts_with("document01.bin: base format, reflectivity, "), "{text}");
    assert!(heads[1].starts_with("dual.bin: dual-polarisation format, horizontal reflectivity "), "{text}");
    let text = listed(&["--csv", "--totals", "dual.bin", "document01.bin"], &[]);
    assert!(text.contains(",dBZ,1,2.60,,measured,1477,23.08\ndocument01.bin,ok,"), "{text}");
}

/// The refusal is that of the file's own format.
#[test]
fn refusals() {
    let plan = small_plan();
    let file = plan.file();
    let mut sections = plan.sections();
    sections[3].put(20, 1, 64);
    let wide = reference::maker::assemble(&sections);
    let place = 37 + sections[1].octets.len() + sections[2].octets.len();
    let expected = format!("blind: -: refused 14 at {place}: this kind of dual-polarisation file is not read");
    assert!(refused(&["-"], &wide).starts_with(&expected));
    assert!(refused(&["-"], &file[..file.len() - 1]).starts_with("blind: -: refused 2 at 0: "));
    assert!(refused(&["--cut", "1", "-"], &file).starts_with("blind: -: refused 10 at 0: "));
    assert!(refused(&["--values", "--cut", "2", "dual.bin"], &[]).starts_with("blind: dual.bin: refused 10 at 0: "));
    // a spoiled file is refused before anything is said of options
    assert!(refused(&["--kind", "over", "-"], &wide).starts_with(&expected));
}
