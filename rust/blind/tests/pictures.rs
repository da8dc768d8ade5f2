//! The pictures, looked at point by point: the paths that the command draws are painted here, and what each bin's place shows
//! is held against the bin. And where a picture is written.
mod common;

use common::{all, blind, command, sample, Folder};
use reference::dual::maker as dual;
use reference::dual::packing::Packing;
use reference::layout::{verdict, Grid};
use reference::maker::{document_sample, CutPlan, Plan};
use reference::numbers::Numbers;
use reference::published::Product;
use std::fs;
use std::os::unix::fs::{symlink, FileTypeExt};
use std::path::Path;
use std::process::Command;

const MISSING: &str = "#9a9a9a";
const UNDER: &str = "#a9cdf0";
const OVER: &str = "#d62728";
const NO_VALUE: &str = "#dcd6c8";
const MEASURED: &str = "#5b9bd5";

/// Points to a unit of the drawing, each way.
const FINE: usize = 2;
const WIDTH: usize = 1140 * FINE;
const HEIGHT: usize = 1300 * FINE;

/// What is painted at each point: a number for each colour, 0 for none.
struct Canvas {
    colours: Vec<String>,
    points: Vec<u8>,
}

/// The whole numbers of a path's part.
fn numbers(text: &str) -> Vec<i64> {
    let spaced = text.replace('-', " -");
    spaced.split([' ', ',']).filter(|word| !word.is_empty()).map(|word| word.parse().expect("a whole number")).collect()
}

/// The closed polygons of a path in relative whole tenths.
fn polygons(path: &str) -> Vec<Vec<(i64, i64)>> {
    let mut polygons = Vec::new();
    let mut start = (0, 0);
    for part in path.split('z').filter(|part| !part.is_empty()) {
        let (to, lines) = part.split_once('l').expect("lines");
        let at = numbers(&to[1..]);
        start = if to.starts_with('M') { (at[0], at[1]) } else { (start.0 + at[0], start.1 + at[1]) };
        let mut polygon = vec![start];
        for pair in numbers(lines).chunks(2) {
            let last = polygon[polygon.len() - 1];
            polygon.push((last.0 + pair[0], last.1 + pair[1]));
        }
        polygons.push(polygon);
    }
    polygons
}

impl Canvas {
    /// Paints the groups of paths in their order; outlines are left out.
    fn of(drawing: &str) -> Canvas {
        let mut canvas = Canvas { colours: vec![String::new()], points: vec![0; WIDTH * HEIGHT] };
        for group in drawing.split("<g transform=\"scale(0.1)\" fill=\"").skip(1) {
            let (colour, rest) = group.split_once('"').expect("a colour");
            let number = canvas.colours.len() as u8;
            canvas.colours.push(colour.into());
            for path in rest.split("</g>").next().expect("paths").split("<path d=\"").skip(1) {
                let (path, _) = path.split_once('"').expect("a path");
                assert!(path.len() < 100_000, "a path of {} octets", path.len());
                for polygon in polygons(path) {
                    canvas.paint(&polygon, number);
                }
            }
        }
        canvas
    }

    /// Fills a polygon: in each row of points, between its edges.
    fn paint(&mut self, polygon: &[(i64, i64)], number: u8) {
        let row_of = |tenths: i64| tenths as f64 / 10.0 * FINE as f64;
        let corners: Vec<(f64, f64)> = polygon.iter().map(|(x, y)| (row_of(*x), row_of(*y))).collect();
        let (top, bottom) = corners.iter().fold((f64::MAX, f64::MIN), |(top, bottom), (_, y)| (top.min(*y), bottom.max(*y)));
        for row in top.floor() as usize..=bottom.ceil() as usize {
            let y = row as f64 + 0.5;
            let mut crossings: Vec<f64> = Vec::new();
            for (at, (x0, y0)) in corners.iter().enumerate() {
                let (x1, y1) = corners[(at + 1) % corners.len()];
                if (*y0 <= y) != (y1 <= y) {
                    crossings.push(x0 + (y - y0) / (y1 - y0) * (x1 - x0));
                }
            }
            crossings.sort_by(f64::total_cmp);
            for pair in crossings.chunks_exact(2) {
                let (from, to) = ((pair[0] - 0.5).ceil().max(0.0) as usize, (pair[1] - 0.5).ceil().max(0.0) as usize);
                self.points[row * WIDTH + from..row * WIDTH + to].fill(number);
            }
        }
    }

    /// The point at an azimuth and a share of the reach.
    fn point(azimuth: f64, share: f64) -> usize {
        let (east, north) = azimuth.to_radians().sin_cos();
        let (x, y) = (570.0 + 500.0 * share * east, 660.0 - 500.0 * share * north);
        (y * FINE as f64) as usize * WIDTH + (x * FINE as f64) as usize
    }

    fn colour(&self, point: usize) -> &str {
        &self.colours[usize::from(self.points[point])]
    }

    fn at(&self, azimuth: f64, share: f64) -> &str {
        self.colour(Canvas::point(azimuth, share))
    }

    /// Whether a colour is there, or at one of the points about it: half a unit of the drawing.
    fn shows(&self, colour: &str, azimuth: f64, share: f64) -> bool {
        let point = Canvas::point(azimuth, share);
        let about = [point - WIDTH, point, point + WIDTH].into_iter().flat_map(|row| [row - 1, row, row + 1]);
        about.into_iter().any(|point| self.colour(point) == colour)
    }
}

/// Draws a cut of a file.
fn drawn(file: &[u8], words: &[&str]) -> String {
    let folder = Folder::new();
    folder.put("a.bin", file);
    let output =
        command().current_dir(folder.path()).args(["--totals", "--svg", "out.svg", "a.bin"]).args(words).output().expect("the command");
    assert_eq!(all(&output).2, Some(0), "{:?}", all(&output));
    fs::read_to_string(folder.join("out.svg")).expect("the picture")
}

/// The azimuth of a ray's middle, and a bin's middle as a share of the reach.
fn middle(grid: &Grid, ray: usize, bin: usize) -> (f64, f64) {
    let azimuth = grid.azimuth as f64 / 100.0 + (ray as f64 + 0.5) * 360.0 / grid.rays as f64;
    let (start, dx) = (grid.dstart as f64, grid.dx as f64);
    (azimuth, (start + (bin as f64 + 0.5) * dx) / (start + grid.bins as f64 * dx))
}

fn colour_of(level: u8) -> &'static str {
    match level {
        0 => MISSING,
        // 40 dBZ and more
        127.. => OVER,
        _ => UNDER,
    }
}

/// Every bin of every cut shape has its own colour, in the middle of it.
fn every_bin_is_right(plan: &Plan) {
    let file = plan.file();
    let cut = &verdict(&file).expect("a sound file").cuts[0];
    let canvas = Canvas::of(&drawn(&file, &[]));
    for ray in 0..cut.grid.rays {
        for bin in 0..cut.grid.bins {
            let (azimuth, share) = middle(&cut.grid, ray, bin);
            assert_eq!(canvas.at(azimuth, share), colour_of(cut.ray(ray)[bin]), "ray {ray}, bin {bin} of {:?}", cut.grid);
        }
    }
}

/// Few rays are wide: 360, 180, 120 degrees. Each is tried near its edges too.
#[test]
fn few_rays() {
    let mut n = Numbers::new(10);
    for rays in [1, 2, 3, 4, 5, 7, 12] {
        for (start, dstart) in [(0, 0), (4500, 0), (35900, 700_000)] {
            let levels = n.levels(rays * 6, 0, 252, 2);
            let mut cut = CutPlan::of_levels(6, rays, &levels);
            (cut.grid.azimuth, cut.grid.dstart) = (start, dstart);
            let plan = Plan::new(Product::Reflectivity, vec![cut]);
            every_bin_is_right(&plan);
            let (file, width) = (plan.file(), 360.0 / rays as f64);
            let cut = &verdict(&file).expect("a sound file").cuts[0];
            let canvas = Canvas::of(&drawn(&file, &[]));
            for (ray, bin, side) in
                (0..rays).flat_map(|ray| (0..6).flat_map(move |bin| [-0.49, -0.3, 0.3, 0.49].map(|side| (ray, bin, side))))
            {
                let (azimuth, share) = middle(&cut.grid, ray, bin);
                // near the middle a hundredth of a ray is less than a point
                if share > 0.25 {
                    assert_eq!(canvas.at(azimuth + side * width, share), colour_of(cut.ray(ray)[bin]), "{rays} rays: {ray}, {bin}, {side}");
                }
            }
        }
    }
}

/// Real shapes: the document's example, the ridge, 90 rays of 100 bins of noise.
#[test]
fn every_bin_has_its_colour() {
    every_bin_is_right(&document_sample());
    let levels = Numbers::new(11).levels(90 * 100, 0, 252, 3);
    let mut plan = Plan::new(Product::Reflectivity, vec![CutPlan::of_levels(100, 90, &levels)]);
    // the innermost bins are no bigger than a point
    plan.cuts[0].grid.dstart = 20_000_000;
    every_bin_is_right(&plan);
}

/// The largest cut of the worst noise stays small, its paths are split, and no blind bin vanishes.
#[test]
fn the_largest_noise() {
    let mut n = Numbers::new(12);
    let noise: Vec<u8> = (0..2048 * 1024).map(|_| n.one_of(&[0, 1, 200])).collect();
    // one blind bin in many: each must be seen
    let rare: Vec<u8> = (0..2048 * 1024).map(|_| if n.once_in(3000) { 0 } else { n.one_of(&[1, 200]) }).collect();
    // the hardest to draw: what is put together is of one kind, and its neighbours of others
    let checks: Vec<u8> = (0..2048 * 1024).map(|at| [0, 200, 1][(at / 2048 + at % 2048 / 4) % 3]).collect();
    for (name, levels) in [("noise", noise), ("rare", rare), ("checks", checks)] {
        let file = Plan::new(Product::Reflectivity, vec![CutPlan::of_levels(2048, 1024, &levels)]).file();
        let drawing = drawn(&file, &[]);
        assert!(drawing.len() < 10_000_000, "{name}: {} octets", drawing.len());
        let canvas = Canvas::of(&drawing);
        let grid = verdict(&file).expect("a sound file").cuts[0].grid;
        for (at, level) in levels.iter().enumerate().filter(|(_, level)| **level == 0) {
            let (azimuth, share) = middle(&grid, at / 2048, at % 2048);
            assert!(canvas.shows(colour_of(*level), azimuth, share), "{name}: ray {}, bin {}", at / 2048, at % 2048);
        }
    }
}

/// A blind bin that is far below a point is seen as a point.
#[test]
fn one_blind_bin_of_the_largest_cut() {
    for (ray, bin) in [(0, 100), (1023, 2047), (511, 20), (300, 1000)] {
        let mut levels = vec![1; 2048 * 1024];
        levels[ray * 2048 + bin] = 0;
        let drawing = drawn(&Plan::new(Product::Reflectivity, vec![CutPlan::of_levels(2048, 1024, &levels)]).file(), &[]);
        let canvas = Canvas::of(&drawing);
        let painted = canvas.points.iter().filter(|point| canvas.colours[usize::from(**point)] == MISSING).count();
        // a unit of the drawing is FINE points each way; the bin alone would be a fifth of one by 3
        assert!((FINE..=60).contains(&painted), "{painted} points at ray {ray}, bin {bin}");
        assert!(drawing.contains("blind: missing or out of range, 1 bins, 0.01 %"));
    }
}

/// A dual-polarisation cut is drawn by the azimuths that the file says of its rays.
#[test]
fn dual_polarisation() {
    let packing = Packing { r: 0, e: 0, d: 0, width: 8 };
    let mut n = Numbers::new(13);
    let cells: Vec<u16> = (0..40 * 30).map(|_| n.one_of(&[255, 7])).collect();
    let mut cut = dual::CutPlan::new(30, 40, packing, cells.clone());
    cut.grid.dstart = 5_000_000;
    let mut sections = dual::Plan::new(vec![cut.clone()]).sections();
    // begun at 200 degrees, and ray 17 a little off
    let azimuth = |ray: usize| (20000 + 450 + 900 * ray + if ray == 17 { 200 } else { 0 }) % 36000;
    for ray in 0..40 {
        sections[1].put(59 + 2 * ray, 2, azimuth(ray) as u64);
    }
    let canvas = Canvas::of(&drawn(&reference::maker::assemble(&sections), &[]));
    for (at, cell) in cells.iter().enumerate() {
        let (ray, bin) = (at / 30, at % 30);
        let share = (5000.0 + (bin as f64 + 0.5) * 500.0) / (5000.0 + 30.0 * 500.0);
        let expected = if *cell == 255 { NO_VALUE } else { MEASURED };
        assert_eq!(canvas.at(azimuth(ray) as f64 / 100.0, share), expected, "ray {ray}, bin {bin}");
    }
    // a scan of a part of the turn leaves the rest blank
    for ray in 0..40 {
        sections[1].put(59 + 2 * ray, 2, 100 * ray as u64);
    }
    let canvas = Canvas::of(&drawn(&reference::maker::assemble(&sections), &[]));
    assert_eq!((canvas.at(180.0, 0.7), canvas.at(350.0, 0.7), canvas.at(45.0, 0.7)), ("", "", ""));
    assert_ne!(canvas.at(20.0, 0.7), "");
}

/// What stands beside the picture.
#[test]
fn words() {
    let drawing = drawn(&fs::read(sample("ridge.bin")).expect("the sample"), &["--cut", "1"]);
    for part in [
        "<title id=\"title\">site 47695, reflectivity, 2026-06-14T03:40:00Z</title>",
        "<desc id=\"desc\">site 47695, reflectivity, 2026-06-14T03:40:00Z. cut 1, elevation 1.10°, threshold 40.00 dBZ, latitude 35.859722, ",
        "North is up. Where bins are smaller than a point of the drawing the point shows blind before over before under.</desc>",
        ">cut 1, elevation 1.10°, threshold 40.00 dBZ, latitude 35.859722, longitude 139.959722, reach 60 km</text>",
        ">blind: missing or out of range, 4367 bins, 7.11 %</text>",
        ">N</text>",
        ">30°</text>",
        ">330°</text>",
        ">20 km</text>",
    ] {
        assert!(drawing.contains(part), "{part}");
    }
    assert_eq!(drawing.matches("<path stroke=").count(), 36);
    // what has no number is painted last, so that no outline covers it
    let colours: Vec<&str> = drawing.split("<g transform=\"scale(0.1)\" fill=\"").skip(1).map(|group| &group[..7]).collect();
    assert_eq!(colours, [UNDER, OVER, MISSING]);
    let drawing = drawn(&fs::read(sample("wind.bin")).expect("the sample"), &[]);
    assert!(
        drawing.contains("missing: out of range, no data, or nothing detected, ")
            && drawing.contains("note: no threshold was given: 40.00 m/s")
    );
    assert!(!drawing.contains("NaN") && !drawing.contains("inf"));
}

/// The picture in the documents is the one that the command draws.
#[test]
fn the_picture_in_the_documents() {
    let stored = fs::read_to_string(Path::new(env!("CARGO_MANIFEST_DIR")).join("../../docs/ridge.svg")).expect("docs/ridge.svg");
    let made = drawn(&fs::read(sample("ridge.bin")).expect("the sample"), &["--cut", "0"]);
    assert!(stored == made, "docs/ridge.svg differs: tools/blind samples/ridge.bin --cut 0 --svg docs/ridge.svg");
}

/// No file that is read is written over, by whatever name.
#[test]
fn an_input_is_never_overwritten() {
    let folder = Folder::new();
    let whole = fs::read(sample("document01.bin")).expect("the sample");
    let file = folder.put("a.bin", &whole);
    fs::hard_link(&file, folder.join("hard.svg")).expect("a link");
    symlink("a.bin", folder.join("soft.svg")).expect("a link");
    fs::create_dir(folder.join("d")).expect("a folder");
    for out in ["a.bin", "./a.bin", "d/../a.bin", "hard.svg", "soft.svg"] {
        for force in [&[][..], &["--force"]] {
            let output = command().current_dir(folder.path()).args(["--svg", out, "--totals", "a.bin"]).args(force).output().expect("it");
            let (_, errors, status) = all(&output);
            assert_eq!((errors, status), (format!("blind: {out} was not drawn: it is a file that is read\n"), Some(1)));
            assert_eq!(fs::read(&file).expect("the file"), whole);
        }
    }
    // nor by standard input
    let input = fs::File::open(&file).expect("the file");
    let output = command().current_dir(folder.path()).args(["--svg", "hard.svg", "--force", "-"]).stdin(input).output().expect("it");
    assert_eq!((output.status.code(), fs::read(&file).expect("the file")), (Some(1), whole));
}

/// Nothing that is no SVG is written over unless that is wished; pictures and empty files are.
#[test]
fn only_pictures_are_overwritten() {
    let folder = Folder::new();
    fs::copy(sample("document01.bin"), folder.join("a.bin")).expect("a copy");
    let draw = |out: &str, force: bool| {
        let words = ["--totals", "--svg", out, "a.bin", "--force"];
        all(&command().current_dir(folder.path()).args(&words[..if force { 5 } else { 4 }]).output().expect("the command"))
    };
    for (name, text) in [("notes.txt", "keep me"), ("page.svg", "<html><svg></svg></html>")] {
        folder.put(name, text.as_bytes());
        let (_, errors, status) = draw(name, false);
        assert_eq!((errors, status), (format!("blind: {name} was not drawn: it is there and is no SVG; --force overwrites it\n"), Some(1)));
        assert_eq!(fs::read_to_string(folder.join(name)).expect("the file"), text);
        assert_eq!(draw(name, true).2, Some(0));
        assert!(fs::read_to_string(folder.join(name)).expect("the file").starts_with("<svg "));
    }
    folder.put("empty", b"");
    // a longer picture before leaves nothing behind the new one
    folder.put("old.svg", format!("<?xml version=\"1.0\"?><svg>{}</svg>", " ".repeat(100_000)).as_bytes());
    for name in ["new.svg", "empty", "old.svg", "new.svg"] {
        assert_eq!(draw(name, false).2, Some(0), "{name}");
        let drawing = fs::read_to_string(folder.join(name)).expect("the picture");
        assert!(drawing.starts_with("<svg ") && drawing.ends_with("</svg>\n") && drawing.matches("</svg>").count() == 1);
    }
    assert_eq!(draw("d/none.svg", false).1, "blind: d/none.svg was not drawn: No such file or directory (os error 2)\n");
    assert_eq!(draw(".", true).2, Some(1));
    // a pipe keeps nothing, so there is nothing to overwrite
    assert!(Command::new("mkfifo").arg(folder.join("pipe")).status().expect("mkfifo").success());
    assert!(fs::metadata(folder.join("pipe")).expect("the pipe").file_type().is_fifo());
    let pipe = folder.join("pipe");
    let reader = std::thread::spawn(move || fs::read_to_string(pipe).expect("the pipe"));
    assert_eq!(draw("pipe", false).2, Some(0));
    assert!(reader.join().expect("the reader").ends_with("</svg>\n"));
}

/// A file that is refused leaves an older picture, and it is said.
#[test]
fn what_is_not_drawn_is_said() {
    let folder = Folder::new();
    let out = folder.put("old.svg", b"<svg></svg>");
    let (_, errors, status) = all(&blind(&["--svg", out.to_str().expect("a path"), "cut-short.bin"]));
    assert!(errors.ends_with("old.svg was not drawn\n"), "{errors}");
    assert_eq!((status, fs::read(&out).expect("the file")), (Some(1), b"<svg></svg>".to_vec()));
}
