//! The program `lister`, run as rt runs it, against the independent reader's text.
use reference::cases;
use reference::lister::{text, GREATEST_INPUT};
use reference::maker::{document_sample, CutPlan, Plan};
use reference::numbers::Numbers;
use reference::published::Product;
use reference::shapes::{random_cut, random_plan};
use reference::spoil::{spoil, spoil_sections};
use std::io::Write;
use std::path::Path;
use std::process::{Command, Stdio};
use std::thread;

fn listed(input: &[u8]) -> String {
    let top = Path::new(env!("CARGO_MANIFEST_DIR")).join("../..");
    let mut program = Command::new(top.join("tools/run-program"))
        .arg("lister")
        .stdin(Stdio::piped())
        .stdout(Stdio::piped())
        .spawn()
        .expect("tools/run-program");
    let mut stdin = program.stdin.take().unwrap();
    thread::scope(|scope| {
        // a lister that has read enough may leave the rest: then the pipe is broken, and that is no fault
        scope.spawn(move || drop(stdin.write_all(input)));
        let output = program.wait_with_output().unwrap();
        assert!(output.status.success());
        String::from_utf8(output.stdout).unwrap()
    })
}

#[track_caller]
fn lists(input: &[u8]) {
    let (found, expected) = (listed(input), text(input));
    assert!(
        found == expected,
        "{} octets: found {} octets beginning {:.200?}, expected {} octets beginning {:.200?}",
        input.len(),
        found.len(),
        found,
        expected.len(),
        expected
    );
}

#[test]
fn the_documents_sample() {
    lists(&document_sample().file());
}

#[test]
fn made_and_spoiled_files() {
    let mut n = Numbers::new(61);
    for _ in 0..100 {
        let plan = random_plan(4, 30, 10, &mut n);
        let mut file = plan.file();
        lists(&file);
        lists(&spoil_sections(&plan.sections(), &mut n));
        spoil(&mut file, &mut n);
        lists(&file);
    }
}

/// Data that does not give its bins is told with the octet at fault.
#[test]
fn octets_at_fault() {
    for case in cases::octets_at_fault().into_iter().filter(|case| case.file.len() <= GREATEST_INPUT) {
        let (number, place) = case.verdict.expect("a refusal");
        assert_eq!(listed(&case.file), format!("refused {number} at {place}\n"), "{}", case.name);
    }
}

/// A file whose data ends in a tail of zero digits, `len` octets in all.
fn file_of(len: usize) -> Vec<u8> {
    let of_tail = |tail: usize| Plan::new(Product::Velocity, vec![CutPlan::of_data(2, 1, 1, [vec![1, 3], vec![2; tail]].concat())]).file();
    of_tail(len - of_tail(0).len())
}

#[test]
fn up_to_and_past_the_greatest_input() {
    for len in [GREATEST_INPUT - 1, GREATEST_INPUT, GREATEST_INPUT + 1, GREATEST_INPUT + 2, 2 * GREATEST_INPUT, 1_000_000] {
        lists(&file_of(len));
    }
    for len in [0, 1, 19, 20, GREATEST_INPUT, GREATEST_INPUT + 1] {
        lists(&vec![0; len]);
    }
}

/// Tens of thousands of entries, 64 cuts, and a blind cut of two million bins.
#[test]
fn long_lists() {
    let mut n = Numbers::new(62);
    let noise = n.levels(60_000, 0, 252, 1);
    lists(&Plan::new(Product::Reflectivity, vec![CutPlan::of_levels(600, 100, &noise)]).file());
    let cuts = (0..64).map(|_| random_cut(40, 10, Product::Velocity, &mut n)).collect();
    lists(&Plan::new(Product::Velocity, cuts).file());
    let blind = CutPlan::of_levels(2048, 1024, &vec![0; 2048 * 1024]);
    let checks = CutPlan::of_levels(2000, 25, &[0u8, 200].repeat(25_000));
    lists(&Plan::new(Product::Reflectivity, vec![blind, checks]).file());
}
