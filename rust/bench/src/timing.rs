//! Many pairs of times, the two sides in turn, so that both meet the same machine: the least time of each, and the middle one of
//! the pairs' ratios. The machine's speed may change from one moment to the next; the two times of a pair stand next to each other.
use std::hint::black_box;
use std::time::{Duration, Instant};

/// How long the pairs of one row go on at least, and how many there are at least.
const SPAN: Duration = Duration::from_millis(1000);
const ROUNDS: usize = 41;
/// How many pairs a row has that takes seconds.
const FEW_ROUNDS: usize = 3;
/// A time is taken over as many calls as fill this.
const SAMPLE: Duration = Duration::from_micros(200);

fn seconds<T>(calls: u32, call: &mut impl FnMut() -> T) -> f64 {
    let began = Instant::now();
    for _ in 0..calls {
        black_box(call());
    }
    began.elapsed().as_secs_f64() / f64::from(calls)
}

/// How many calls fill one sample.
fn calls_of<T>(call: &mut impl FnMut() -> T) -> u32 {
    let once = seconds(1, call).min(seconds(1, call)).max(1e-9);
    (SAMPLE.as_secs_f64() / once).ceil().clamp(1.0, 100_000.0) as u32
}

/// The least times of the two, in seconds, and the middle one of the pairs' ratios.
struct Pairs {
    ours: f64,
    plain: f64,
    ratio: f64,
}

impl Pairs {
    /// At least `rounds` pairs that go on for at least `span`, each time taken over `calls`.
    fn new<T, U>(mut ours: impl FnMut() -> T, mut plain: impl FnMut() -> U, calls: (u32, u32), rounds: usize, span: Duration) -> Pairs {
        let mut least = (f64::INFINITY, f64::INFINITY);
        let mut ratios = Vec::new();
        let began = Instant::now();
        while ratios.len() < rounds || began.elapsed() < span {
            let (o, p) = (seconds(calls.0, &mut ours), seconds(calls.1, &mut plain));
            least = (least.0.min(o), least.1.min(p));
            ratios.push(o / p);
        }
        ratios.sort_by(f64::total_cmp);
        Pairs { ours: least.0, plain: least.1, ratio: ratios[ratios.len() / 2] }
    }

    fn many<T, U>(mut ours: impl FnMut() -> T, mut plain: impl FnMut() -> U) -> Pairs {
        let calls = (calls_of(&mut ours), calls_of(&mut plain));
        Pairs::new(ours, plain, calls, ROUNDS, SPAN)
    }
}

/// A table's heading: what its rows are about, and of how many octets. Its last column is our time in units of its own.
pub struct Table {
    /// in seconds
    unit: f64,
}

impl Table {
    /// Our time for each octet, in nanoseconds.
    pub fn new(about: &str, octets: usize) -> Table {
        Table::heading(about, octets, "ns an octet");
        Table { unit: octets as f64 * 1e-9 }
    }

    /// Our time in times of the first row's, which are called `units`.
    pub fn in_times_of<T, U>(
        about: &str,
        octets: usize,
        units: &str,
        what: &str,
        ours: impl FnMut() -> T,
        plain: impl FnMut() -> U,
    ) -> Table {
        Table::heading(about, octets, units);
        let first = Pairs::many(ours, plain);
        let table = Table { unit: first.ours };
        table.print(what, first);
        table
    }

    fn heading(about: &str, octets: usize, units: &str) {
        let about = format!("{about} ({octets} octets)");
        println!("\n{about:<58} {:>12} {:>12} {:>7} {units:>12}", "ours, us", "plain, us", "ratio");
    }

    /// One row: the least times, the middle ratio, and ours in units.
    pub fn row<T, U>(&self, what: &str, ours: impl FnMut() -> T, plain: impl FnMut() -> U) {
        self.print(what, Pairs::many(ours, plain));
    }

    /// A row of few pairs, for what takes seconds.
    pub fn slow_row<T, U>(&self, what: &str, ours: impl FnMut() -> T, plain: impl FnMut() -> U) {
        self.print(&format!("{what}, {FEW_ROUNDS} pairs"), Pairs::new(ours, plain, (1, 1), FEW_ROUNDS, Duration::ZERO));
    }

    fn print(&self, what: &str, Pairs { ours, plain, ratio }: Pairs) {
        println!("{what:<58} {:>12.2} {:>12.2} {ratio:>7.2} {:>12.3}", ours * 1e6, plain * 1e6, ours / self.unit);
    }
}
