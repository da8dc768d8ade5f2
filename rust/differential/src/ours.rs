//! The proved library's calls, answered as the independent reader answers them. Each answer is filled with a pattern first:
//! words that a call must not set have to keep it.
use polar_sys::{self as library, RayRecord};
use reference::calls::{CutFacts, Opened};
use reference::dual::calls as dual;
use reference::frame::Circle;
use reference::index::Record;
use reference::layout::Grid;
use reference::published::Product;
use reference::runs::Written;
use reference::stretches::Portion;
use reference::Refusal;

const KEPT: u64 = 0xA5A5_A5A5_A5A5_A5A5;
const KEPT_SIGNED: i64 = -0x5A5A_5A5A_5A5A_5A5B;

/// What a call returned: nothing refused, or the refusal.
fn checked(returned: u64) -> Result<(), Refusal> {
    if returned == 0 {
        return Ok(());
    }
    Err(Refusal { number: library::number(returned), place: library::place(returned) })
}

/// What a call on a file returned, which is never refusal 12: section 5 holds V to 252 before data is looked at. Every such call,
/// of either format and by a record, passes here; the bare run calls do not.
fn of_file(returned: u64) -> Result<(), Refusal> {
    assert!(library::number(returned) != 12, "a call on a file was refused by 12 at {}", library::place(returned));
    checked(returned)
}

/// The words of an answer, or the refusal, which leaves them all as they were.
fn answered<T: Copy + PartialEq, const K: usize>(refused: Result<(), Refusal>, words: [T; K], kept: T) -> Result<[T; K], Refusal> {
    assert!(refused.is_ok() || words.iter().all(|word| *word == kept), "an answer's word changed on refusal");
    refused.map(|()| words)
}

/// 0 to 2^64 - 1 as a number of bins, rays, cuts or octets
fn size(word: u64) -> usize {
    usize::try_from(word).expect("a size")
}

/// A word that is never negative
fn natural(word: i64) -> u64 {
    u64::try_from(word).expect("a number from 0 on")
}

/// Nb, Nr, latitude, longitude, Dx, Dstart
fn circle([bins, rays, latitude, longitude, dx, dstart]: [i64; 6]) -> Circle {
    Circle {
        bins: size(natural(bins)),
        rays: size(natural(rays)),
        latitude,
        longitude: natural(longitude),
        dx: natural(dx),
        dstart: natural(dstart),
    }
}

pub fn run_check(octets: &[u8], v: u64, n: usize) -> Result<(), Refusal> {
    checked(library::run_check(octets, v, n))
}

pub fn run_read(octets: &[u8], v: u64, n: usize, levels: &mut [u8]) -> Result<(), Refusal> {
    checked(library::run_read(octets, v, n, levels))
}

pub fn run_write(levels: &[u8], octets: &mut [u8]) -> Result<Written, Refusal> {
    let mut answer = [KEPT; 2];
    let refused = checked(library::run_write(levels, octets, &mut answer));
    let [v, octets] = answered(refused, answer, KEPT)?;
    Ok(Written { v: u8::try_from(v).expect("V"), octets: size(octets) })
}

pub fn open(file: &[u8]) -> Result<Opened, Refusal> {
    let mut answer = [KEPT; 9];
    let refused = of_file(library::open(file, &mut answer));
    let [product, year, month, day, hour, minute, second, site, cuts] = answered(refused, answer, KEPT)?;
    let product = u8::try_from(product).ok().and_then(Product::of_parameter).expect("a product");
    Ok(Opened { product, time: [year, month, day, hour, minute, second], site, cuts: size(cuts) })
}

pub fn cut(file: &[u8], cut: usize) -> Result<CutFacts, Refusal> {
    let mut answer = [KEPT_SIGNED; 10];
    let refused = of_file(library::cut(file, cut, &mut answer));
    let words = answered(refused, answer, KEPT_SIGNED)?;
    let [bins, rays, latitude, longitude, dx, dstart, azimuth, mode, known, elevation] = words;
    let grid = Grid::new(circle([bins, rays, latitude, longitude, dx, dstart]), natural(azimuth));
    let elevation = match known {
        0 => {
            assert_eq!(elevation, KEPT_SIGNED, "a missing elevation was given a number");
            None
        }
        1 => Some(elevation),
        _ => panic!("neither missing nor known"),
    };
    Ok(CutFacts { grid, mode: u8::try_from(mode).expect("an octet"), elevation })
}

pub fn ray_levels(file: &[u8], cut: usize, ray: usize, levels: &mut [u8]) -> Result<(), Refusal> {
    of_file(library::ray_levels(file, cut, ray, levels))
}

pub fn ray_values(file: &[u8], cut: usize, ray: usize, marks: &mut [u8], values: &mut [i32]) -> Result<(), Refusal> {
    of_file(library::ray_values(file, cut, ray, marks, values))
}

/// A record in the library's words.
pub fn ray_record(Record { offset, before }: Record) -> RayRecord {
    RayRecord { offset, before }
}

pub fn build_index(file: &[u8], cut: usize, records: &mut [RayRecord]) -> Result<(), Refusal> {
    of_file(library::build_index(file, cut, records))
}

pub fn ray_levels_from(file: &[u8], cut: usize, ray: usize, record: Record, levels: &mut [u8]) -> Result<(), Refusal> {
    of_file(library::ray_levels_from(file, cut, ray, ray_record(record), levels))
}

pub fn ray_values_from(file: &[u8], cut: usize, ray: usize, record: Record, marks: &mut [u8], values: &mut [i32]) -> Result<(), Refusal> {
    of_file(library::ray_values_from(file, cut, ray, ray_record(record), marks, values))
}

/// What a bin call answered. The value's bits, so that they are compared bit for bit.
fn bin(refused: Result<(), Refusal>, value: f64, answer: [u64; 1]) -> Result<Option<u64>, Refusal> {
    match answered(refused, answer, KEPT) {
        Ok([1]) => Ok(Some(value.to_bits())),
        other => {
            assert_eq!(value.to_bits(), KEPT, "a value where nothing was measured");
            other.map(|[mark]| {
                assert_eq!(mark, 0, "a mark");
                None
            })
        }
    }
}

pub fn bin_value(file: &[u8], cut: usize, ray: usize, of_ray: usize) -> Result<Option<u64>, Refusal> {
    let (mut value, mut answer) = (f64::from_bits(KEPT), [KEPT]);
    let refused = of_file(library::bin_value(file, cut, ray, of_ray, &mut value, &mut answer));
    bin(refused, value, answer)
}

fn portion(refused: Result<(), Refusal>, answer: [u64; 3]) -> Result<Portion, Refusal> {
    let [count, ray, bin] = answered(refused, answer, KEPT)?;
    Ok(Portion { count: size(count), next: (size(ray), size(bin)) })
}

pub fn stretches(file: &[u8], cut: usize, t: i64, point: (usize, usize), words: &mut [u32]) -> Result<Portion, Refusal> {
    let mut answer = [KEPT; 3];
    let refused = of_file(library::stretches(file, cut, t, point, words, &mut answer));
    portion(refused, answer)
}

pub fn house_stretches(file: &[u8], cut: usize, point: (usize, usize), words: &mut [u32]) -> Result<Portion, Refusal> {
    let mut answer = [KEPT; 3];
    let refused = of_file(library::house_stretches(file, cut, point, words, &mut answer));
    portion(refused, answer)
}

pub fn dual_open(file: &[u8]) -> Result<dual::Opened, Refusal> {
    let mut answer = [KEPT; 9];
    let refused = of_file(library::dual_open(file, &mut answer));
    let [parameter, year, month, day, hour, minute, second, site, cuts] = answered(refused, answer, KEPT)?;
    Ok(dual::Opened { parameter, time: [year, month, day, hour, minute, second], site, cuts: size(cuts) })
}

pub fn dual_cut(file: &[u8], cut: usize) -> Result<Circle, Refusal> {
    let mut answer = [KEPT_SIGNED; 6];
    let refused = of_file(library::dual_cut(file, cut, &mut answer));
    answered(refused, answer, KEPT_SIGNED).map(circle)
}

pub fn dual_bin_value(file: &[u8], cut: usize, ray: usize, of_ray: usize) -> Result<Option<u64>, Refusal> {
    let (mut value, mut answer) = (f64::from_bits(KEPT), [KEPT]);
    let refused = of_file(library::dual_bin_value(file, cut, ray, of_ray, &mut value, &mut answer));
    bin(refused, value, answer)
}

#[cfg(test)]
mod tests {
    use super::of_file;
    use reference::Refusal;

    #[test]
    #[should_panic(expected = "a call on a file was refused by 12 at 0")]
    fn refused_by_12() {
        let _ = of_file(12);
    }

    #[test]
    #[should_panic(expected = "a call on a file was refused by 12 at 673")]
    fn refused_by_12_at_a_place() {
        let _ = of_file(12 + 256 * 673);
    }

    #[test]
    fn refused_by_any_other_number() {
        assert_eq!(of_file(0), Ok(()));
        for number in (1..=255).filter(|number| *number != 12) {
            for place in [0, 12, 673] {
                assert_eq!(of_file(u64::from(number) + 256 * place), Err(Refusal { number, place }));
            }
        }
    }

    /// Every call on a file that the boundary declares, and no other, passes `of_file` where it is made here.
    #[test]
    fn every_call_on_a_file_passes() {
        let here = |text: String| include_str!("ours.rs").matches(&text).count();
        for call in polar_sys::DECLARATIONS {
            let made = format!("library::{}(", call.name.trim_start_matches("polar_"));
            let on_file = usize::from(call.arguments[0].0 == "file");
            assert_eq!((here(format!("of_file({made}")), here(made)), (on_file, 1), "{}", call.name);
        }
    }
}
