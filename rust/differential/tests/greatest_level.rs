//! V about the greatest that a section 5 may say, and past it, under every call on a file: none is refused by 12, which `ours` holds
//! each of them to.
use differential::{compare, dual};
use reference::cases::{self, about_the_greatest};
use reference::index::shapes::random_unchecked_plan;
use reference::numbers::Numbers;
use reference::Refusal;

fn told(refusal: &Refusal) -> (u32, usize) {
    (refusal.number, refusal.place as usize)
}

/// Every call of both formats; answers the refusal of open, and that of the calls by a record, which do not judge the data.
fn every_call(file: &[u8]) -> [Option<(u32, usize)>; 2] {
    dual::Compared::new(file).every_call();
    let compared = compare::Compared::new(file);
    compared.every_call();
    [compared.verdict.as_ref().err().map(told), compared.unchecked().as_ref().err().map(told)]
}

/// V over M is refused by 5 at its section 5, in any cut and whatever the data; up to M the data counts.
#[test]
fn stated_cases() {
    let mut over = 0;
    for case in cases::greatest_levels() {
        let by_a_record = case.verdict.filter(|(number, _)| *number != 8);
        assert_eq!(every_call(&case.file), [case.verdict, by_a_record], "{}", case.name);
        over += usize::from(by_a_record.is_some_and(|(number, _)| number == 5));
    }
    // six V of reflectivity and seven of velocity, in three places, with four kinds of data
    assert_eq!(over, (6 + 7) * 3 * 4);
}

/// The same in files of any shape, with data that need not give their bins.
#[test]
fn made_files() {
    let mut n = Numbers::new(121);
    for _ in 0..3000 {
        let mut plan = random_unchecked_plan(4, 9, 5, &mut n);
        let (cut, v) = (n.below(plan.cuts.len()), n.one_of(&about_the_greatest(plan.product)));
        plan.cuts[cut].v = v;
        let [_, by_a_record] = every_call(&plan.file());
        assert_eq!(by_a_record.map(|(number, _)| number), (v > plan.product.levels()).then_some(5));
    }
}
