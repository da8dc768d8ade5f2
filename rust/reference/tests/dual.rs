//! The stated cases of the second format, and random sound files, on this reader.
use reference::dual::maker::{CutPlan, Plan};
use reference::dual::packing::Packing;
use reference::dual::{calls, cases, layout, shapes};
use reference::numbers::Numbers;

#[test]
fn stated_cases() {
    for case in cases::all() {
        let found = layout::verdict(&case.file).err().map(|r| (r.number, r.place as usize));
        assert_eq!(found, case.verdict, "{}", case.name);
    }
}

/// A cell of all ones is missing, in either width; a range is refused by 10.
#[test]
fn cells_by_hand() {
    let packing = |width| Packing { r: (-3200f32).to_bits(), e: 1, d: 2, width };
    let wide = CutPlan::new(2, 2, packing(16), vec![65535, 1600, 65534, 255]);
    let narrow = CutPlan::new(1, 4, packing(8), vec![255, 0, 254, 127]);
    let file = Plan::new(vec![wide, narrow]).file();
    let expected = [[None, Some(0.0)], [Some(1278.68), Some(-26.9)]];
    for (ray, of_ray) in expected.iter().enumerate() {
        for (bin, value) in of_ray.iter().enumerate() {
            assert_eq!(calls::bin_value(&file, 0, ray, bin), Ok(*value));
        }
    }
    let narrow: Vec<_> = (0..4).map(|ray| calls::bin_value(&file, 1, ray, 0).unwrap()).collect();
    assert_eq!(narrow, [None, Some(-32.0), Some(-26.92), Some(-29.46)]);
    for (cut, ray, bin) in [(2, 0, 0), (0, 2, 0), (0, 0, 2), (1, 0, 1), (usize::MAX, 0, 0), (0, usize::MAX, 0), (0, 0, usize::MAX)] {
        assert_eq!(calls::bin_value(&file, cut, ray, bin).map_err(|r| (r.number, r.place)), Err((10, 0)));
    }
    assert_eq!((calls::cut(&file, 1).unwrap().rays, calls::cut(&file, 2).map_err(|r| r.number)), (4, Err(10)));
}

#[test]
fn random_files_are_sound() {
    let mut n = Numbers::new(91);
    for _ in 0..500 {
        let plan = shapes::random_plan(4, 6, 5, &mut n);
        let file = plan.file();
        let accepted = layout::verdict(&file).unwrap_or_else(|refusal| panic!("{refusal:?} of {plan:?}"));
        assert_eq!((accepted.parameter, accepted.cuts.len()), (plan.parameter, plan.cuts.len()));
        for (cut, planned) in accepted.cuts.iter().zip(&plan.cuts) {
            assert_eq!((cut.grid, cut.packing), (planned.grid, planned.packing));
            for (k, cell) in planned.cells.iter().enumerate() {
                let z = cut.cell(k / cut.grid.bins, k % cut.grid.bins);
                assert_eq!(z, (*cell != cut.packing.all_ones()).then_some(u64::from(*cell)));
                assert!(z.is_none_or(|z| cut.packing.is_near(z, cut.packing.value(z))));
            }
        }
    }
}
