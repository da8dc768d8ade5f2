//! FORMAT.md, "Checked examples", and the stated cases, on this reader.
use reference::layout::verdict;
use reference::{calls, cases, lister, maker, stretches};

#[test]
fn stated_cases() {
    for case in cases::all() {
        let found = verdict(&case.file).err().map(|r| (r.number, r.place as usize));
        assert_eq!(found, case.verdict, "{}", case.name);
    }
}

#[test]
fn the_documents_sample() {
    let file = maker::document_sample().file();
    assert_eq!(file.len(), 689);
    // the output that the rules have stands in a block of its own
    let rules = include_str!("../../../docs/FORMAT.md");
    let text = rules.split("```\n").nth(1).expect("the lister's output");
    assert_eq!(lister::text(&file), text);
    assert_eq!(lister::text(&file[..688]), "refused 2 at 0\n");
    assert_eq!(lister::text(&[0; 65_537]), "refused 1 at 0\n");
    assert_eq!(lister::text(&[0; 65_536]), "refused 2 at 0\n");
}

#[test]
fn rays_and_bins_of_the_sample() {
    let file = maker::document_sample().file();
    let (mut levels, mut marks, mut values) = ([9; 6], [9; 6], [9; 6]);
    calls::ray_levels(&file, 0, 1, &mut levels).unwrap();
    assert_eq!(levels, [130, 1, 1, 1, 0, 9]);
    calls::ray_values(&file, 0, 1, &mut marks, &mut values).unwrap();
    assert_eq!((marks, values), ([1, 1, 1, 1, 0, 9], [4112, 0, 0, 0, 9, 9]));
    assert_eq!(calls::bin_value(&file, 0, 1, 0), Ok(Some(41.12)));
    assert_eq!(calls::bin_value(&file, 0, 1, 4), Ok(None));
    for (cut, ray, bin) in [(1, 0, 0), (0, 2, 0), (0, 0, 5), (usize::MAX, 0, 0)] {
        assert_eq!(calls::bin_value(&file, cut, ray, bin).map_err(|r| (r.number, r.place)), Err((10, 0)));
    }
    assert_eq!(calls::ray_levels(&file, 0, 0, &mut [0; 4]).map_err(|r| r.number), Err(11));
    assert_eq!(calls::ray_values(&file, 0, 0, &mut [0; 5], &mut [0; 4]).map_err(|r| r.number), Err(11));
}

#[test]
fn portions_of_the_sample() {
    let file = maker::document_sample().file();
    let mut words = [9; 9];
    let first = stretches::house_stretches(&file, 0, (0, 0), &mut words).unwrap();
    assert_eq!(words, [0, 0, 2, 0, 0, 2, 3, 2, 9]);
    assert_eq!((first.count, first.next), (2, (1, 0)));
    // a point inside a stretch: the next start counts
    let last = stretches::house_stretches(&file, 0, (1, 2), &mut words).unwrap();
    assert_eq!(words, [1, 4, 1, 0, 0, 2, 3, 2, 9]);
    assert_eq!((last.count, last.next), (1, (2, 0)));
    let end = stretches::house_stretches(&file, 0, (2, 0), &mut words).unwrap();
    assert_eq!((end.count, end.next), (0, (2, 0)));
    for (threshold, point, room, number) in
        [(32768, (0, 0), 4, 10), (-32768, (0, 0), 4, 10), (0, (2, 1), 4, 10), (0, (0, 5), 4, 10), (0, (3, 0), 4, 10), (0, (2, 0), 3, 11)]
    {
        assert_eq!(stretches::stretches(&file, 0, threshold, point, &mut words[..room]).map_err(|r| r.number), Err(number));
    }
}
