//! The safe crate's dual-polarisation files against the independent reader.
mod common;

use common::{agree_on_grid, shown, told};
use polar::dual::{File, Parameter};
use polar::{Bin, Format, Reason};
use reference::dual::cases;
use reference::dual::layout::verdict;
use reference::dual::maker::Plan;
use reference::dual::shapes::{random_cut, random_plan};
use reference::maker::document_sample;
use reference::numbers::Numbers;
use reference::spoil::spoil;

#[test]
fn refusals_have_their_number_and_place() {
    let mut unread = 0;
    for case in cases::all() {
        let found = File::open(&case.file).err();
        assert_eq!(found.map(|refusal| (refusal.number(), refusal.place() as usize)), case.verdict, "{}", case.name);
        unread += usize::from(found.is_some_and(|refusal| refusal.reason() == Reason::Unread));
    }
    assert!(unread > 20);
}

#[test]
fn made_files() {
    let mut n = Numbers::new(83);
    for _ in 0..400 {
        let mut octets = random_plan(3, 12, 8, &mut n).file();
        if n.once_in(4) {
            spoil(&mut octets, &mut n);
        }
        let (found, expected) = (File::open(&octets), verdict(&octets));
        let (Ok(file), Ok(accepted)) = (&found, &expected) else {
            assert_eq!(found.err().map(told), expected.err());
            continue;
        };
        assert_eq!(Format::of(&octets), Format::Dual);
        assert_eq!((file.parameter(), u64::from(file.site())), (Parameter::new(accepted.parameter), accepted.site));
        assert_eq!(file.time().to_string(), shown(accepted.time));
        assert_eq!((file.cut_count(), file.cuts().len()), (accepted.cuts.len(), accepted.cuts.len()));
        for (cut, of_cut) in file.cuts().zip(&accepted.cuts) {
            let grid = of_cut.grid;
            agree_on_grid(cut.grid(), grid);
            for ray in cut.rays() {
                let cell = |bin| of_cut.cell(ray.index(), bin).map_or(Bin::Missing, |z| Bin::Measured(of_cut.packing.value(z)));
                assert_eq!(ray.bins(), (0..grid.bins).map(cell).collect::<Vec<_>>());
                let bin = n.below(grid.bins);
                assert_eq!(cut.bin_value(ray.index(), bin), Ok(ray.bins()[bin]));
            }
            assert_eq!(cut.ray(grid.rays).map_err(|refusal| refusal.number()), Err(10));
            assert_eq!(cut.bin_value(0, grid.bins).map_err(|refusal| refusal.number()), Err(10));
        }
        assert_eq!(file.cut(file.cut_count()).unwrap_err().number(), 10);
    }
}

/// The template number decides, wherever the octets end.
#[test]
fn formats() {
    let (base, dual) = (document_sample().file(), Plan::new(vec![random_cut(2, 2, &mut Numbers::new(84))]).file());
    for len in 0..base.len() {
        assert_eq!(Format::of(&base[..len]), Format::Base, "{len}");
    }
    for len in 0..dual.len() {
        assert_eq!(Format::of(&dual[..len]), if len < 51 { Format::Base } else { Format::Dual }, "{len}");
    }
    let mut changed = dual;
    changed[50] ^= 1;
    assert_eq!(Format::of(&changed), Format::Base);
}

#[test]
fn parameters_of_the_table() {
    let named: Vec<u8> = (0..=255).filter(|number| Parameter::new(*number).name().is_some()).collect();
    assert_eq!(named, [0, 1, 2, 194, 195, 196, 197, 198, 199, 201, 202, 205, 206]);
    for number in named {
        let parameter = Parameter::new(number);
        assert_eq!((parameter.number(), parameter.abbreviation().map(str::len)), (number, Some(3)));
    }
    assert_eq!((Parameter::new(200).abbreviation(), Parameter::new(255).unit()), (None, None));
}

/// The rules list the same parameters, in the same words.
#[test]
fn parameters_of_the_rules() {
    let rules = include_str!("../../../docs/FORMAT.md");
    let list =
        rules.split("**Parameters.** Octet 11 of section 4: ").nth(1).expect("the parameters").split(". ").next().expect("their end");
    let listed: Vec<String> = list.split(';').map(|entry| entry.split_whitespace().collect::<Vec<_>>().join(" ")).collect();
    let told = |parameter: Parameter| {
        let unit = parameter.unit().map_or(String::new(), |unit| format!(", {unit}"));
        Some(format!("{} {} ({}{unit})", parameter.number(), parameter.name()?, parameter.abbreviation()?))
    };
    assert_eq!(listed, (0..=255).filter_map(|number| told(Parameter::new(number))).collect::<Vec<_>>());
}
