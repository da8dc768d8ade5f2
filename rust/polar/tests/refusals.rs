//! A `match` over the reasons of calls on a file, and one over those of bare run calls, as a caller writes them: neither has a wildcard, so
//! that this compiles only where no case is missing.
use polar::{runs, Reason};

fn number_of_file(reason: Reason) -> u32 {
    match reason {
        Reason::FileSize => 1,
        Reason::Section0 => 2,
        Reason::Frame => 3,
        Reason::SectionLength => 4,
        Reason::Field => 5,
        Reason::Points => 6,
        Reason::Table => 7,
        Reason::Data => 8,
        Reason::CutCount => 9,
        Reason::Argument => 10,
        Reason::Room => 11,
        Reason::Record => 13,
        Reason::Unread => 14,
    }
}

fn number_of_run(reason: runs::Reason) -> u32 {
    match reason {
        runs::Reason::Data => 8,
        runs::Reason::Argument => 10,
        runs::Reason::Room => 11,
        runs::Reason::V => 12,
    }
}

#[test]
fn of_calls_on_a_file() {
    assert!(Reason::ALL.iter().all(|reason| number_of_file(*reason) == reason.number()));
}

#[test]
fn of_bare_run_calls() {
    assert!(runs::Reason::ALL.iter().all(|reason| number_of_run(*reason) == reason.number()));
}
