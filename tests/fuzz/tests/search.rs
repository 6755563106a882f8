//! The search: the same cases from the same seed, no difference in a short one, and wrong exports are found.

mod wrong;

use compare::{Calls, PROVED};
use fuzz::{case, replay, search, Limit, Mark, Operation, Progress, Replayed, Report, Summary};
use std::collections::BTreeSet;
use std::path::{Path, PathBuf};
use std::process::Command;

fn search_cases(calls: &Calls, seed: u64, cases: u64) -> (Summary, Option<Report>) {
    search(calls, seed, Limit::Cases(cases), &mut Progress::silent(), None)
}

fn folder() -> PathBuf {
    Path::new(env!("CARGO_TARGET_TMPDIR")).join("differences")
}

#[test]
fn same_seed_same_cases() {
    for number in [0, 1, 2, 100, 12_345_678_901] {
        assert_eq!(case(7, number), case(7, number));
    }
    let (first, _) = search_cases(&PROVED, 7, 300);
    let (second, _) = search_cases(&PROVED, 7, 300);
    assert_eq!(first, Summary { time: first.time, ..second });
}

/// No two cases of some searches are the same, and neighbouring seeds share none.
#[test]
fn other_seeds_other_cases() {
    let memories: BTreeSet<u64> = (0..20).flat_map(|seed| (0..200).map(move |number| case(seed, number).memory)).collect();
    assert_eq!(memories.len(), 20 * 200);
}

/// What has to come up in a short search, and how each export answers then.
const ANSWERS: [(&str, &[i64]); 33] = [
    ("dxl_crc16", &[0]),
    ("dxl_crc16_flipped", &[0]),
    ("dxl_encode", &[0, -11, -12, -13]),
    ("dxl_p1_encode", &[0, -11, -12, -13]),
    ("dxl_mercury_encode", &[0, -11, -12, -13]),
    ("dxl_unstuff", &[0, -13, -14]),
    ("dxl_feed", &[0, 1, 2, 25]),
    ("dxl_gap", &[0, 1, 2, 25]),
    ("dxl_reader_feed", &[0, 1, 2, 25]),
    ("dxl_reader_gap", &[0, 1, 2, 25]),
    ("dxl_p1_feed", &[0, 1, 2, 25]),
    ("dxl_p1_gap", &[0, 1, 2, 25]),
    ("dxl_mercury_feed", &[0, 1, 2, 25]),
    ("dxl_mercury_gap", &[0, 1, 2, 25]),
    ("dxl_next_event", &[0, 1, 2]),
    ("dxl_log_write", &[0, -13, -31]),
    ("dxl_log_check", &[0, -31, -34]),
    ("dxl_log_last", &[0, 1, -31, -32]),
    ("dxl_log_salvage", &[0, -13, -33]),
    ("entries dropped", &[0, 1]),
    ("dxl_fresh", &[0, -21]),
    ("dxl_measure", &[0, -21]),
    ("dxl_device", &[0, -21, -22, -23, -24]),
    ("dxl_exchange", &[0, -13, -14, -21, -22, -23, -24]),
    ("dxl_carry_out", &[0, -21, -22, -23]),
    ("dxl_carry_out_packet", &[0, -13, -14, -21, -22, -23]),
    ("dxl_status", &[0, -11, -12, -24]),
    ("dxl_board_feed_parts", &[0, 1, 2, 22, 23, 25]),
    ("dxl_board_gap_parts", &[0, 1, 2, 22, 23, 25]),
    ("error of a board", &[0, 2, 3, 4, 5, 6, 7]),
    ("dxl_plan", &[0, -13, -41, -42]),
    ("dxl_plan_check", &[0, 1, -41, -42]),
    ("error", &[0, 2, 3, 4, 5, 6, 7]),
];

/// [D41]
#[test]
fn no_difference_in_a_short_search() {
    let (summary, report) = search_cases(&PROVED, 1, 10_000);
    assert_eq!(report.map(|report| report.found), None);
    assert_eq!(summary.cases, 10_000);
    for (what, numbers) in ANSWERS {
        for &number in numbers {
            let seen = summary.tally.seen(what, number);
            assert!(seen >= 100, "{what} {number} came up only {seen} times");
        }
        let others = summary.tally.answers.keys().find(|(name, number)| *name == what && !numbers.contains(number));
        assert_eq!(others, None);
    }
    assert!(summary.tally.seen("slot above 0", 1) >= 100);
}

/// Every wrong export is found and named; the file that is written then shows the same, and nothing with the right exports.
#[test]
fn wrong_exports_are_found() {
    let folder = folder();
    for (seed, wrong) in (0..).zip(wrong::all()) {
        let (_, report) = search_cases(&wrong.calls, seed, 20_000);
        let report = report.unwrap_or_else(|| panic!("{} was not found: {}", wrong.export, wrong.what));
        let difference = &report.found.difference;
        assert_eq!((difference.export, &difference.what[..]), (wrong.export, wrong.what), "{difference}");
        assert_ne!(difference.expected, difference.got);

        let file = report.save(&folder).expect("the folder can be written");
        assert_eq!(file, folder.join(format!("difference-{seed}-{}.txt", report.number)));
        assert_eq!(replay(&wrong.calls, &file), Ok(Replayed::Differs(report.found)));
        assert!(matches!(replay(&PROVED, &file), Ok(Replayed::Same { calls: 1.. })));
    }
}

/// A shrunk case needs each of its operations.
#[test]
fn shrunk_cases_are_short() {
    for (seed, wrong) in (100..).zip(wrong::all()) {
        let (_, report) = search_cases(&wrong.calls, seed, 20_000);
        let case = report.expect("the wrong export is found").case;
        for at in 0..case.operations.len() {
            let mut shorter = case.clone();
            shorter.operations.remove(at);
            let found = fuzz::run(&wrong.calls, &shorter, &mut fuzz::Tally::default());
            let same = found.err().is_some_and(|found| found.difference.export == wrong.export);
            assert!(!same, "{}: operation {at} of {case:02x?} is not needed", wrong.export);
        }
    }
}

/// Where the comparison itself fails, that is a finding, and its case is kept.
#[test]
fn a_panic_is_found() {
    let calls = Calls { crc16: |_, _| panic!("a test of what happens then"), ..PROVED };
    let (_, report) = search_cases(&calls, 200, 1_000);
    let report = report.expect("most searches begin with a checksum soon");
    assert_eq!(&report.found.difference.what, "a panic");
    assert_eq!(report.case, case(200, report.number));
    assert!(report.case.operations.iter().any(is_checksum));
}

const CRASHING_SEED: u64 = 201;
/// Set in the process that is to crash.
const CRASH: &str = "MEDNUKALS_FUZZ_CRASH";

fn crash() {
    let calls = Calls { crc16: |_, _| std::process::abort(), ..PROVED };
    let mark = Mark::new(&folder(), CRASHING_SEED).expect("the folder can be written");
    search(&calls, CRASHING_SEED, Limit::Cases(1_000), &mut Progress::silent(), Some(&mark));
}

/// A call that ends the process leaves the number of its case; a search that ends leaves none. This test runs itself once more,
/// as the process that crashes.
#[test]
fn a_crash_leaves_its_mark() {
    if std::env::var_os(CRASH).is_some() {
        return crash();
    }
    let test = std::env::current_exe().expect("this test has a path");
    let child = Command::new(test).args(["--exact", "a_crash_leaves_its_mark"]).env(CRASH, "1").output().expect("it runs");
    assert_eq!(child.status.code(), None, "the process was to be ended by a signal");

    let has_checksum = |&number: &u64| case(CRASHING_SEED, number).operations.iter().any(is_checksum);
    let crashed = (0..1_000).find(has_checksum).expect("a search has checksums");
    let path = folder().join(format!("running-{CRASHING_SEED}.txt"));
    let mark = std::fs::read_to_string(&path).expect("the mark is there");
    assert_eq!(mark, format!("--seed {CRASHING_SEED} --case {crashed}\n"));

    let mark = Mark::new(&folder(), CRASHING_SEED).expect("the folder can be written");
    search(&PROVED, CRASHING_SEED, Limit::Cases(3), &mut Progress::silent(), Some(&mark));
    drop(mark);
    assert!(!path.exists());
}

fn is_checksum(operation: &Operation) -> bool {
    matches!(operation, Operation::Checksum { .. })
}
