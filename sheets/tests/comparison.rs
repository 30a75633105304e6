//! Tests of the comparison itself: it finds nothing wrong with a program that reads and writes as a
//! pipe asks, and finds out programs that do not.

use std::path::Path;
use std::process::Command;
use std::sync::Mutex;

use sheets::feeding::{Feeding, Manner};

const READS_ONCE: &str = concat!(env!("CARGO_MANIFEST_DIR"), "/tests/programs/reads_once");
const DOES_NOT_WAIT: &str = concat!(env!("CARGO_MANIFEST_DIR"), "/tests/programs/does_not_wait");

/// The second planner's program, which `cargo test` of the workspace builds beside this crate's.
fn second_plan() -> String {
    let program = Path::new(env!("CARGO_BIN_EXE_compare")).with_file_name("second_plan");
    assert!(program.exists(), "{} is missing: build the workspace first", program.display());
    program.into_os_string().into_string().expect("a path in Unicode")
}

/// Two comparisons at once would save their differences in one place.
static ONE_AT_A_TIME: Mutex<()> = Mutex::new(());

/// Compares a program on so many texts; answers whether it ends well, and what it prints.
fn compare(program: &str, count: &str) -> (bool, String) {
    let _alone = ONE_AT_A_TIME.lock();
    let mut command = Command::new(env!("CARGO_BIN_EXE_compare"));
    command.args([program, count, "7"]).env("SECOND_PLAN", second_plan());
    let output = command.output().expect("a comparison that can be started");
    (output.status.success(), String::from_utf8(output.stdout).expect("a summary"))
}

/// How many texts a summary says to be given in a manner, and how many of these to have failed.
fn counts(summary: &str, manner: &str) -> (u64, u64) {
    let count = |row: &str| {
        let (all, rest) = row.trim_start().split_once("  ")?;
        let failed = match rest.strip_prefix(manner)? {
            "" => 0,
            remark => remark.strip_prefix(", ")?.strip_suffix(" failed")?.parse().ok()?,
        };
        Some((all.parse().ok()?, failed))
    };
    summary.lines().find_map(count).expect("a manner that comes up")
}

#[test]
fn the_second_planner_agrees_with_itself() {
    let (ends_well, summary) = compare(&second_plan(), "200");
    assert!(ends_well, "{summary}");
    assert!(summary.ends_with("\n202 passed, 0 failed\n"), "{summary}");
}

/// The first text is one loop: all projections are zero, and no block sends to another.
#[test]
fn a_run_in_which_nothing_reaches_the_bound_and_nothing_is_deep_fails() {
    let (ends_well, summary) = compare(&second_plan(), "1");
    assert!(!ends_well, "{summary}");
    assert!(summary.contains("\nfailed: 0 of 1 accepted texts have a block"), "{summary}");
    assert!(summary.contains("\nfailed: 0 of 1 texts are accepted at depth 4\n"), "{summary}");
    assert!(summary.ends_with("\n1 passed, 2 failed\n"), "{summary}");
}

#[test]
fn a_program_that_reads_once_differs() {
    let (ends_well, summary) = compare(READS_ONCE, "200");
    assert!(!ends_well, "{summary}");
    assert_eq!(counts(&summary, "whole").1, 0, "{summary}");
    for manner in ["in pieces", "byte by byte"] {
        let (all, failed) = counts(&summary, manner);
        assert!(all >= 5 && failed >= 1, "{summary}");
    }
}

#[test]
fn a_program_that_does_not_wait_for_its_reader_differs() {
    let (ends_well, summary) = compare(DOES_NOT_WAIT, "200");
    assert!(!ends_well, "{summary}");
    assert!(counts(&summary, "whole, listing taken late").1 >= 1, "{summary}");
}

#[test]
fn all_manners_come_up_and_are_the_same_at_every_run() {
    let manners = |seed| (0..3000).map(move |index| Manner::of(seed, index, 100, 70000));
    let count = |test: fn(&Manner) -> bool| manners(1).filter(test).count();
    assert!((360..=540).contains(&count(|manner| matches!(manner.feeding, Feeding::Pieces(_)))));
    assert!((100..=200).contains(&count(|manner| manner.feeding == Feeding::Bytes)));
    assert!((1350..=1650).contains(&count(|manner| manner.taken_late)));
    assert!(manners(1).eq(manners(1)) && !manners(1).eq(manners(2)));
}
