//! Tries lists of moves on the proved entries, as the static library exports them.
//!
//!     trial [SEED]
//!
//! The last line says 'N passed, M failed', a case for each list; the exit status is 0 only if
//! nothing failed.

mod proved;

use std::process::ExitCode;

use second::nest::LoopNest;
use trial::suite::{self, Report, Sizes, Tally};

/// How many differences are shown.
const MOST_SHOWN: usize = 10;

const SIZES: Sizes = Sizes { accepted: 475, refused: 400, full: 6 };

fn main() -> ExitCode {
    let seed = match std::env::args().nth(1).map(|argument| argument.parse()) {
        None => 1,
        Some(Ok(seed)) => seed,
        Some(Err(_)) => {
            eprintln!("usage: trial [SEED]");
            return ExitCode::from(2);
        }
    };
    let report = suite::try_all(&proved::Proved, seed, SIZES);
    print_counts(&report);
    for difference in report.differences.iter().take(MOST_SHOWN) {
        println!("differs: {difference}");
    }
    let Tally { lists, failed, .. } = report.total();
    println!("{} passed, {failed} failed", lists - failed);
    if failed == 0 && lists > 0 {
        ExitCode::SUCCESS
    } else {
        ExitCode::FAILURE
    }
}

/// Prints how many lists and moves there were of each kind.
fn print_counts(report: &Report) {
    println!("{:>7} {:>9} {:>9} {:>9}", "lists", "computed", "delivered", "refused");
    let total = report.total();
    let lines = report.tallies.iter().map(|(kind, tally)| (*kind, tally));
    for (kind, tally) in lines.chain([("in all", &total)]) {
        let refused: u64 = tally.answers[1..].iter().sum();
        let Tally { lists, computed, delivered, .. } = tally;
        println!("{lists:>7} {computed:>9} {delivered:>9} {refused:>9}  {kind}");
    }
    let refusals = (1..total.answers.len()).filter(|&number| total.answers[number] > 0);
    let refusals: Vec<String> =
        refusals.map(|number| format!("{number}: {}", total.answers[number])).collect();
    println!("moves refused, by number: {}", refusals.join(", "));
    let of_depth = |depth: i64| report.nests.get(&("depth", depth)).copied().unwrap_or_default();
    let depths: Vec<String> =
        LoopNest::DEPTHS.map(|depth| format!("{depth}: {}", of_depth(depth))).collect();
    println!("accepted nests, by depth: {}", depths.join(", "));
}
