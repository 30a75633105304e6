//! Compares a planning program with the second planner on generated texts.
//!
//!     compare PLAN_PROGRAM COUNT SEED
//!
//! Each of COUNT texts is given to PLAN_PROGRAM on standard input, some in pieces or byte by byte,
//! and some listings are taken late; what it prints must be the second planner's listing, byte for
//! byte. In an accepted text no block may send to more others than 2m - β, the bound of document
//! 02, U3. The first texts that fail are saved in the directory `differences` beside the one that
//! this program stands in (target/differences).
//!
//! Two tests more are of the texts as a whole. In some text a block sends to as many others as the
//! bound allows; texts without one would not tell whether the bound is larger than it has to be.
//! And one text in six at least is accepted and has as many loops as there may be: of 6000 texts
//! 1000. Both take a COUNT of a few hundred. The last line says 'N passed, M failed'; the exit
//! status is 0 only if all COUNT texts and these two tests passed.

use std::collections::BTreeMap;
use std::io;
use std::path::{Path, PathBuf};
use std::process::ExitCode;
use std::sync::atomic::{AtomicU64, Ordering};
use std::sync::Mutex;
use std::{env, fs, thread};

use second::nest::LoopNest;
use second::{listing, text};
use sheets::feeding::{self, Manner};
use sheets::receivers::Counted;
use sheets::Case;

/// How many runs of the program there are at once.
const RUNS_AT_ONCE: usize = 2;
/// How many texts that failed are saved.
const MOST_SAVED: usize = 20;
/// One text in so many at least is accepted and of the greatest depth.
const DEEPEST_ONE_IN: usize = 6;
/// How many tests there are beside those of each text.
const TESTS_OF_ALL: usize = 2;

/// What the user asked for.
struct Request {
    program: String,
    count: u64,
    seed: u64,
}

/// How one text fared.
struct Outcome {
    index: u64,
    family: &'static str,
    kind: String,
    /// How it was given and its listing taken.
    manner: &'static str,
    /// What the second planner makes of the text, for the summary.
    answer: String,
    /// Whether it is accepted and has as many loops as there may be.
    is_deepest: bool,
    /// How many others the blocks of an accepted text send to, and the bound.
    counted: Option<Counted>,
    failure: Option<Failure>,
}

/// A text that failed, with both listings, and why it did.
struct Failure {
    text: Vec<u8>,
    expected: Vec<u8>,
    printed: Vec<u8>,
    reason: String,
}

fn main() -> ExitCode {
    let Some(request) = read_request() else {
        eprintln!("usage: compare PLAN_PROGRAM COUNT SEED (COUNT at least 1)");
        return ExitCode::from(2);
    };
    match compare_all(&request) {
        Ok(outcomes) => report(&request, &outcomes),
        Err(error) => {
            eprintln!("cannot compare with {}: {error}", request.program);
            ExitCode::from(2)
        }
    }
}

fn read_request() -> Option<Request> {
    let arguments: Vec<String> = env::args().skip(1).collect();
    let [program, count, seed] = &arguments[..] else {
        return None;
    };
    let request =
        Request { program: program.clone(), count: count.parse().ok()?, seed: seed.parse().ok()? };
    (request.count > 0).then_some(request)
}

/// Compares all texts, several at once, and answers the outcomes by index.
fn compare_all(request: &Request) -> io::Result<Vec<Outcome>> {
    let next = AtomicU64::new(0);
    let outcomes = Mutex::new(Vec::new());
    thread::scope(|scope| {
        let workers: Vec<_> = (0..RUNS_AT_ONCE)
            .map(|_| scope.spawn(|| compare_in_turn(request, &next, &outcomes)))
            .collect();
        workers.into_iter().try_for_each(|worker| worker.join().expect("a worker that ends"))
    })?;
    let mut outcomes = outcomes.into_inner().expect("no worker that stopped halfway");
    outcomes.sort_by_key(|outcome| outcome.index);
    Ok(outcomes)
}

/// Takes the next text again and again until none is left.
fn compare_in_turn(
    request: &Request,
    next: &AtomicU64,
    outcomes: &Mutex<Vec<Outcome>>,
) -> io::Result<()> {
    loop {
        let index = next.fetch_add(1, Ordering::Relaxed);
        if index >= request.count {
            return Ok(());
        }
        let outcome = compare_one(request, index)?;
        outcomes.lock().expect("no worker that stopped halfway").push(outcome);
    }
}

fn compare_one(request: &Request, index: u64) -> io::Result<Outcome> {
    let Case { family, kind, text } = sheets::case(request.seed, index);
    let expected = listing::listing(&text).into_bytes();
    let read = text::read(&text);
    let answer = match &read {
        Ok(nest) => format!("accepted, depth {}", nest.depth),
        Err(number) => format!("refused, number {number:2}"),
    };
    let is_deepest = read.as_ref().is_ok_and(|nest| nest.depth == *LoopNest::DEPTHS.end());
    let counted = read.ok().map(|nest| Counted::of(&nest));
    let manner = Manner::of(request.seed, index, text.len(), expected.len());
    let (printed, ending) = feeding::run(&request.program, &text, &manner)?;
    let reason = ending.or_else(|| reason_of_failure(printed == expected, counted));
    let failure = reason.map(|reason| Failure { text, expected, printed, reason });
    let manner = manner.name();
    Ok(Outcome { index, family, kind, manner, answer, is_deepest, counted, failure })
}

/// Why a text failed on which the program ended by itself, if it did. Where the listings are the
/// same, so are the blocks, and what the second planner counts on its own is counted on the
/// program's.
fn reason_of_failure(same: bool, counted: Option<Counted>) -> Option<String> {
    if !same {
        Some("another listing".into())
    } else if counted.is_some_and(|counted| counted.exceeds()) {
        Some("a block that sends to more others than the bound allows".into())
    } else {
        None
    }
}

/// What is counted on the texts in which a block sends to as many others as the bound allows.
fn reaching(outcomes: &[Outcome]) -> Vec<Counted> {
    let counted = outcomes.iter().filter_map(|outcome| outcome.counted);
    counted.filter(Counted::reaches).collect()
}

/// How many texts are accepted and of the greatest depth, and whether that is enough.
fn deepest(outcomes: &[Outcome]) -> (usize, bool) {
    let count = outcomes.iter().filter(|outcome| outcome.is_deepest).count();
    (count, count > 0 && count * DEEPEST_ONE_IN >= outcomes.len())
}

/// How many tests passed and failed: one for each text, one that the bound is reached, and one that
/// enough texts are of the greatest depth.
fn tests(outcomes: &[Outcome]) -> (usize, usize) {
    let failed_texts = outcomes.iter().filter(|outcome| outcome.failure.is_some()).count();
    let failed_of_all = [reaching(outcomes).is_empty(), !deepest(outcomes).1];
    let failed = failed_texts + failed_of_all.iter().filter(|&&failed| failed).count();
    (outcomes.len() + TESTS_OF_ALL - failed, failed)
}

/// Prints the summary and saves the first texts that failed.
fn report(request: &Request, outcomes: &[Outcome]) -> ExitCode {
    print_counts("By what the text was made as:", outcomes, |outcome| outcome.family);
    print_counts("By how the text was given:", outcomes, |outcome| outcome.manner);
    print_counts("By the second planner's answer:", outcomes, |outcome| &outcome.answer);
    if let Err(error) = save_failures(outcomes) {
        println!("Texts that failed could not be saved: {error}");
    }
    print_bound(outcomes);
    print_deepest(outcomes);
    let (passed, failed) = tests(outcomes);
    println!("{passed} passed, {failed} failed");
    if failed == 0 && passed as u64 == request.count + TESTS_OF_ALL as u64 {
        ExitCode::SUCCESS
    } else {
        ExitCode::FAILURE
    }
}

/// Prints how many of the accepted texts reach the bound, and how many of these have a dependence
/// that is not chosen, for which the bound has two blocks.
fn print_bound(outcomes: &[Outcome]) {
    let accepted = outcomes.iter().filter(|outcome| outcome.counted.is_some()).count();
    let reaching = reaching(outcomes);
    let with_two = reaching.iter().filter(|counted| counted.not_chosen > 0).count();
    let verdict = if reaching.is_empty() { "failed: " } else { "" };
    println!(
        "{verdict}{} of {accepted} accepted texts have a block that sends to 2m - β others, \
         {with_two} of them with m above β",
        reaching.len()
    );
}

/// Prints how many texts are accepted and of the greatest depth.
fn print_deepest(outcomes: &[Outcome]) {
    let (count, is_enough) = deepest(outcomes);
    let (verdict, depth) = (if is_enough { "" } else { "failed: " }, LoopNest::DEPTHS.end());
    println!("{verdict}{count} of {} texts are accepted at depth {depth}", outcomes.len());
}

/// Prints how many texts were compared under each heading, and how many of them failed.
fn print_counts(title: &str, outcomes: &[Outcome], heading: impl Fn(&Outcome) -> &str) {
    let mut counts: BTreeMap<&str, (usize, usize)> = BTreeMap::new();
    for outcome in outcomes {
        let (all, failed) = counts.entry(heading(outcome)).or_default();
        *all += 1;
        *failed += usize::from(outcome.failure.is_some());
    }
    println!("{title}");
    for (name, (all, failed)) in counts {
        let remark = if failed > 0 { format!(", {failed} failed") } else { String::new() };
        println!("{all:8}  {name}{remark}");
    }
}

/// target/differences, found from the place of this program (target/release/compare).
fn differences_directory() -> io::Result<PathBuf> {
    let program = env::current_exe()?;
    let target = program.parent().and_then(Path::parent).unwrap_or(Path::new("target"));
    Ok(target.join("differences"))
}

/// Saves the first texts that failed with both listings; those of an earlier comparison go.
fn save_failures(outcomes: &[Outcome]) -> io::Result<()> {
    let directory = differences_directory()?;
    if directory.exists() {
        fs::remove_dir_all(&directory)?;
    }
    let failed = outcomes.iter().filter_map(|outcome| Some((outcome, outcome.failure.as_ref()?)));
    for (outcome, failure) in failed.take(MOST_SAVED) {
        fs::create_dir_all(&directory)?;
        let file = |ending: &str| directory.join(format!("{:06}.{ending}", outcome.index));
        fs::write(file("text"), &failure.text)?;
        fs::write(file("expected"), &failure.expected)?;
        fs::write(file("printed"), &failure.printed)?;
        let Outcome { index, family, kind, manner, .. } = outcome;
        println!("failed: {index:06} ({family}: {kind}; {manner}; {})", failure.reason);
    }
    Ok(())
}

#[cfg(test)]
mod tests {
    use super::*;

    /// The outcome of a text of the greatest depth whose listings are the same or not, and whose
    /// blocks send to so many others at most where 3 are allowed.
    fn outcome(same: bool, most: Option<usize>) -> Outcome {
        let counted = most.map(|most| Counted { most, bound: 3, not_chosen: 1 });
        let failure = reason_of_failure(same, counted).map(|reason| Failure {
            text: Vec::new(),
            expected: Vec::new(),
            printed: Vec::new(),
            reason,
        });
        let (kind, answer, is_deepest) = (String::new(), String::new(), true);
        Outcome { index: 0, family: "", kind, manner: "", answer, is_deepest, counted, failure }
    }

    #[test]
    fn a_block_above_the_bound_fails_its_text() {
        let fails = |most| outcome(true, most).failure.is_some();
        let most = [None, Some(0), Some(2), Some(3), Some(4), Some(5)];
        assert_eq!(most.map(fails), [false, false, false, false, true, true]);
        let outcomes = [outcome(true, Some(3)), outcome(true, Some(4)), outcome(true, None)];
        assert_eq!(tests(&outcomes), (4, 1));
    }

    #[test]
    fn another_listing_fails_its_text_whatever_its_blocks_send() {
        assert_eq!(tests(&[outcome(false, None), outcome(false, Some(3))]), (2, 2));
    }

    /// A bound that is exceeded is not reached.
    #[test]
    fn a_run_in_which_nothing_reaches_the_bound_fails() {
        let below = || outcome(true, Some(2));
        assert_eq!(tests(&[below(), outcome(true, None), below()]), (4, 1));
        assert_eq!(tests(&[below(), outcome(true, Some(4))]), (2, 2));
        assert_eq!(tests(&[below(), outcome(true, Some(3))]), (4, 0));
        assert_eq!(tests(&[]), (0, 2));
    }

    /// One of six is enough, one of seven is not, and none never is.
    #[test]
    fn a_run_with_too_few_texts_of_the_greatest_depth_fails() {
        let of = |count: usize, deep: usize| -> Vec<Outcome> {
            let text = |place| Outcome { is_deepest: place < deep, ..outcome(true, Some(3)) };
            (0..count).map(text).collect()
        };
        assert_eq!(tests(&of(6, 1)), (8, 0));
        assert_eq!(tests(&of(7, 1)), (8, 1));
        assert_eq!(tests(&of(12, 2)), (14, 0));
        assert_eq!(tests(&of(1, 0)), (2, 1));
    }
}
